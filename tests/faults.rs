//! A library to preload: reads and writes that are cut short, broken off by a signal, not ready yet, or that fail, by a
//! fixed plan. FAULTS is a list of words, taken in turn for each read of descriptor 0 or of an opened file, wherever in the
//! file, and each write of descriptor 1: `ok`, `short` (one byte), `intr`, `again`, `eio`, and `nospc`; the last word holds from
//! then on.
use std::os::raw::{c_int, c_long, c_void};
use std::sync::atomic::{AtomicUsize, Ordering};

extern "C" {
    fn syscall(number: c_long, ...) -> c_long;
    fn __errno_location() -> *mut c_int;
}

const READ: c_long = 0;
const WRITE: c_long = 1;
const PREAD: c_long = 17;

static TURN: AtomicUsize = AtomicUsize::new(0);

fn word() -> String {
    let plan = std::env::var("FAULTS").unwrap_or_default();
    let turn = TURN.fetch_add(1, Ordering::SeqCst);
    let words: Vec<&str> = plan.split_whitespace().collect();
    match words.last() {
        None => "ok".to_string(),
        Some(last) => words.get(turn).unwrap_or(last).to_string(),
    }
}

unsafe fn faulty(number: c_long, fd: c_int, buf: *mut c_void, count: usize, place: i64) -> isize {
    let error = match word().as_str() {
        "short" => return syscall(number, fd, buf, count.min(1), place) as isize,
        "intr" => 4,
        "eio" => 5,
        "again" => 11,
        "nospc" => 28,
        _ => return syscall(number, fd, buf, count, place) as isize,
    };
    *__errno_location() = error;
    -1
}

/// # Safety
/// As C's read.
#[no_mangle]
pub unsafe extern "C" fn read(fd: c_int, buf: *mut c_void, count: usize) -> isize {
    faulty(READ, fd, buf, count, 0)
}

/// # Safety
/// As C's pread.
#[no_mangle]
pub unsafe extern "C" fn pread(fd: c_int, buf: *mut c_void, count: usize, place: i64) -> isize {
    faulty(PREAD, fd, buf, count, place)
}

/// # Safety
/// As C's write.
#[no_mangle]
pub unsafe extern "C" fn write(fd: c_int, buf: *const c_void, count: usize) -> isize {
    if fd == 2 {
        return syscall(WRITE, fd, buf, count) as isize;
    }
    faulty(WRITE, fd, buf as *mut c_void, count, 0)
}
