//! Runs a program in a setting that a shell cannot make, with the status that it ends with, which is 128 and the signal where
//! one ends it.
//! `setting nonblocking CMD..`: its standard input and output do not wait.
//! `setting watched CMD..`: its standard error is a terminal, and what it writes there goes to standard error.
//! `setting shown CMD..`: its standard output is that terminal too.
//! `setting typed CMD..`: its standard input is a terminal, on which the end is typed.
//! `setting typing TEXT KEYS CMD..`: it runs on a terminal of its own, which is its standard input and error. The keys are typed
//! once the text is seen there, and what was seen goes to standard error when nothing that was started is on the terminal.
use std::fs::File;
use std::io::{Read, Write};
use std::os::raw::{c_char, c_int, c_ulong};
use std::os::unix::io::FromRawFd;
use std::os::unix::process::{CommandExt, ExitStatusExt};
use std::process::{Child, Command, Stdio};

extern "C" {
    fn fcntl(fd: c_int, command: c_int, ...) -> c_int;
    fn ioctl(fd: c_int, request: c_ulong, ...) -> c_int;
    fn setsid() -> c_int;
    fn posix_openpt(flags: c_int) -> c_int;
    fn grantpt(fd: c_int) -> c_int;
    fn unlockpt(fd: c_int) -> c_int;
    fn ptsname(fd: c_int) -> *const c_char;
}

const F_GETFL: c_int = 3;
const F_SETFL: c_int = 4;
const O_NONBLOCK: c_int = 0o4000;
const O_RDWR: c_int = 2;
const O_NOCTTY: c_int = 0o400;
const TIOCSCTTY: c_ulong = 0x540e;

fn do_not_wait(fd: c_int) {
    unsafe { fcntl(fd, F_SETFL, fcntl(fd, F_GETFL) | O_NONBLOCK) };
}

fn terminal() -> (File, File) {
    unsafe {
        let manager = posix_openpt(O_RDWR | O_NOCTTY);
        assert!(manager >= 0 && grantpt(manager) == 0 && unlockpt(manager) == 0, "no terminal to be had");
        let name = std::ffi::CStr::from_ptr(ptsname(manager)).to_str().unwrap().to_string();
        let other = std::fs::OpenOptions::new().read(true).write(true).open(name).unwrap();
        (File::from_raw_fd(manager), other)
    }
}

/// Makes the terminal that is standard input the one whose keys send signals.
fn lead_a_session() -> std::io::Result<()> {
    if unsafe { setsid() < 0 || ioctl(0, TIOCSCTTY, 0) < 0 } {
        return Err(std::io::Error::last_os_error());
    }
    Ok(())
}

/// What is seen on a terminal until nobody holds it any more, which is an error of the read. The keys are typed once the text
/// is there.
fn seen(manager: &mut File, text: &[u8], keys: &[u8]) -> Vec<u8> {
    let (mut seen, mut part, mut typed) = (Vec::new(), [0; 4096], false);
    while let Ok(count @ 1..) = manager.read(&mut part) {
        seen.extend_from_slice(&part[..count]);
        if !typed && seen.windows(text.len()).any(|window| window == text) {
            manager.write_all(keys).unwrap();
            typed = true;
        }
    }
    seen
}

/// Shows what a program left on its terminal, and waits for it.
fn closed(mut child: Child, mut manager: File, text: &str, keys: &str) -> std::process::ExitStatus {
    let seen = seen(&mut manager, text.as_bytes(), keys.as_bytes());
    std::io::stderr().write_all(&seen).unwrap();
    child.wait().unwrap()
}

fn command(words: &[String]) -> Command {
    let mut command = Command::new(&words[0]);
    command.args(&words[1..]);
    command
}

fn main() {
    let words: Vec<String> = std::env::args().skip(1).collect();
    let ended = match words[0].as_str() {
        "nonblocking" => {
            do_not_wait(0);
            do_not_wait(1);
            command(&words[1..]).status().unwrap()
        }
        "typed" => {
            let (mut manager, other) = terminal();
            manager.write_all(b"\x04").unwrap();
            command(&words[1..]).stdin(Stdio::from(other)).status().unwrap()
        }
        "watched" | "shown" => {
            let (manager, other) = terminal();
            let mut command = command(&words[1..]);
            if words[0] == "shown" {
                command.stdout(Stdio::from(other.try_clone().unwrap()));
            }
            let child = command.stderr(Stdio::from(other)).spawn().unwrap();
            drop(command);
            closed(child, manager, "never seen", "")
        }
        "typing" => {
            let (manager, other) = terminal();
            let mut command = command(&words[3..]);
            command.stdin(Stdio::from(other.try_clone().unwrap())).stderr(Stdio::from(other));
            unsafe { command.pre_exec(lead_a_session) };
            let child = command.spawn().unwrap();
            drop(command);
            closed(child, manager, &words[1], &words[2])
        }
        other => panic!("no such setting: {}", other),
    };
    std::process::exit(ended.code().unwrap_or_else(|| 128 + ended.signal().unwrap()));
}
