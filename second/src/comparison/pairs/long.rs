//! Pairs of the longest traces, which a program must compare in little more
//! memory than it takes for two empty ones.

use std::ffi::OsStr;
use std::io;
use std::path::PathBuf;
use std::sync::Mutex;

use crate::comparison::memory::{least_memory, BRIEF, LONGEST, MORE_MEMORY};
use crate::comparison::pair::on_all_cores;
use crate::comparison::pairs::asked::{pair_lines, Due};
use crate::comparison::pairs::Programs;
use crate::comparison::robust::long_trace;
use crate::comparison::tally::Tally;
use crate::comparison::watch::{Program, Watch, PATIENCE};
use crate::generator::random::Random;
use crate::trace::record::{decode, PLAN};

/// Tries the longest pairs, each as one check.
pub fn check(programs: &Programs, seed: u64, tally: &Mutex<Tally>) -> io::Result<()> {
    let ours = &programs.ours;
    let found = Mutex::new(None);
    on_all_cores(1, BRIEF, |watch, _| {
        *found.lock().unwrap() = least_of(ours, watch)?;
        Ok(())
    })?;
    let memory = match found.into_inner().unwrap() {
        Some(least) => least + MORE_MEMORY,
        None => {
            let reason = "our program does not take two empty traces in any memory (ulimit -v)";
            tally.lock().unwrap().fail(reason);
            return Ok(());
        }
    };
    println!(
        "memory: our program is held to {} KiB: {} more than it needs for two empty traces",
        memory, MORE_MEMORY
    );
    let held = Programs {
        ours: ours.within(memory),
        lent: programs.lent.clone(),
    };
    let whole = whole_trace(seed)?;
    let others = others(&whole, seed);
    on_all_cores(others.len(), PATIENCE, |watch, number| {
        let (name, other) = &others[number];
        // The sides take turns.
        let traces: [&[u8]; 2] = match number % 2 {
            0 => [&whole, other],
            _ => [other, &whole],
        };
        // Too long to be lent, so no number is asked.
        let due = Due {
            name: format!("{} bytes of seed {}, {}", whole.len(), seed, name),
            traces,
            lines: pair_lines(traces, None)?,
            lent: Vec::new(),
        };
        due.try_programs(&held, watch, tally)
    })
}

fn least_of(ours: &Program, watch: &Watch) -> io::Result<Option<u64>> {
    let empty: PathBuf = watch.put(&[])?;
    let words: [&OsStr; 2] = [empty.as_os_str(), empty.as_os_str()];
    let due = pair_lines([&[], &[]], None)?;
    least_memory(|memory| {
        let ran = watch.run_on(&ours.within(memory), &words)?;
        Ok(ran.fault.is_none() && ran.lines == due.as_bytes())
    })
}

/// A trace of about the longest length, without its cut record.
fn whole_trace(seed: u64) -> io::Result<Vec<u8>> {
    let mut trace = long_trace(LONGEST, seed)?;
    let mut place = 0;
    while let Ok(Some((_, behind))) = decode(&trace, place) {
        place = behind;
    }
    trace.truncate(place);
    Ok(trace)
}

/// What the trace is compared with: itself, itself shifted, a prefix, and with
/// an error or a difference far behind.
fn others(whole: &[u8], seed: u64) -> Vec<(&'static str, Vec<u8>)> {
    let mut random = Random::new(seed);
    let length = whole.len();
    let mut behind = || length - 1 - random.below(length as u64 / 10) as usize;
    let mut changed = whole.to_vec();
    changed[behind()] ^= 0x40;
    let mut shifted = vec![PLAN];
    shifted.extend_from_slice(whole);
    let mut unknown = whole.to_vec();
    unknown.push(0);
    vec![
        ("equal", whole.to_vec()),
        ("a byte changed far behind", changed),
        ("cut far behind", whole[..behind()].to_vec()),
        ("shifted", shifted),
        ("an unknown kind at the end", unknown),
        ("empty", Vec::new()),
    ]
}
