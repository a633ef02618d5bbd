//! Damaged traces of every length, on which both programs must agree, end
//! soon and stay within a fixed memory, and so must this one where it asks.

use std::io;
use std::sync::Mutex;
use std::time::Duration;

use crate::comparison::memory::{least_memory, BRIEF, LONGEST, MORE_MEMORY};
use crate::comparison::pair::{on_all_cores, Pair};
use crate::comparison::tally::Tally;
use crate::comparison::watch::{Feed, Program, Ran, Watch};
use crate::engine::rules::Rules;
use crate::generator::damage::{repeat_behind_setup, scatter};
use crate::generator::generate::generate;
use crate::generator::random::Random;
use crate::generator::style::Style;
use crate::trace::record::{Record, LAST};
use crate::trace::stream::Reader;

/// A program that takes longer than this for the longest trace hangs.
const PATIENCE: Duration = Duration::from_secs(300);

/// How a trace is damaged, and its length.
#[derive(Clone, Copy, Debug)]
enum Damage {
    /// A small good trace, cut at a place.
    Cut(usize),
    /// A small good trace with one byte changed.
    Changed(usize, u8),
    /// A generated trace, cut at a length.
    LongCut(u64),
    /// The same with a byte changed in its last part.
    LongChanged(u64),
    /// The same with some bytes changed anywhere.
    LongScattered(u64),
    /// A good setup with noise behind it, or nothing but noise.
    LongNoise(u64),
    /// A good setup with one byte value over and over behind it.
    LongRepeat(u64),
}

impl Damage {
    fn is_long(self) -> bool {
        !matches!(self, Damage::Cut(_) | Damage::Changed(..))
    }

    /// The damaged trace; `small` is the good one to damage.
    fn trace(self, small: &[u8], seed: u64) -> io::Result<Vec<u8>> {
        let mut random = Random::new(seed);
        match self {
            Damage::Cut(place) => Ok(small[..place].to_vec()),
            Damage::Changed(place, byte) => {
                let mut trace = small.to_vec();
                trace[place] = byte;
                Ok(trace)
            }
            Damage::LongCut(length) => long_trace(length, seed),
            Damage::LongChanged(length) => {
                let mut trace = long_trace(length, seed)?;
                let place = trace.len() - 1 - random.below(length / 10) as usize;
                trace[place] = random.number() as u8;
                Ok(trace)
            }
            Damage::LongScattered(length) => {
                let mut trace = long_trace(length, seed)?;
                scatter(&mut trace, &mut random);
                Ok(trace)
            }
            Damage::LongNoise(length) => {
                let mut trace = Vec::new();
                generate(seed, length, Style::Noise, &mut trace)?;
                Ok(trace)
            }
            Damage::LongRepeat(length) => {
                let mut trace = long_trace(length, seed)?;
                repeat_behind_setup(&mut trace, &mut random);
                Ok(trace)
            }
        }
    }
}

/// A small good trace: the first from a seed on that sets a weight and has a
/// flush, so that such records are cut and changed too.
fn small_trace(seed: u64) -> io::Result<Vec<u8>> {
    let mut step = 0;
    loop {
        let mut trace = Vec::new();
        generate(seed.wrapping_add(step), 26, Style::Valid, &mut trace)?;
        let mut reader = Reader::new(&trace);
        let (mut weight, mut flush) = (false, false);
        while let Ok(Some(record)) = reader.next() {
            match record {
                Record::Weight { .. } => weight = true,
                Record::Bio(bio) => flush = flush || bio.is_flush(Rules::TRUE),
                _ => {}
            }
        }
        if weight && flush {
            return Ok(trace);
        }
        step += 1;
    }
}

/// A generated trace of so many bytes, most likely cut inside a record.
pub fn long_trace(length: u64, seed: u64) -> io::Result<Vec<u8>> {
    let mut trace = Vec::new();
    // A record takes 7 bytes at the very least on the average.
    generate(seed, length / 7, Style::Weights, &mut trace)?;
    trace.truncate(length as usize);
    Ok(trace)
}

/// A cut at each byte, three changes of each byte, and long traces.
fn all_damage(small: &[u8], random: &mut Random) -> Vec<Damage> {
    let mut all = vec![
        Damage::LongCut(LONGEST),
        Damage::LongChanged(LONGEST),
        Damage::LongScattered(LONGEST),
        Damage::LongNoise(LONGEST),
    ];
    for _ in 0..6 {
        all.push(Damage::LongCut(random.spread(10_000, 1_000_000)));
        all.push(Damage::LongChanged(random.spread(10_000, 1_000_000)));
        all.push(Damage::LongScattered(random.spread(10_000, 3_000_000)));
        all.push(Damage::LongNoise(random.spread(10_000, LONGEST)));
        all.push(Damage::LongRepeat(random.spread(10_000, 300_000)));
    }
    for place in 0..=small.len() {
        all.push(Damage::Cut(place));
    }
    for (place, &byte) in small.iter().enumerate() {
        all.push(Damage::Changed(place, byte ^ 1 << random.below(8)));
        all.push(Damage::Changed(
            place,
            random.below(u64::from(LAST) + 2) as u8,
        ));
        all.push(Damage::Changed(place, random.number() as u8));
    }
    all
}

/// What a damaged trace is tried on: both programs, and this one where it asks
/// before each bio, which is a check of its own.
struct Programs {
    pair: Pair,
    asks: Program,
}

/// Tries all damage. The answer is whether nothing failed.
pub fn run(ours: &str, seed: u64, mut tally: Tally) -> io::Result<bool> {
    let free = Programs {
        pair: Pair::of(ours)?,
        asks: Program::this(&["asks"])?,
    };
    let held = match hold_memory(&free)? {
        Ok(held) => held,
        Err(reason) => {
            tally.fail(&reason);
            return Ok(tally.close());
        }
    };
    let small = small_trace(seed)?;
    let all = all_damage(&small, &mut Random::new(seed));
    let tally = Mutex::new(tally);
    on_all_cores(all.len(), PATIENCE, |watch, number| {
        let damage = all[number];
        let trace = damage.trace(&small, seed.wrapping_add(number as u64))?;
        let programs = if damage.is_long() { &held } else { &free };
        let name = format!("{:?}", damage);
        let title = format!("{} of seed {}", name, seed);
        let feed = feed_of(number, &trace);
        let failure = programs.pair.run(watch, &trace, feed)?;
        let asked = watch.run(&programs.asks, &watch.put(&trace)?, feed)?;
        let mut tally = tally.lock().unwrap();
        tally.show_progress(number, all.len());
        match failure {
            None => tally.pass(),
            Some(failure) => failure.count(&title, &name, &trace, &mut tally)?,
        }
        count_asked(&asked, &title, &name, &trace, &mut tally)
    })?;
    let tally = tally.into_inner().unwrap();
    tally.clear_progress();
    let long = all.iter().filter(|damage| damage.is_long()).count();
    println!(
        "{} damaged traces: {} of up to {} bytes, the others of {} or less",
        all.len(),
        long,
        LONGEST,
        small.len()
    );
    Ok(tally.close())
}

/// Counts how this program fared on a trace where it asks.
fn count_asked(
    asked: &Ran,
    title: &str,
    name: &str,
    trace: &[u8],
    tally: &mut Tally,
) -> io::Result<()> {
    match &asked.fault {
        None => tally.pass(),
        Some(fault) => tally.fail_and_keep(
            &format!("{}\nthe second program, asked, {}", title, fault),
            name,
            &[("trace", trace), ("asked", &asked.lines)],
        )?,
    }
    Ok(())
}

/// The ways to hand a trace over take turns; small pieces take long, so they
/// are not for the longest traces.
fn feed_of(number: usize, trace: &[u8]) -> Feed {
    match number % 3 {
        0 => Feed::Named,
        1 if trace.len() < 1_000_000 => Feed::Pieces,
        _ => Feed::Input,
    }
}

/// The programs held to the memory that each needs to replay an empty trace,
/// and a fixed amount more; or why that cannot be done. Asking takes no more.
fn hold_memory(programs: &Programs) -> io::Result<Result<Programs, String>> {
    let pair = &programs.pair;
    let found = Mutex::new((None, None));
    on_all_cores(1, BRIEF, |watch, _| {
        let ours = least_of(&pair.ours, watch)?;
        let second = least_of(&pair.second, watch)?;
        *found.lock().unwrap() = (ours, second);
        Ok(())
    })?;
    let found = found.into_inner().unwrap();
    let (ours, second) = match found {
        (Some(ours), Some(second)) => (ours + MORE_MEMORY, second + MORE_MEMORY),
        _ => {
            let reason = "a program does not take an empty trace in any memory (ulimit -v)";
            return Ok(Err(reason.to_string()));
        }
    };
    println!(
        "memory: our program is held to {} KiB, the second to {}: \
         {} more than each needs for an empty trace",
        ours, second, MORE_MEMORY
    );
    Ok(Ok(Programs {
        pair: Pair {
            ours: pair.ours.within(ours),
            second: pair.second.within(second),
        },
        asks: programs.asks.within(second),
    }))
}

/// The least memory in which a program takes an empty trace.
fn least_of(program: &Program, watch: &Watch) -> io::Result<Option<u64>> {
    let empty = watch.put(&[])?;
    least_memory(|memory| {
        let ran = watch.run(&program.within(memory), &empty, Feed::Named)?;
        Ok(ran.fault.is_none())
    })
}
