//! The comparison: generated traces and stored cases, replayed by another
//! program and by this one, which also asks before each bio.

use std::io;
use std::sync::Mutex;

use crate::comparison::cases;
use crate::comparison::pair::{on_all_cores, Pair};
use crate::comparison::questions;
use crate::comparison::samples::samples;
use crate::comparison::tally::Tally;
use crate::comparison::watch::{Feed, PATIENCE};
use crate::observation::census::{count_trace, Census};

/// Fewer traces, fewer records or a census that asks for less are no
/// comparison.
const LEAST_TRACES: u64 = 3_345;
const LEAST_RECORDS: u64 = 1_000_000;
const LEAST_ASKED: u64 = 348;

/// Compares and counts. The answer is whether nothing failed.
pub fn run(ours: &str, first_seed: u64, folders: &[String], tally: Tally) -> io::Result<bool> {
    let pair = Pair::of(ours)?;
    let tally = Mutex::new(tally);
    let census = Mutex::new(Census::new());
    let stored = cases::check(&pair, folders, &tally, &census)?;
    let samples = samples(first_seed);
    on_all_cores(samples.len(), PATIENCE, |watch, number| {
        let sample = samples[number];
        let trace = sample.trace()?;
        // Both ways to hand a trace over take turns.
        let feed = [Feed::Named, Feed::Input][number % 2];
        let failure = pair.run(watch, &trace, feed)?;
        count_trace(&trace, &census)?;
        questions::check(&sample.title(), &sample.name(), &trace, &tally)?;
        let mut tally = tally.lock().unwrap();
        tally.show_progress(number, samples.len());
        match failure {
            None => tally.pass(),
            Some(failure) => failure.count(&sample.title(), &sample.name(), &trace, &mut tally)?,
        }
        Ok(())
    })?;
    let mut tally = tally.into_inner().unwrap();
    let census = census.into_inner().unwrap();
    tally.clear_progress();
    println!(
        "{} stored cases and {} generated traces from seed {} on: {} records, {} lines",
        stored,
        samples.len(),
        first_seed,
        census.records(),
        census.lines()
    );
    count_census(&census, &mut tally);
    Ok(tally.close())
}

/// The traces are good for a comparison if they are enough and reach all
/// that is asked for.
fn count_census(census: &Census, tally: &mut Tally) {
    let asked = census.asked();
    for (name, count, least) in [
        ("traces", census.traces(), LEAST_TRACES),
        ("records", census.records(), LEAST_RECORDS),
        ("names in the census", asked.len() as u64, LEAST_ASKED),
    ] {
        if count < least {
            tally.fail(&format!(
                "{} {}, and at least {} are due",
                count, name, least
            ));
        } else {
            tally.pass();
        }
    }
    for (name, count) in &asked {
        if *count == 0 {
            tally.fail(&format!("no trace reaches '{}'", name));
        } else {
            tally.pass();
        }
    }
    let reached = asked.iter().filter(|(_, count)| *count > 0).count();
    println!(
        "census: {} of {} answers, refusals and events reached (11, 13 and 28 are not asked for)",
        reached,
        asked.len()
    );
}
