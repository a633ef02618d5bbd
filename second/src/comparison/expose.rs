//! The comparison held against programs that are known to be wrong: mutants
//! of this one, which the traces must tell apart, and programs that break
//! off, hang or print something else, which the watch must notice.

use std::io;
use std::sync::Mutex;
use std::time::Duration;

use crate::comparison::cases;
use crate::comparison::pair::{on_all_cores, Pair};
use crate::comparison::pairs::mutants;
use crate::comparison::samples::samples;
use crate::comparison::tally::Tally;
use crate::comparison::watch::{Feed, Program, Watch, PATIENCE};
use crate::engine::rules::Mutant;
use crate::text::assemble::assemble_whole;

/// Mutants that only stored cases tell apart: what it takes is too rare for
/// generated traces.
const BY_CASES_ALONE: [Mutant; 2] = [Mutant::ThinAtNode, Mutant::RatesBeforePhase];

/// Tries all wrong programs. The answer is whether each was noticed.
pub fn run(
    first_seed: u64,
    folders: &[String],
    pairs: &[String],
    tally: Tally,
) -> io::Result<bool> {
    // Of two traces the mutants take no processes, so they come first.
    let tally = mutants::check(first_seed, pairs, tally)?;
    let stored = cases::traces(folders)?;
    let samples = samples(first_seed);
    let tally = Mutex::new(tally);
    on_all_cores(Mutant::ALL.len(), PATIENCE, |watch, place| {
        let mutant = Mutant::ALL[place];
        let name = format!("mutant {}, {}", place + 1, mutant.name());
        let pair = programs(place + 1, mutant)?;
        let by_case = expose(&pair, watch, stored.iter().cloned().map(Ok))?;
        let made = samples
            .iter()
            .map(|sample| Ok((sample.name(), sample.trace()?)));
        let by_trace = if BY_CASES_ALONE.contains(&mutant) {
            Some("not asked of generated traces".to_string())
        } else {
            expose(&pair, watch, made)?
        };
        let mut tally = tally.lock().unwrap();
        match (by_case, by_trace) {
            (Some(by_case), Some(by_trace)) => {
                println!("{}: {}; {}", name, by_case, by_trace);
                tally.pass();
            }
            (None, _) => tally.fail(&format!("no stored case tells {} apart", name)),
            (_, None) => tally.fail(&format!("no generated trace tells {} apart", name)),
        }
        Ok(())
    })?;
    on_all_cores(WRONG.len(), PATIENCE, |watch, place| {
        let (name, script, wanted) = WRONG[place];
        let noticed = if name == HANGS {
            notice(script, &watch.with_limit(Duration::from_secs(2)))?
        } else {
            notice(script, watch)?
        };
        let mut tally = tally.lock().unwrap();
        match noticed {
            Some(reason) if reason.contains(wanted) => {
                println!("a program that {}: {}", name, reason.replace('\n', "; "));
                tally.pass();
            }
            Some(reason) => tally.fail(&format!("a program that {}: {}", name, reason)),
            None => tally.fail(&format!("a program that {} is not noticed", name)),
        }
        Ok(())
    })?;
    let tally = tally.into_inner().unwrap();
    Ok(tally.close())
}

/// A mutant by its number, and the true rules. Mutants of the question replay as
/// the true rules do, so they are asked.
fn programs(number: usize, mutant: Mutant) -> io::Result<Pair> {
    let word = if mutant.is_of_question() {
        "asks"
    } else {
        "replay"
    };
    Ok(Pair {
        ours: Program::this(&["mutant", &number.to_string(), word])?,
        second: Program::this(&[word])?,
    })
}

/// Compares a mutant with the true rules on one trace after another, each
/// with its name, up to the first on which they differ.
fn expose(
    pair: &Pair,
    watch: &Watch,
    traces: impl Iterator<Item = io::Result<(String, Vec<u8>)>>,
) -> io::Result<Option<String>> {
    for trace in traces {
        let (name, trace) = trace?;
        if let Some(failure) = pair.run(watch, &trace, Feed::Named)? {
            let line = failure.reason.lines().next().unwrap_or("").to_string();
            return Ok(Some(format!("{} in {}", line, name)));
        }
    }
    Ok(None)
}

/// The wrong program that the watch must give up on, and soon.
const HANGS: &str = "hangs";

/// Programs that do one thing wrong, as scripts of the shell in which `$0` is
/// this program and `$1` the trace, and what the watch must say.
const WRONG: &[(&str, &str, &str)] = &[
    (
        "crashes at its end",
        "\"$0\" replay \"$1\"; kill -SEGV $$",
        "our program ends with signal",
    ),
    (
        "ends with a status other than 0",
        "\"$0\" replay \"$1\"; exit 3",
        "our program ends with exit",
    ),
    (
        HANGS,
        "\"$0\" replay \"$1\"; exec sleep 60",
        "our program does not end within 2 s",
    ),
    (
        "writes on standard error",
        "\"$0\" replay \"$1\"; echo oh >&2",
        "our program writes on standard error: oh",
    ),
    ("prints nothing", ":", "ours: (no such line)"),
    (
        "loses its last line",
        "\"$0\" replay \"$1\" | sed '$d'",
        "ours: (no such line)",
    ),
    (
        "prints a line too many",
        "\"$0\" replay \"$1\"; echo R 14",
        "second: (no such line)",
    ),
    (
        "loses its last newline",
        "printf %s \"$(\"$0\" replay \"$1\")\"",
        "(without a newline)",
    ),
    (
        "prints a space too many",
        "\"$0\" replay \"$1\" | sed 's/^W /W  /'",
        "ours: W  7",
    ),
];

/// What the comparison says of a wrong program on document 01's whole case.
fn notice(script: &str, watch: &Watch) -> io::Result<Option<String>> {
    let this = std::env::current_exe()?;
    let pair = Pair {
        ours: Program::new(&["sh", "-c", script, &this.to_string_lossy()]),
        second: Program::this(&["replay"])?,
    };
    let text = "node 0 100\nnode 0 300\n\
         model 409600000 50000 10000 204800000 25000 5000\nstart 0\n\
         bio 1 0 7 0 4096\ntick 100000\ntick 400000\nplan\n";
    let trace = assemble_whole(text.as_bytes()).unwrap_or_default();
    let failure = pair.run(watch, &trace, Feed::Named)?;
    Ok(failure.map(|failure| failure.reason.trim_end().to_string()))
}
