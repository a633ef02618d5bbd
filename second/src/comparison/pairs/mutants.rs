//! The comparison of two traces held against what is wrong: mutants of this
//! program's, which a stored pair and a generated one must tell apart in each
//! way that they change, and programs that break off, hang or print something
//! else, which the watch must notice.

use std::io;
use std::sync::Mutex;
use std::time::Duration;

use crate::comparison::pair::on_all_cores;
use crate::comparison::pairs::asked::{lent_lines, pair_lines, Due};
use crate::comparison::pairs::stored::stored_pairs;
use crate::comparison::pairs::trouble;
use crate::comparison::tally::Tally;
use crate::comparison::watch::Program;
use crate::engine::rules::Mutant;
use crate::generator::pairs::pairs;
use crate::pairs::changes::{Change, Lie, Way};
use crate::text::assemble::assemble_whole;

/// Whether a mutant says something else of a pair in one of the ways.
fn tells_apart(due: &Due, lie: Lie, way: Way) -> io::Result<bool> {
    if way == Way::Pair {
        return Ok(pair_lines(due.traces, lie)? != due.lines);
    }
    for (from, lines) in &due.lent {
        if lent_lines(due.traces, *from, lie)? != *lines {
            return Ok(true);
        }
    }
    Ok(false)
}

/// The first of some pairs that tells a mutant apart.
fn found<'a>(pairs: &'a [Due], change: Change, way: Way) -> io::Result<Option<&'a str>> {
    for due in pairs {
        if tells_apart(due, Some(change), way)? {
            return Ok(Some(&due.name));
        }
    }
    Ok(None)
}

/// Tries all mutants and all wrong programs, each as one check.
pub fn check(seed: u64, folders: &[String], tally: Tally) -> io::Result<Tally> {
    let mut tally = tally;
    check_mutants(seed, folders, &mut tally)?;
    let tally = Mutex::new(tally);
    let [one, other] = [assembled(SMALL), assembled("plan")];
    let due = pair_lines([&one, &other], None)?;
    on_all_cores(WRONG.len(), BRIEF, |watch, place| {
        let (name, script, wanted) = WRONG[place];
        let this = std::env::current_exe()?;
        let program = Program::new(&["sh", "-c", script, &this.to_string_lossy()]);
        let paths = [
            watch.put_as("first", &one)?,
            watch.put_as("second", &other)?,
        ];
        let ran = watch.run_on(&program, &[paths[0].as_os_str(), paths[1].as_os_str()])?;
        let noticed = trouble(&ran, &due)?.unwrap_or_default().replace('\n', "; ");
        let mut tally = tally.lock().unwrap();
        if noticed.is_empty() == wanted.is_empty() && noticed.contains(wanted) {
            println!("a program for two traces that {}: '{}'", name, noticed);
            tally.pass();
        } else {
            tally.fail(&format!(
                "a program for two traces that {}: '{}'",
                name, noticed
            ));
        }
        Ok(())
    })?;
    Ok(tally.into_inner().unwrap())
}

/// A program for two traces that takes longer than this hangs: the pair is small.
const BRIEF: Duration = Duration::from_secs(2);

const SMALL: &str = "node 0 100\nbio 1 0 7 0 4096\nplan";

fn assembled(text: &str) -> Vec<u8> {
    assemble_whole(text.as_bytes()).unwrap_or_default()
}

/// Programs that do one thing wrong, as scripts of the shell in which `$0` is
/// this program and `$1` and `$2` are the traces, and what the watch must say:
/// nothing of a status alone, which is not asked.
const WRONG: &[(&str, &str, &str)] = &[
    (
        "ends with a status other than 0",
        "\"$0\" pair \"$1\" \"$2\"; exit 3",
        "",
    ),
    (
        "crashes at its end",
        "\"$0\" pair \"$1\" \"$2\"; kill -SEGV $$",
        "ends with signal",
    ),
    (
        "hangs",
        "\"$0\" pair \"$1\" \"$2\"; exec sleep 60",
        "does not end within 2 s",
    ),
    (
        "writes on standard error",
        "\"$0\" pair \"$1\" \"$2\"; echo oh >&2",
        "writes on standard error: oh",
    ),
    ("prints nothing", ":", "printed: (no such line)"),
    (
        "loses its last line",
        "\"$0\" pair \"$1\" \"$2\" | sed '$d'",
        "printed: (no such line)",
    ),
    (
        "prints a line too many",
        "\"$0\" pair \"$1\" \"$2\"; echo equal",
        "due: (no such line)",
    ),
    (
        "loses its last newline",
        "printf %s \"$(\"$0\" pair \"$1\" \"$2\")\"",
        "(without a newline)",
    ),
];

fn check_mutants(seed: u64, folders: &[String], tally: &mut Tally) -> io::Result<()> {
    let stored = stored_pairs(folders)?;
    let stored: Vec<Due> = stored.iter().map(Due::stored).collect();
    let made = pairs(seed)?;
    let made = made.iter().enumerate();
    let made: io::Result<Vec<Due>> = made.map(|(at, pair)| Due::made(pair, at)).collect();
    let made = made?;
    for (place, change) in Change::ALL.iter().enumerate() {
        let name = format!(
            "mutant {}, {}",
            Mutant::ALL.len() + place + 1,
            change.name()
        );
        let mut missing = None;
        for way in change.ways() {
            let by_case = found(&stored, *change, *way)?;
            let by_pair = found(&made, *change, *way)?;
            match (by_case, by_pair) {
                (Some(case), Some(made)) => {
                    println!("{}, {}: {}; {}", name, way.name(), case, made)
                }
                (None, _) => missing = Some(("stored", way)),
                (_, None) => missing = Some(("generated", way)),
            }
        }
        match missing {
            None => tally.pass(),
            Some((kind, way)) => {
                let way = way.name();
                tally.fail(&format!("no {} pair tells {} apart by {}", kind, name, way))
            }
        }
    }
    Ok(())
}
