//! Two programs that compare traces, one of files and one of traces that are
//! lent to it, held against this one on stored and on generated pairs.

pub mod asked;
mod census;
mod long;
pub mod mutants;
mod stored;
pub mod told;

use std::ffi::OsStr;
use std::io;
use std::path::PathBuf;
use std::sync::Mutex;

use crate::comparison::compare::{first_difference, show};
use crate::comparison::pair::on_all_cores;
use crate::comparison::pairs::asked::{lent_lines, pair_lines, Due};
use crate::comparison::pairs::census::Census;
use crate::comparison::pairs::stored::stored_pairs;
use crate::comparison::tally::Tally;
use crate::comparison::watch::{Program, Ran, Watch, PATIENCE};
use crate::generator::pairs::pairs;

/// Fewer stored pairs, fewer generated ones or a census that asks for less are
/// no comparison.
const LEAST_STORED: usize = 31;
const LEAST_MADE: usize = 2_507;
const LEAST_ASKED: usize = 72;

/// The programs to compare with.
struct Programs {
    ours: Program,
    lent: Program,
}

/// Compares and counts. The answer is whether nothing failed.
pub fn run(
    ours: &str,
    lent: &str,
    seed: u64,
    folders: &[String],
    tally: Tally,
) -> io::Result<bool> {
    let programs = Programs {
        ours: Program::new(&[ours]),
        lent: Program::new(&[lent]),
    };
    let stored = stored_pairs(folders)?;
    let made = pairs(seed)?;
    let tally = Mutex::new(tally);
    let census = Mutex::new(Census::new());
    on_all_cores(stored.len(), PATIENCE, |watch, number| {
        let due = Due::stored(&stored[number]);
        // The stored lines were worked out by hand, so this program is tried too.
        due.try_this(&tally)?;
        due.try_programs(&programs, watch, &tally)
    })?;
    on_all_cores(made.len(), PATIENCE, |watch, number| {
        let due = Due::made(&made[number], number)?;
        let asked: Vec<u64> = due.lent.iter().map(|(from, _)| *from).collect();
        census.lock().unwrap().add(due.traces, &asked);
        tally.lock().unwrap().show_progress(number, made.len());
        due.try_laws(&tally)?;
        due.try_programs(&programs, watch, &tally)
    })?;
    long::check(&programs, seed, &tally)?;
    let mut tally = tally.into_inner().unwrap();
    tally.clear_progress();
    println!(
        "{} stored pairs and {} generated pairs of seed {}",
        stored.len(),
        made.len(),
        seed
    );
    let census = census.into_inner().unwrap();
    count_census(&census, stored.len(), made.len(), &mut tally);
    Ok(tally.close())
}

/// The pairs are good for a comparison if they are enough and reach all that
/// is asked for.
fn count_census(census: &Census, stored: usize, made: usize, tally: &mut Tally) {
    let asked: Vec<(&str, u64)> = census.counts().collect();
    let least = |name: &str, count: usize, least: usize| {
        let said = format!("{} {}, and at least {} are due", count, name, least);
        (count >= least, said)
    };
    let mut found = vec![
        least("stored pairs", stored, LEAST_STORED),
        least("generated pairs", made, LEAST_MADE),
        least("names in the census", asked.len(), LEAST_ASKED),
    ];
    for (name, count) in &asked {
        found.push((*count > 0, format!("no pair reaches '{}'", name)));
    }
    for (held, said) in found {
        if held {
            tally.pass();
        } else {
            tally.fail(&said);
        }
    }
    let reached = asked.iter().filter(|(_, count)| *count > 0).count();
    println!("census: {} of {} names reached", reached, asked.len());
}

impl Due<'_> {
    /// This program on a stored pair.
    fn try_this(&self, tally: &Mutex<Tally>) -> io::Result<()> {
        let lines = pair_lines(self.traces, None)?;
        self.hold("second pair", &lines, &self.lines, tally)?;
        for (from, due) in &self.lent {
            let lines = lent_lines(self.traces, *from, None)?;
            self.hold(&format!("second lent from {}", from), &lines, due, tally)?;
        }
        Ok(())
    }

    /// This program against itself: the sides swapped, and its two ways.
    fn try_laws(&self, tally: &Mutex<Tally>) -> io::Result<()> {
        let [one, other] = self.traces;
        let swapped = pair_lines([other, one], None)?;
        // Where both have an error, each way round tells its own first's.
        let both_wrong = told::is_error(&pair_lines([one, &[]], None)?)
            && told::is_error(&pair_lines([&[], other], None)?);
        let due = if both_wrong {
            told::mirrored(&pair_lines([&[], other], None)?)
        } else {
            told::mirrored(&self.lines)
        };
        self.hold("second pair, swapped,", &swapped, &due, tally)?;
        for (from, lines) in &self.lent {
            let due = told::asked_from(&self.lines, *from);
            let said: String = lines
                .split_inclusive('\n')
                .take(due.lines().count())
                .collect();
            self.hold(&format!("second lent from {}", from), &said, &due, tally)?;
        }
        Ok(())
    }

    /// Both programs: each run is one check.
    fn try_programs(
        &self,
        programs: &Programs,
        watch: &Watch,
        tally: &Mutex<Tally>,
    ) -> io::Result<()> {
        let paths: [PathBuf; 2] = [
            watch.put_as("first", self.traces[0])?,
            watch.put_as("second", self.traces[1])?,
        ];
        let words: [&OsStr; 2] = [paths[0].as_os_str(), paths[1].as_os_str()];
        self.try_run(
            "our program",
            &programs.ours,
            &words,
            &self.lines,
            watch,
            tally,
        )?;
        for (from, due) in &self.lent {
            let from = from.to_string();
            let words = [words[0], words[1], OsStr::new(&from)];
            let name = format!("our program for lent traces, from {},", from);
            self.try_run(&name, &programs.lent, &words, due, watch, tally)?;
        }
        Ok(())
    }

    fn try_run(
        &self,
        name: &str,
        program: &Program,
        words: &[&OsStr],
        due: &str,
        watch: &Watch,
        tally: &Mutex<Tally>,
    ) -> io::Result<()> {
        let ran = watch.run_on(program, words)?;
        match trouble(&ran, due)? {
            None => tally.lock().unwrap().pass(),
            Some(reason) => self.fail(&format!("{} {}", name, reason), &ran.lines, due, tally)?,
        }
        Ok(())
    }

    /// One check of this program: that its lines are those that are due.
    fn hold(&self, name: &str, lines: &str, due: &str, tally: &Mutex<Tally>) -> io::Result<()> {
        match unlike(lines.as_bytes(), due)? {
            None => tally.lock().unwrap().pass(),
            Some(reason) => self.fail(
                &format!("{} {}", name, reason),
                lines.as_bytes(),
                due,
                tally,
            )?,
        }
        Ok(())
    }

    fn fail(&self, said: &str, lines: &[u8], due: &str, tally: &Mutex<Tally>) -> io::Result<()> {
        tally.lock().unwrap().fail_and_keep(
            &format!("{}\n{}", self.name, said),
            &self.name,
            &[
                ("trace", self.traces[0]),
                ("second.trace", self.traces[1]),
                ("printed", lines),
                ("due", due.as_bytes()),
            ],
        )
    }
}

/// What is wrong with a run whose lines are due.
fn trouble(ran: &Ran, due: &str) -> io::Result<Option<String>> {
    match &ran.fault {
        Some(fault) => Ok(Some(fault.clone())),
        None => unlike(&ran.lines, due),
    }
}

/// The first line that is another one than is due.
fn unlike(lines: &[u8], due: &str) -> io::Result<Option<String>> {
    let (mut printed, mut stored) = (lines, due.as_bytes());
    let found = first_difference(&mut printed, &mut stored)?;
    Ok(found.map(|found| {
        let (printed, due) = (show(&found.ours), show(&found.theirs));
        let line = found.line;
        format!(
            "prints another line {}\nprinted: {}\ndue: {}",
            line, printed, due
        )
    }))
}
