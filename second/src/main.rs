//! The second program: an independent replay of document 01, with what is
//! needed to compare it with another one.

#[macro_use]
mod named_list;
mod comparison;
mod engine;
mod generator;
mod observation;
mod pairs;
mod selftest;
mod text;
mod trace;

use std::env;
use std::ffi::OsString;
use std::fs::File;
use std::io::{self, BufRead, BufReader, BufWriter, Read, Write};
use std::process::ExitCode;

use comparison::tally::Tally;
use comparison::{against, cases, compare, expose, pairs as two_traces, robust};
use engine::rules::{Mutant, Rules};
use generator::generate::generate;
use generator::growth::{growth, Kind};
use generator::shape::Shape;
use generator::style::Style;
use observation::asks::asks;
use observation::census::Census;
use pairs::changes::Change;
use text::tool;
use trace::replay::replay;

const USAGE: &str = "usage: second COMMAND
  replay [FILE]                 replay a trace
  asks [FILE]                   ask before each bio of a trace what it would be answered
  text [FILE]                   list a trace as text
  bytes [FILE]                  make a trace from text
  gen SEED [RECORDS] [STYLE]    generate a trace
  growth KIND LEAVES ROUNDS [LEVELS]
                                write a trace for bench/growth or bench/shares
  census [FILE...]              count what traces reach
  compare OURS THEIRS TRACE     compare two outputs of a trace
  pair A B                      compare two traces record by record
  lent A B FROM                 compare two traces in memory, from a record number on
  mutants                       list the mutants
  mutant K replay [FILE]        replay a trace by changed rules
  mutant K asks [FILE]          ask by changed rules
  mutant K pair A B             compare two traces by changed rules
  mutant K lent A B FROM        the same for traces in memory
  selftest                      test this program
  against OURS [OPTION...]      compare with another program on many traces
  cases OURS [OPTION...]        try both programs on stored cases
  robust OURS [OPTION...]       try both programs on damaged traces
  pairs OURS LENT [OPTION...]   compare with two programs on many pairs of traces
  expose [OPTION...]            find the traces that tell mutants apart
options: --seed N  --cases FOLDER  --pairs FOLDER  --keep FOLDER  --progress
Without FILE, standard input is read.";

/// Whether a command found all as it should be, or why it could not tell.
type Done = Result<bool, String>;

fn main() -> ExitCode {
    let words: Vec<OsString> = env::args_os().skip(1).collect();
    if let Some((name, rest)) = words.split_first() {
        if let Some(command) = tool::Command::named(&name.to_string_lossy()) {
            return ExitCode::from(tool::run(command, rest));
        }
    }
    if let Some(status) = pairs::tool::run(&words) {
        return ExitCode::from(status);
    }
    let words: Vec<String> = words
        .iter()
        .map(|word| word.to_string_lossy().into_owned())
        .collect();
    let words: Vec<&str> = words.iter().map(String::as_str).collect();
    match run(&words) {
        Ok(true) => ExitCode::SUCCESS,
        Ok(false) => ExitCode::from(1),
        Err(message) => {
            eprintln!("{}", message);
            ExitCode::from(2)
        }
    }
}

fn run(words: &[&str]) -> Done {
    match words {
        ["replay"] => replay_from(None, Rules::TRUE),
        ["replay", file] => replay_from(Some(*file), Rules::TRUE),
        ["asks"] => ask_from(None, Rules::TRUE),
        ["asks", file] => ask_from(Some(*file), Rules::TRUE),
        ["mutant", number, "asks"] => ask_from(None, mutant_rules(number)?),
        ["mutant", number, "asks", file] => ask_from(Some(*file), mutant_rules(number)?),
        ["mutant", number, "replay"] => replay_from(None, mutant_rules(number)?),
        ["mutant", number, "replay", file] => replay_from(Some(*file), mutant_rules(number)?),
        ["mutants"] => list_mutants().map_err(said),
        ["selftest"] => selftest::run(&mut io::stdout().lock()).map_err(said),
        ["gen", seed] => generate_trace(seed, None, None),
        ["gen", seed, word] if Style::named(word).is_some() => {
            generate_trace(seed, None, Some(*word))
        }
        ["gen", seed, records] => generate_trace(seed, Some(*records), None),
        ["gen", seed, records, style] => generate_trace(seed, Some(*records), Some(*style)),
        ["growth", kind, leaves, rounds] => growth_trace(kind, leaves, rounds, "1"),
        ["growth", kind, leaves, rounds, levels] => growth_trace(kind, leaves, rounds, levels),
        ["census", files @ ..] => take_census(files),
        ["compare", ours, theirs, trace] => compare_outputs(ours, theirs, trace),
        ["against", ours, rest @ ..] => {
            let options = Options::read(rest)?;
            against::run(ours, options.seed, &options.cases, options.tally()).map_err(said)
        }
        ["cases", ours, rest @ ..] => {
            let options = Options::read(rest)?;
            cases::run(ours, &options.cases, options.tally()).map_err(said)
        }
        ["robust", ours, rest @ ..] => {
            let options = Options::read(rest)?;
            robust::run(ours, options.seed, options.tally()).map_err(said)
        }
        ["pairs", ours, lent, rest @ ..] => {
            let options = Options::read(rest)?;
            two_traces::run(ours, lent, options.seed, &options.cases, options.tally()).map_err(said)
        }
        ["expose", rest @ ..] => {
            let options = Options::read(rest)?;
            let (cases, pairs) = (&options.cases, &options.pairs);
            expose::run(options.seed, cases, pairs, options.tally()).map_err(said)
        }
        ["help" | "-h" | "--help"] => {
            println!("{}", USAGE);
            Ok(true)
        }
        _ => Err(USAGE.to_string()),
    }
}

/// What to say of a fault. Where nobody reads the output any more, nobody
/// needs to be told.
fn said(fault: io::Error) -> String {
    if fault.kind() == io::ErrorKind::BrokenPipe {
        std::process::exit(2);
    }
    fault.to_string()
}

/// What may follow a command that makes many checks.
struct Options {
    seed: u64,
    cases: Vec<String>,
    /// Folders of stored pairs, for the mutants.
    pairs: Vec<String>,
    keep: String,
    progress: bool,
}

impl Options {
    fn read(words: &[&str]) -> Result<Options, String> {
        let mut options = Options {
            seed: 1,
            cases: Vec::new(),
            pairs: Vec::new(),
            keep: "differences".to_string(),
            progress: false,
        };
        let mut left = words;
        while !left.is_empty() {
            left = match left {
                ["--progress", rest @ ..] => {
                    options.progress = true;
                    rest
                }
                ["--seed", seed, rest @ ..] => {
                    options.seed = number(seed)?;
                    rest
                }
                ["--cases", folder, rest @ ..] => {
                    options.cases.push(folder.to_string());
                    rest
                }
                ["--pairs", folder, rest @ ..] => {
                    options.pairs.push(folder.to_string());
                    rest
                }
                ["--keep", folder, rest @ ..] => {
                    options.keep = folder.to_string();
                    rest
                }
                _ => return Err(format!("'{}' is no option, or lacks its value", left[0])),
            };
        }
        Ok(options)
    }

    fn tally(&self) -> Tally {
        Tally::new(&self.keep, self.progress)
    }
}

fn number(word: &str) -> Result<u64, String> {
    word.parse::<u64>()
        .map_err(|_| format!("'{}' is no number", word))
}

fn open(file: &str) -> Result<File, String> {
    File::open(file).map_err(|fault| format!("{}: {}", file, fault))
}

/// A file, or standard input where none is named.
fn input(file: Option<&str>) -> Result<Box<dyn Read>, String> {
    match file {
        None => Ok(Box::new(io::stdin().lock())),
        Some(file) => Ok(Box::new(open(file)?)),
    }
}

fn output() -> BufWriter<io::StdoutLock<'static>> {
    BufWriter::with_capacity(1 << 16, io::stdout().lock())
}

fn replay_from(file: Option<&str>, rules: Rules) -> Done {
    replay(input(file)?, &mut output(), rules).map_err(said)?;
    Ok(true)
}

/// Prints what is asked of a trace's bios; the answer is whether each bio was
/// then answered so.
fn ask_from(file: Option<&str>, rules: Rules) -> Done {
    let name = file.unwrap_or("standard input");
    let trace = Named {
        name,
        input: input(file).map_err(|reason| format!("{}; {}", reason, NAME_ANOTHER))?,
    };
    match asks(trace, &mut output(), rules).map_err(said)? {
        None => Ok(true),
        Some(unlike) => {
            eprintln!("{}: {}", name, unlike);
            Ok(false)
        }
    }
}

const NAME_ANOTHER: &str = "name a trace that can be read";

/// An input whose faults name it, and not the output.
struct Named<'a, R> {
    name: &'a str,
    input: R,
}

impl<R: Read> Read for Named<'_, R> {
    fn read(&mut self, buffer: &mut [u8]) -> io::Result<usize> {
        self.input.read(buffer).map_err(|fault| {
            let said = format!("{}: {}; {}", self.name, fault, NAME_ANOTHER);
            io::Error::new(fault.kind(), said)
        })
    }
}

fn mutant_rules(word: &str) -> Result<Rules, String> {
    let number = word.parse::<usize>().unwrap_or(0);
    match Mutant::ALL.get(number.wrapping_sub(1)) {
        Some(mutant) => Ok(Rules::with(*mutant)),
        None => Err(format!(
            "mutants that replay or ask are numbered 1 to {}",
            Mutant::ALL.len()
        )),
    }
}

fn list_mutants() -> io::Result<bool> {
    let mut out = output();
    let of_rules = Mutant::ALL.iter().map(|mutant| mutant.name());
    let of_pairs = Change::ALL.iter().map(|change| change.name());
    writeln!(out, "{}", Mutant::ALL.len() + Change::ALL.len())?;
    for (place, name) in of_rules.chain(of_pairs).enumerate() {
        writeln!(out, "{} {}", place + 1, name)?;
    }
    out.flush()?;
    Ok(true)
}

/// Styles take turns with the seeds where none is named.
fn generate_trace(seed: &str, records: Option<&str>, style: Option<&str>) -> Done {
    let seed = number(seed)?;
    let style = match style {
        None => Style::ALL[(seed % Style::ALL.len() as u64) as usize],
        Some(word) => Style::named(word).ok_or_else(|| format!("'{}' is no style", word))?,
    };
    let records = match records {
        None => style.usual_records(),
        Some(word) => number(word)?,
    };
    generate(seed, records, style, &mut output()).map_err(said)?;
    Ok(true)
}

fn growth_trace(kind: &str, leaves: &str, rounds: &str, levels: &str) -> Done {
    let kind = Kind::named(kind).ok_or_else(|| format!("'{}' is no kind", kind))?;
    let shape = Shape::new(number(leaves)?, number(levels)?)?;
    growth(kind, shape, number(rounds)?, &mut output()).map_err(said)?;
    Ok(true)
}

fn take_census(files: &[&str]) -> Done {
    let mut census = Census::new();
    let mut add = |file: &str| {
        let trace = open(file)?;
        census
            .add(trace)
            .map_err(|fault| format!("{}: {}", file, fault))
    };
    for file in files {
        add(file)?;
    }
    if files.is_empty() {
        for line in io::stdin().lock().lines() {
            let line = line.map_err(said)?;
            if !line.is_empty() {
                add(&line)?;
            }
        }
    }
    census.print(&mut output()).map_err(said)?;
    let mut all = true;
    for (name, count) in census.asked() {
        if count == 0 {
            eprintln!("never reached: {}", name);
            all = false;
        }
    }
    Ok(all)
}

fn compare_outputs(ours: &str, theirs: &str, trace: &str) -> Done {
    let mut our_lines = BufReader::new(open(ours)?);
    let mut their_lines = BufReader::new(open(theirs)?);
    let found = compare::first_difference(&mut our_lines, &mut their_lines).map_err(said)?;
    match found {
        None => Ok(true),
        Some(difference) => {
            let record = compare::record_behind(open(trace)?, difference.line).map_err(said)?;
            let names = ("ours", "theirs");
            compare::report(&difference, &record, names, &mut output()).map_err(said)?;
            Ok(false)
        }
    }
}
