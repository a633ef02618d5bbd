//! Stored cases: a text of a trace and the lines that its replay must print.

use std::fs;
use std::io;
use std::path::{Path, PathBuf};
use std::sync::Mutex;

use crate::comparison::pair::{difference, on_all_cores, Pair};
use crate::comparison::questions;
use crate::comparison::tally::Tally;
use crate::comparison::watch::{Feed, Watch, PATIENCE};
use crate::observation::census::{count_trace, Census};
use crate::text::assemble::assemble_whole;

/// A stored case by its files: NAME.text, NAME.lines, and NAME.trace if the
/// bytes are stored too.
struct Case {
    name: String,
    trace: Vec<u8>,
    lines: Vec<u8>,
}

/// The traces of the cases in some folders, each with its case's name.
pub fn traces(folders: &[String]) -> io::Result<Vec<(String, Vec<u8>)>> {
    let mut traces = Vec::new();
    for folder in folders {
        for path in texts(Path::new(folder))? {
            let case =
                read(&path).map_err(|reason| io::Error::new(io::ErrorKind::Other, reason))?;
            traces.push((format!("case {}", case.name), case.trace));
        }
    }
    Ok(traces)
}

/// Runs the cases of some folders by themselves.
pub fn run(ours: &str, folders: &[String], tally: Tally) -> io::Result<bool> {
    let pair = Pair::of(ours)?;
    let tally = Mutex::new(tally);
    let census = Mutex::new(Census::new());
    let stored = check(&pair, folders, &tally, &census)?;
    let tally = tally.into_inner().unwrap();
    tally.clear_progress();
    println!("{} stored cases", stored);
    Ok(tally.close())
}

/// Replays each case with both programs, asks before each of its bios, and
/// answers how many cases there are.
pub fn check(
    pair: &Pair,
    folders: &[String],
    tally: &Mutex<Tally>,
    census: &Mutex<Census>,
) -> io::Result<usize> {
    let mut paths = Vec::new();
    for folder in folders {
        let found = texts(Path::new(folder))?;
        if found.is_empty() {
            tally
                .lock()
                .unwrap()
                .fail(&format!("no case in {}", folder));
        }
        paths.extend(found);
    }
    on_all_cores(paths.len(), PATIENCE, |watch, number| {
        match read(&paths[number]) {
            Err(reason) => tally.lock().unwrap().fail(&reason),
            Ok(case) => {
                check_case(pair, &case, watch, tally)?;
                let title = format!("case {}", case.name);
                questions::check(&title, &title, &case.trace, tally)?;
                count_trace(&case.trace, census)?;
            }
        }
        tally.lock().unwrap().show_progress(number, paths.len());
        Ok(())
    })?;
    Ok(paths.len())
}

/// The texts of the cases in a folder, by name. A case is there as soon as
/// it has one of its files, so that none is passed over.
fn texts(folder: &Path) -> io::Result<Vec<PathBuf>> {
    let mut paths = Vec::new();
    let listed = fs::read_dir(folder).map_err(|fault| {
        io::Error::new(fault.kind(), format!("{}: {}", folder.display(), fault))
    })?;
    for entry in listed {
        let path = entry?.path();
        let kind = path.extension().and_then(|kind| kind.to_str());
        if let Some("text" | "lines" | "trace") = kind {
            paths.push(path.with_extension("text"));
        }
    }
    paths.sort();
    paths.dedup();
    Ok(paths)
}

fn read(path: &Path) -> Result<Case, String> {
    let bytes_of =
        |path: &Path| fs::read(path).map_err(|fault| format!("{}: {}", path.display(), fault));
    let text = bytes_of(path)?;
    let lines = bytes_of(&path.with_extension("lines"))?;
    let trace = assemble_whole(&text).map_err(|fault| format!("{}: {}", path.display(), fault))?;
    if said_lines(&text) != lines {
        let fault = "its comments promise other lines than are stored";
        return Err(format!("{}: {}", path.display(), fault));
    }
    let stored = path.with_extension("trace");
    if stored.exists() && bytes_of(&stored)? != trace {
        let fault = "these are not the bytes of its text";
        return Err(format!("{}: {}", stored.display(), fault));
    }
    let name = path.file_stem().unwrap_or_default();
    Ok(Case {
        name: name.to_string_lossy().into_owned(),
        trace,
        lines,
    })
}

/// The lines that the comments of a text promise, as in
/// `tick 1  # => r 7, r 8; both fit now`.
fn said_lines(text: &[u8]) -> Vec<u8> {
    let mut said = String::new();
    for line in String::from_utf8_lossy(text).lines() {
        if let Some((_, comment)) = line.split_once("# => ") {
            let promised = comment.split(';').next().unwrap_or("");
            for one in promised.split(", ") {
                said.push_str(one.trim());
                said.push('\n');
            }
        }
    }
    said.into_bytes()
}

/// Each program on its own counts as one check.
fn check_case(pair: &Pair, case: &Case, watch: &Watch, tally: &Mutex<Tally>) -> io::Result<()> {
    let path = watch.put(&case.trace)?;
    for (program, name) in [
        (&pair.ours, "our program"),
        (&pair.second, "the second program"),
    ] {
        let ran = watch.run(program, &path, Feed::Named)?;
        let reason = match ran.fault {
            Some(fault) => Some(format!("{} {}", name, fault)),
            None => difference(&ran.lines, &case.lines, ("printed", "stored"), &case.trace)?
                .map(|said| format!("{} prints other lines\n{}", name, said)),
        };
        let mut tally = tally.lock().unwrap();
        match reason {
            None => tally.pass(),
            Some(reason) => tally.fail_and_keep(
                &format!("case {}: {}", case.name, reason),
                &format!("case {}", case.name),
                &[("trace", &case.trace), ("printed", &ran.lines)],
            )?,
        }
    }
    Ok(())
}
