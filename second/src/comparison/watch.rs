//! A replay program run on a trace under watch: what it prints, and whether
//! it crashed, hung or complained.

use std::ffi::OsStr;
use std::fs::{self, File};
use std::io::{self, Write};
use std::os::raw::c_int;
use std::os::unix::process::CommandExt;
use std::path::{Path, PathBuf};
use std::process::{Child, ChildStdin, Command, ExitStatus, Stdio};
use std::thread;
use std::time::{Duration, Instant};

use crate::generator::random::Random;

/// A program that takes longer than this for a trace hangs.
pub const PATIENCE: Duration = Duration::from_secs(60);

/// The signal that ends any program.
const SIGKILL: c_int = 9;

extern "C" {
    fn kill(process: c_int, signal: c_int) -> c_int;
}

/// No trace here prints as much as this.
const MOST_PRINTED: u64 = 1 << 28;

/// A program and the words between its name and the trace's.
#[derive(Clone)]
pub struct Program {
    words: Vec<String>,
}

impl Program {
    pub fn new(words: &[&str]) -> Program {
        Program {
            words: words.iter().map(|word| word.to_string()).collect(),
        }
    }

    /// This very program, with other words of its own.
    pub fn this(words: &[&str]) -> io::Result<Program> {
        let path = std::env::current_exe()?;
        let mut program = Program::new(&[&path.to_string_lossy()]);
        program.words.extend(words.iter().map(|w| w.to_string()));
        Ok(program)
    }

    /// The same program held to so many KiB of memory, by the shell.
    pub fn within(&self, memory: u64) -> Program {
        let limit = format!("ulimit -v {} && exec \"$@\"", memory);
        let mut words: Vec<String> = ["sh", "-c", &limit, "sh"]
            .iter()
            .map(|word| word.to_string())
            .collect();
        words.extend_from_slice(&self.words);
        Program { words }
    }

    fn command(&self) -> Command {
        let mut command = Command::new(&self.words[0]);
        command.args(&self.words[1..]);
        command
    }
}

/// How a program gets the trace.
#[derive(Clone, Copy, PartialEq, Eq)]
pub enum Feed {
    /// As a file that is named to it.
    Named,
    /// As its standard input, from a file.
    Input,
    /// As its standard input, in pieces of a few bytes.
    Pieces,
}

/// What came of a run.
pub struct Ran {
    pub lines: Vec<u8>,
    /// What the program did that it must not, in words.
    pub fault: Option<String>,
}

/// Runs programs one at a time, with files in a folder of its own.
pub struct Watch {
    folder: PathBuf,
    /// A program that takes longer hangs.
    limit: Duration,
}

impl Watch {
    pub fn new(folder: &Path, limit: Duration) -> Watch {
        Watch {
            folder: folder.to_path_buf(),
            limit,
        }
    }

    /// The same, but with another limit.
    pub fn with_limit(&self, limit: Duration) -> Watch {
        Watch::new(&self.folder, limit)
    }

    /// Writes a trace for the next runs and answers its path.
    pub fn put(&self, trace: &[u8]) -> io::Result<PathBuf> {
        self.put_as("trace", trace)
    }

    /// The same under a name, for runs that take more than one trace.
    pub fn put_as(&self, name: &str, trace: &[u8]) -> io::Result<PathBuf> {
        let path = self.folder.join(name);
        fs::write(&path, trace)?;
        Ok(path)
    }

    pub fn run(&self, program: &Program, trace: &Path, feed: Feed) -> io::Result<Ran> {
        let mut command = program.command();
        let mut pieces = None;
        match feed {
            Feed::Named => command.arg(trace).stdin(Stdio::null()),
            Feed::Input => command.stdin(File::open(trace)?),
            Feed::Pieces => {
                pieces = Some(fs::read(trace)?);
                command.stdin(Stdio::piped())
            }
        };
        self.finish(program, command, pieces, |status| status.success())
    }

    /// Runs a program on words of its own. What status it ends with is not
    /// asked, as long as it ends by itself.
    pub fn run_on(&self, program: &Program, words: &[&OsStr]) -> io::Result<Ran> {
        let mut command = program.command();
        command.args(words).stdin(Stdio::null());
        self.finish(program, command, None, |status| status.code().is_some())
    }

    /// Runs a command to its end, with a trace in pieces where there is one.
    fn finish(
        &self,
        program: &Program,
        mut command: Command,
        pieces: Option<Vec<u8>>,
        is_good: fn(ExitStatus) -> bool,
    ) -> io::Result<Ran> {
        let printed = self.folder.join("printed");
        let said = self.folder.join("said");
        command
            .stdout(File::create(&printed)?)
            .stderr(File::create(&said)?)
            .process_group(0);
        let mut child = command.spawn().map_err(|fault| {
            io::Error::new(fault.kind(), format!("{}: {}", program.words[0], fault))
        })?;
        let feeder = match (child.stdin.take(), pieces) {
            (Some(input), Some(bytes)) => Some(thread::spawn(move || feed_pieces(&bytes, input))),
            _ => None,
        };
        let ended = self.wait(&mut child, &printed)?;
        if let Some(feeder) = feeder {
            // A program that stops early leaves the rest unread.
            let _ = feeder.join();
        }
        Ok(Ran {
            lines: fs::read(&printed)?,
            fault: fault(ended, &fs::read(&said)?, is_good),
        })
    }

    /// Waits for the end, but not beyond the limits.
    fn wait(&self, child: &mut Child, printed: &Path) -> io::Result<Result<ExitStatus, String>> {
        let begun = Instant::now();
        loop {
            if let Some(status) = child.try_wait()? {
                return Ok(Ok(status));
            }
            let taken = begun.elapsed();
            let too_long = taken > self.limit;
            let too_much = fs::metadata(printed)?.len() > MOST_PRINTED;
            if too_long || too_much {
                end(child)?;
                return Ok(Err(if too_long {
                    format!("does not end within {} s", self.limit.as_secs())
                } else {
                    "prints without end".to_string()
                }));
            }
            let pause = (taken / 8).max(Duration::from_micros(100));
            thread::sleep(pause.min(Duration::from_millis(20)));
        }
    }
}

/// Ends a program and all that it has started: a script that is killed alone
/// leaves its program running.
fn end(child: &mut Child) -> io::Result<()> {
    // The process was not waited for, so the number is still that of the
    // group which it leads.
    unsafe { kill(-(child.id() as c_int), SIGKILL) };
    child.wait()?;
    Ok(())
}

/// Pieces of every size up to a little more than the longest record.
fn feed_pieces(trace: &[u8], mut input: ChildStdin) {
    let mut random = Random::new(trace.len() as u64);
    let mut left = trace;
    while !left.is_empty() {
        let size = random.between(1, 60).min(left.len() as u64) as usize;
        if input.write_all(&left[..size]).is_err() {
            return;
        }
        left = &left[size..];
    }
}

fn fault(
    ended: Result<ExitStatus, String>,
    said: &[u8],
    is_good: fn(ExitStatus) -> bool,
) -> Option<String> {
    let status = match ended {
        Err(reason) => return Some(reason),
        Ok(status) => status,
    };
    if !is_good(status) {
        return Some(format!("ends with {}{}", status, quoted(said)));
    }
    if !said.is_empty() {
        return Some(format!("writes on standard error{}", quoted(said)));
    }
    None
}

/// The first line of what was said that is not blank, if there is one.
fn quoted(said: &[u8]) -> String {
    let said = String::from_utf8_lossy(said);
    match said.lines().find(|line| !line.trim().is_empty()) {
        None => String::new(),
        Some(line) => format!(": {}", line),
    }
}
