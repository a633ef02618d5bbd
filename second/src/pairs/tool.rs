//! The commands `pair` and `lent`, also of a mutant: their words, their files,
//! what they say, and the status that they end with, which is that of `cmp`.

use std::ffi::{OsStr, OsString};
use std::fs::{self, File};
use std::io::{self, BufWriter, ErrorKind, Read, Seek, SeekFrom, Write};
use std::os::unix::fs::FileTypeExt;

use crate::engine::rules::Mutant;
use crate::pairs::answer::{Side, Verdict};
use crate::pairs::changes::{Change, Lie};
use crate::pairs::lent::lent;
use crate::pairs::passes::pair;
use crate::text::files::{named, Output};

/// So many bytes are written at once.
const PIECE: usize = 1 << 16;

const TROUBLE: u8 = 2;

impl Verdict {
    fn status(self) -> u8 {
        match self {
            Verdict::Equal => 0,
            Verdict::Unequal => 1,
            Verdict::Error => TROUBLE,
        }
    }
}

/// Carries a command out, if the words are one of these, and answers its
/// status.
pub fn run(words: &[OsString]) -> Option<u8> {
    let known: Vec<&str> = words
        .iter()
        .map(|word| word.to_str().unwrap_or(""))
        .collect();
    let (lie, known, words) = match known.as_slice() {
        ["mutant", number, "pair" | "lent", ..] => (mutant(number), &known[2..], &words[2..]),
        _ => (Ok(None), &known[..], words),
    };
    let done = match known {
        ["pair", _, _] => lie.and_then(|lie| run_pair([&words[1], &words[2]], lie)),
        ["lent", _, _, from] => lie.and_then(|lie| {
            let from = record_number(from)?;
            run_lent([&words[1], &words[2]], from, lie)
        }),
        _ => return None,
    };
    Some(match done {
        Ok(verdict) => verdict.status(),
        Err(fault) => {
            // Where nobody reads any more, nobody needs to be told.
            if fault.kind() != ErrorKind::BrokenPipe {
                say(&fault.to_string());
            }
            TROUBLE
        }
    })
}

/// Says one line, whatever is in a file's name.
fn say(line: &str) {
    let line = line.replace(|c: char| c.is_control(), "?");
    let _ = writeln!(io::stderr(), "{}", line);
}

fn wrong(said: String) -> io::Error {
    io::Error::new(ErrorKind::InvalidInput, said)
}

/// A mutant of the comparison by its number, which is behind those of the rules.
fn mutant(word: &str) -> io::Result<Lie> {
    let before = Mutant::ALL.len();
    let number = word.parse::<usize>().unwrap_or(0);
    let change = number.checked_sub(before + 1);
    match change.and_then(|place| Change::ALL.get(place)) {
        Some(change) => Ok(Some(*change)),
        None => Err(wrong(format!(
            "mutants of two traces are numbered {} to {}",
            before + 1,
            before + Change::ALL.len()
        ))),
    }
}

fn record_number(word: &str) -> io::Result<u64> {
    let digits = word.bytes().all(|byte| byte.is_ascii_digit());
    let number = word.parse::<u64>().ok().filter(|_| digits);
    number.ok_or_else(|| {
        let most = u64::MAX;
        wrong(format!(
            "'{}' is no record number: give one from 0 to {}",
            word, most
        ))
    })
}

fn output() -> io::Result<BufWriter<Output>> {
    Ok(BufWriter::with_capacity(PIECE, Output::standard()?))
}

fn run_pair(files: [&OsString; 2], lie: Lie) -> io::Result<Verdict> {
    let traces = [Trace::open(files[0])?, Trace::open(files[1])?];
    pair(|side: Side| side.of(&traces).begin(), &mut output()?, lie)
}

fn run_lent(files: [&OsString; 2], from: u64, lie: Lie) -> io::Result<Verdict> {
    let read = |file: &OsString| {
        let name = file.to_string_lossy();
        fs::read(file).map_err(|fault| named(&name, fault))
    };
    let (first, second) = (read(files[0])?, read(files[1])?);
    lent([&first, &second], from, &mut output()?, lie)
}

/// A trace that can be read twice.
struct Trace {
    name: String,
    file: File,
}

impl Trace {
    fn open(path: &OsStr) -> io::Result<Trace> {
        let name = path.to_string_lossy().into_owned();
        let is_pipe = || {
            let said = "it cannot be read twice, as a pipe cannot: save it in a file first";
            wrong(format!("{}: {}", name, said))
        };
        // To open a pipe that nobody writes to would take for ever.
        let kind = fs::metadata(path).map_err(|fault| named(&name, fault))?;
        let kind = kind.file_type();
        if kind.is_fifo() || kind.is_socket() {
            return Err(is_pipe());
        }
        if kind.is_dir() {
            return Err(wrong(format!("{}: it is a folder: name a trace", name)));
        }
        let mut file = File::open(path).map_err(|fault| named(&name, fault))?;
        if file.seek(SeekFrom::Start(0)).is_err() {
            return Err(is_pipe());
        }
        Ok(Trace { name, file })
    }

    /// The trace from its begin on.
    fn begin(&self) -> io::Result<&Trace> {
        let sought = (&self.file).seek(SeekFrom::Start(0));
        sought.map_err(|fault| named(&self.name, fault))?;
        Ok(self)
    }
}

impl Read for &Trace {
    fn read(&mut self, buffer: &mut [u8]) -> io::Result<usize> {
        let read = (&self.file).read(buffer);
        read.map_err(|fault| named(&self.name, fault))
    }
}
