//! The commands `text` and `bytes` as a tool: their words, what they say, and
//! the status that they end with.

use std::ffi::OsString;
use std::io::{self, BufReader, BufWriter, ErrorKind, Write};

use crate::text::assemble::{assemble, Fault};
use crate::text::files::{Input, Output};
use crate::text::list::list;
use crate::text::terminal::{is_terminal, say, STANDARD_INPUT};

/// So many bytes are read or written at once.
const PIECE: usize = 1 << 16;

/// The statuses: all is well; the input or the output is not; the words are
/// not.
const FINE: u8 = 0;
const TROUBLE: u8 = 1;
const MISUSED: u8 = 2;

#[derive(Clone, Copy)]
pub enum Command {
    Text,
    Bytes,
}

impl Command {
    pub fn named(name: &str) -> Option<Command> {
        match name {
            "text" => Some(Command::Text),
            "bytes" => Some(Command::Bytes),
            _ => None,
        }
    }

    fn name(self) -> &'static str {
        match self {
            Command::Text => "text",
            Command::Bytes => "bytes",
        }
    }

    fn waits_for(self) -> &'static str {
        match self {
            Command::Text => "a trace",
            Command::Bytes => "lines of text",
        }
    }

    fn help(self) -> &'static str {
        match self {
            Command::Text => {
                "usage: ./trace text [--] [FILE]
Lists the trace in FILE, one record a line, on standard output. Bytes that are
no record are listed raw. Behind the first bad node, and behind the first such
bytes, a comment says what is wrong. Without FILE, or where it is -, standard
input is read. It ends with 0 if all is well, 1 if the trace cannot be read or
the list not written, and 2 if its arguments are wrong."
            }
            Command::Bytes => {
                "usage: ./trace bytes [--] [FILE]
Makes the trace that the lines in FILE stand for, on standard output. The first
bad line ends it and is named. Without FILE, or where it is -, standard input is
read. It ends with 0 if all is well, 1 if a line is bad, the text cannot be read
or the trace not written, and 2 if its arguments are wrong."
            }
        }
    }
}

/// What the words behind a command ask for.
enum Asked {
    Help,
    /// A file, or standard input where none is named.
    File(Option<OsString>),
}

/// Does what a command's words ask for, and answers the status.
pub fn run(command: Command, words: &[OsString]) -> u8 {
    let done = match read_words(words) {
        Err(reason) => {
            let more = format!("(./trace {} --help says what there is)", command.name());
            say(&format!("{} {}", reason, more));
            return MISUSED;
        }
        Ok(Asked::Help) => help(command),
        Ok(Asked::File(file)) => open(command, file).and_then(|input| convert(command, input)),
    };
    match done {
        Ok(()) => FINE,
        Err(fault) => {
            // Where nobody reads any more, nobody needs to be told.
            if fault.kind() != ErrorKind::BrokenPipe {
                say(&fault.to_string());
            }
            TROUBLE
        }
    }
}

/// Options come before `--`, and at most one file anywhere. What is wrong with
/// the words is said.
fn read_words(words: &[OsString]) -> Result<Asked, String> {
    let mut file = None;
    let mut options = true;
    for word in words {
        let shown = word.to_string_lossy();
        if options && (shown == "-h" || shown == "--help") {
            return Ok(Asked::Help);
        }
        if options && shown == "--" {
            options = false;
        } else if options && shown.len() > 1 && shown.starts_with('-') {
            return Err(format!("unknown option '{}'", shown));
        } else if file.is_some() {
            return Err("too many arguments: name one file, or none".to_string());
        } else {
            file = Some(word.clone());
        }
    }
    Ok(Asked::File(file))
}

/// Who is at a terminal and names no file may not know that the tool waits.
fn open(command: Command, file: Option<OsString>) -> io::Result<Input> {
    match file {
        Some(file) if file != "-" => Input::open(&file),
        _ => {
            if is_terminal(STANDARD_INPUT) {
                let what = command.waits_for();
                say(&format!("waits for {} on standard input", what));
            }
            Input::standard()
        }
    }
}

fn help(command: Command) -> io::Result<()> {
    let mut out = Output::standard()?;
    writeln!(out, "{}", command.help())
}

/// Reads and writes in pieces, whatever the length.
fn convert(command: Command, mut input: Input) -> io::Result<()> {
    let mut out = Output::standard()?;
    let done = match command {
        Command::Text => list(&mut input, &mut BufWriter::with_capacity(PIECE, out)),
        Command::Bytes => {
            let lines = BufReader::with_capacity(PIECE, &mut input);
            let made = assemble(lines, &mut out);
            made.map_err(|fault| match fault {
                Fault::Io(fault) => fault,
                bad_line => {
                    let said = format!("{}: {}", input.name, bad_line);
                    io::Error::new(ErrorKind::InvalidData, said)
                }
            })
        }
    };
    input.progress.clear();
    done
}
