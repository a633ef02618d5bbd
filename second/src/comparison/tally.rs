//! What a run of checks counts and shows: what passed, what failed and why,
//! and the traces kept of what failed.

use std::fs;
use std::io::{self, Write};
use std::path::PathBuf;

/// So many failures are shown in full; the others are counted.
const SHOWN: u64 = 20;

pub struct Tally {
    passed: u64,
    failed: u64,
    /// Where the traces of failures are kept.
    keep: PathBuf,
    progress: bool,
}

impl Tally {
    pub fn new(keep: &str, progress: bool) -> Tally {
        Tally {
            passed: 0,
            failed: 0,
            keep: PathBuf::from(keep),
            progress,
        }
    }

    pub fn pass(&mut self) {
        self.passed += 1;
    }

    /// Counts a failure and says what failed.
    pub fn fail(&mut self, reason: &str) {
        self.clear_progress();
        self.failed += 1;
        if self.failed <= SHOWN {
            println!("failed: {}", reason);
        }
        if self.failed == SHOWN + 1 {
            println!("further failures are only counted");
        }
    }

    /// Counts a failure and, if it is shown, keeps the trace behind it and
    /// what was printed.
    pub fn fail_and_keep(
        &mut self,
        reason: &str,
        name: &str,
        files: &[(&str, &[u8])],
    ) -> io::Result<()> {
        if self.failed >= SHOWN {
            self.fail(reason);
            return Ok(());
        }
        let name = name.replace(|c: char| !c.is_ascii_alphanumeric(), "-");
        let name = name.trim_matches('-');
        fs::create_dir_all(&self.keep)?;
        for (kind, bytes) in files {
            fs::write(self.keep.join(format!("{}.{}", name, kind)), bytes)?;
        }
        let kept = self.keep.join(format!("{}.trace", name));
        self.fail(&format!(
            "{}\nkept in {}",
            reason.trim_end(),
            kept.display()
        ));
        Ok(())
    }

    /// Shows how far a run is, on a terminal.
    pub fn show_progress(&self, done: usize, all: usize) {
        if self.progress {
            eprint!("\r{} of {} ", done, all);
            let _ = io::stderr().flush();
        }
    }

    pub fn clear_progress(&self) {
        if self.progress {
            eprint!("\r                    \r");
        }
    }

    /// Prints the last line; the answer is whether nothing failed.
    pub fn close(&self) -> bool {
        self.clear_progress();
        println!("{} passed, {} failed", self.passed, self.failed);
        self.failed == 0
    }
}

/// A folder for the files of a run, removed at its end.
pub struct Workplace {
    path: PathBuf,
}

impl Workplace {
    pub fn new() -> io::Result<Workplace> {
        let name = format!("second-{}", std::process::id());
        let path = std::env::temp_dir().join(name);
        fs::create_dir_all(&path)?;
        Ok(Workplace { path })
    }

    /// A folder within it for one worker.
    pub fn part(&self, number: usize) -> io::Result<PathBuf> {
        let path = self.path.join(number.to_string());
        fs::create_dir_all(&path)?;
        Ok(path)
    }
}

impl Drop for Workplace {
    fn drop(&mut self) {
        let _ = fs::remove_dir_all(&self.path);
    }
}
