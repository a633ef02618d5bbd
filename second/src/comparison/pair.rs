//! Our program and this one on the same trace, each in a process of its own.

use std::io;
use std::sync::atomic::{AtomicUsize, Ordering};
use std::thread;
use std::time::Duration;

use crate::comparison::compare::{first_difference, record_behind, report};
use crate::comparison::tally::{Tally, Workplace};
use crate::comparison::watch::{Feed, Program, Ran, Watch};

/// The two programs that must agree.
pub struct Pair {
    pub ours: Program,
    pub second: Program,
}

/// Why two programs do not agree on a trace, and what each printed.
pub struct Failure {
    pub reason: String,
    pub ours: Vec<u8>,
    pub second: Vec<u8>,
}

impl Pair {
    /// Our program, by its path, and this one.
    pub fn of(ours: &str) -> io::Result<Pair> {
        Ok(Pair {
            ours: Program::new(&[ours]),
            second: Program::this(&["replay"])?,
        })
    }

    /// Runs both on a trace; none if all is well.
    pub fn run(&self, watch: &Watch, trace: &[u8], feed: Feed) -> io::Result<Option<Failure>> {
        let path = watch.put(trace)?;
        let ours = watch.run(&self.ours, &path, feed)?;
        let second = watch.run(&self.second, &path, feed)?;
        let reason = match run_faults(&ours, &second) {
            Some(reason) => Some(reason),
            None => difference(&ours.lines, &second.lines, ("ours", "second"), trace)?,
        };
        Ok(reason.map(|reason| Failure {
            reason,
            ours: ours.lines,
            second: second.lines,
        }))
    }
}

impl Failure {
    /// Counts the failure of a trace under its name and keeps the trace.
    pub fn count(
        &self,
        title: &str,
        name: &str,
        trace: &[u8],
        tally: &mut Tally,
    ) -> io::Result<()> {
        tally.fail_and_keep(
            &format!("{}\n{}", title, self.reason),
            name,
            &[
                ("trace", trace),
                ("ours", &self.ours),
                ("second", &self.second),
            ],
        )
    }
}

fn run_faults(ours: &Ran, second: &Ran) -> Option<String> {
    match (&ours.fault, &second.fault) {
        (Some(fault), _) => Some(format!("our program {}", fault)),
        (None, Some(fault)) => Some(format!("the second program {}", fault)),
        (None, None) => None,
    }
}

/// The first line in which two outputs of a trace differ, under their names,
/// and the record behind it; none if they are the same.
pub fn difference(
    ours: &[u8],
    theirs: &[u8],
    names: (&str, &str),
    trace: &[u8],
) -> io::Result<Option<String>> {
    if ours == theirs {
        return Ok(None);
    }
    let (mut our_lines, mut their_lines) = (ours, theirs);
    let mut said = Vec::new();
    if let Some(found) = first_difference(&mut our_lines, &mut their_lines)? {
        report(&found, &record_behind(trace, found.line)?, names, &mut said)?;
    }
    Ok(Some(String::from_utf8_lossy(&said).into_owned()))
}

/// Does `task` for each number below `count`, on all cores, with a watch for
/// each worker.
pub fn on_all_cores(
    count: usize,
    limit: Duration,
    task: impl Fn(&Watch, usize) -> io::Result<()> + Sync,
) -> io::Result<()> {
    let workplace = Workplace::new()?;
    let next = AtomicUsize::new(0);
    let workers = thread::available_parallelism().map_or(1, |cores| cores.get());
    let work = |number: usize| -> io::Result<()> {
        let watch = Watch::new(&workplace.part(number)?, limit);
        loop {
            let job = next.fetch_add(1, Ordering::Relaxed);
            if job >= count {
                return Ok(());
            }
            task(&watch, job)?;
        }
    };
    thread::scope(|scope| {
        let work = &work;
        let running: Vec<_> = (0..workers)
            .map(|number| scope.spawn(move || work(number)))
            .collect();
        for worker in running {
            match worker.join() {
                Ok(done) => done?,
                Err(_) => return Err(io::Error::new(io::ErrorKind::Other, "a worker failed")),
            }
        }
        Ok(())
    })
}
