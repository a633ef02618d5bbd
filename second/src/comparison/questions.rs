//! The question held against the submission on the traces of a comparison. Both
//! are this program's own: the other one is asked nothing.

use std::io;
use std::sync::Mutex;

use crate::comparison::tally::Tally;
use crate::engine::rules::Rules;
use crate::observation::asks::asks;

/// Asks before each bio of a trace. That all are then answered so is one check.
/// The title says which trace it is, and the name is that under which it is kept.
pub fn check(title: &str, name: &str, trace: &[u8], tally: &Mutex<Tally>) -> io::Result<()> {
    let unlike = asks(trace, &mut io::sink(), Rules::TRUE)?;
    let mut tally = tally.lock().unwrap();
    match unlike {
        None => tally.pass(),
        Some(unlike) => {
            tally.fail_and_keep(&format!("{}\n{}", title, unlike), name, &[("trace", trace)])?
        }
    }
    Ok(())
}
