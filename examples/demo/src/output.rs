//! What the program says. A reader that has gone, as `head` has once it has its lines, is no failure: the rest of the work
//! is done unread.

use std::fmt::Display;
use std::io::{self, ErrorKind, Write};

/// A line of the report.
pub fn line(text: impl Display) -> Result<(), String> {
    match writeln!(io::stdout(), "{text}") {
        Err(error) if error.kind() != ErrorKind::BrokenPipe => Err(format!("standard output: {error}")),
        _ => Ok(()),
    }
}

/// How far the work has come, on standard error; whether it can be read there is no matter.
pub fn progress(text: impl Display) {
    let _ = write!(io::stderr(), "{text}");
}
