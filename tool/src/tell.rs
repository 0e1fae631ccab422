//! Words for people, on standard error.
use std::fmt::Display;
use std::io::{self, Write};

/// Prints a line under the tool's name. Where nobody can hear it, it is lost.
pub fn tell(message: impl Display) {
    let _ = writeln!(io::stderr(), "hizlaou: {message}");
}
