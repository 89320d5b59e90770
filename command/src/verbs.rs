//! The verbs of the program.

use std::io;

use crate::arguments::Work;
use crate::console::Console;
use crate::{convert, dump, list, verify};

/// All of them, in the order of the help.
pub const VERBS: [Verb; 4] = [list::VERB, dump::VERB, verify::VERB, convert::VERB];

/// What the program can do with files.
pub struct Verb {
    pub name: &'static str,
    /// A line for the program's help.
    pub about: &'static str,
    /// Its own help, after the lines on usage and options.
    pub help: &'static str,
    pub operands: Operands,
    pub options: &'static [Flag],
    /// Whether it writes while it reads, and not only at the end of a file.
    pub streams: bool,
    /// Does it. An error is one of writing to standard output.
    pub run: fn(&Work, &mut Console) -> io::Result<()>,
}

/// Which files a verb is for.
#[derive(Clone, Copy, PartialEq, Eq)]
pub enum Operands {
    /// Logs that are read, in a mode.
    Files,
    /// A log that is read and a file that is written.
    InAndOut,
}

impl Operands {
    /// As the help names them.
    pub fn usage(self) -> &'static str {
        match self {
            Operands::Files => "FILE..",
            Operands::InAndOut => "IN OUT",
        }
    }
}

/// An option of a verb.
pub struct Flag {
    pub name: &'static str,
    pub about: &'static str,
}
