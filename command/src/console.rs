//! What the program says: standard output, standard error, and how it ends.

use std::env;
use std::fmt::Display;
use std::fs::File;
use std::io::{self, BufWriter, ErrorKind, IsTerminal, LineWriter, Write};
use std::os::fd::AsFd;
use std::process::ExitCode;

use crate::name::Name;

const BUFFER: usize = 1 << 16;

/// How the program ends: with several files, as the one that fared worst.
#[derive(Debug, Clone, Copy, PartialEq, Eq, PartialOrd, Ord)]
pub enum Status {
    AllRight = 0,
    /// A batch is refused.
    Refused = 1,
    /// The log ends inside a batch.
    Torn = 2,
    /// A file cannot be read or written, or standard output cannot be written.
    Unusable = 3,
    /// The command line is wrong.
    WrongLine = 64,
}

impl From<Status> for ExitCode {
    fn from(status: Status) -> Self {
        ExitCode::from(status as u8)
    }
}

/// Says something on standard error. Where that is closed there is nobody to tell.
pub fn complain(words: impl Display) {
    let line = format!("oddrafisk: {words}\n");
    let _ = io::stderr().write_all(line.as_bytes());
}

/// Standard output, and the status so far.
pub struct Console {
    output: Box<dyn Write>,
    status: Status,
    /// Whether standard output may be coloured.
    pub colour: bool,
}

impl Console {
    /// On a terminal each line is shown at once. The descriptor is taken as a file, since
    /// `io::Stdout` takes writing to one that is not open for it for a success.
    pub fn new() -> io::Result<Self> {
        let stdout = io::stdout();
        let terminal = stdout.is_terminal();
        let file = File::from(stdout.as_fd().try_clone_to_owned()?);
        let output: Box<dyn Write> = if terminal {
            Box::new(LineWriter::new(file))
        } else {
            Box::new(BufWriter::with_capacity(BUFFER, file))
        };
        Ok(Console {
            output,
            status: Status::AllRight,
            colour: terminal && wants_colour(),
        })
    }

    pub fn worsen(&mut self, status: Status) {
        self.status = self.status.max(status);
    }

    /// Says on standard error what is wrong with a file, after all that was said before it.
    pub fn fault(&mut self, status: Status, name: &Name, words: impl Display) -> io::Result<()> {
        self.worsen(status);
        self.output.flush()?;
        complain(format_args!("{name}: {words}"));
        Ok(())
    }

    /// The status, once all that was said has arrived. A closed pipe is the reader's wish, and no
    /// fault.
    pub fn end(mut self, ended: io::Result<()>) -> Status {
        match ended.and_then(|()| self.output.flush()) {
            Err(error) if error.kind() != ErrorKind::BrokenPipe => {
                complain(format_args!("standard output: {error}"));
                self.worsen(Status::Unusable);
            }
            _ => {}
        }
        self.status
    }
}

impl Write for Console {
    fn write(&mut self, bytes: &[u8]) -> io::Result<usize> {
        self.output.write(bytes)
    }

    fn flush(&mut self) -> io::Result<()> {
        self.output.flush()
    }
}

/// What users of terminals have agreed on: NO_COLOR that is not empty forbids it, and a dumb
/// terminal has none.
fn wants_colour() -> bool {
    let forbidden = env::var_os("NO_COLOR").is_some_and(|value| !value.is_empty());
    let dumb = env::var_os("TERM").is_some_and(|value| value == "dumb");
    !forbidden && !dumb
}
