//! Going through the batches of a file, of which no more than one is in memory.

use std::fs::{self, File, Metadata};
use std::io::{self, Read, Seek};
use std::os::fd::AsFd;
use std::os::unix::fs::{FileTypeExt, MetadataExt};

use oddrafisk::{ControlMode, Kind, Marker, ReadError};

use crate::arguments::Work;
use crate::console::{Console, Status};
use crate::name::Name;
use crate::progress::Progress;
use crate::window::{Window, PIECE};

/// With so many bytes of a batch its length is settled.
const FRAME: usize = 17;

/// Why a file was not gone through to its end.
pub enum Trouble {
    /// The batch at the place was not read.
    Stopped(ReadError),
    /// The file cannot be read.
    Unreadable(io::Error),
    /// What the verb writes to cannot be written.
    Unwritable(io::Error),
}

impl From<ReadError> for Trouble {
    fn from(reason: ReadError) -> Self {
        Trouble::Stopped(reason)
    }
}

/// Verbs write and leave the reading to [`Log`], so that an error of theirs is one of writing.
impl From<io::Error> for Trouble {
    fn from(error: io::Error) -> Self {
        Trouble::Unwritable(error)
    }
}

/// Goes through the files of the command line. What is wrong with one is said, and the next is
/// tried; where standard output cannot be written, nothing more can be done.
pub fn each(
    work: &Work,
    console: &mut Console,
    mut visit: impl FnMut(&mut Log, &mut Console) -> Result<(), Trouble>,
) -> io::Result<()> {
    for name in &work.files {
        one(name, work, console, &mut visit)?;
    }
    Ok(())
}

/// Goes through one file.
pub fn one(
    name: &Name,
    work: &Work,
    console: &mut Console,
    visit: impl FnOnce(&mut Log, &mut Console) -> Result<(), Trouble>,
) -> io::Result<()> {
    match Log::open(name, work) {
        Ok(mut log) => {
            let ended = visit(&mut log, console);
            settle(ended, &log, console)
        }
        Err(error) => console.fault(Status::Unusable, name, error),
    }
}

fn settle(ended: Result<(), Trouble>, log: &Log, console: &mut Console) -> io::Result<()> {
    match ended {
        Ok(()) => Ok(()),
        Err(Trouble::Unwritable(error)) => Err(error),
        Err(Trouble::Unreadable(error)) => console.fault(Status::Unusable, log.name, error),
        Err(Trouble::Stopped(reason)) => {
            let (place, words, number) = (log.place(), log.words(reason), reason.number());
            let words = format_args!("stopped at {place}: {words} (number {number})");
            console.fault(status_of(reason), log.name, words)
        }
    }
}

pub fn status_of(reason: ReadError) -> Status {
    match reason {
        ReadError::MoreBytes { .. } => Status::Torn,
        ReadError::Refused(_) => Status::Refused,
    }
}

pub fn name_of(kind: Kind) -> &'static str {
    match kind {
        Kind::Records => "records",
        Kind::Marker(Marker::Abort) => "abort",
        Kind::Marker(Marker::Commit) => "commit",
    }
}

/// A file that is gone through, batch after batch.
pub struct Log<'n> {
    pub name: &'n Name,
    /// The mode in which it is read.
    pub mode: ControlMode,
    window: Window<Source>,
}

impl<'n> Log<'n> {
    /// Opens the file and reads its beginning: a folder can be opened, and is no log.
    fn open(name: &'n Name, work: &Work) -> io::Result<Self> {
        let mut log = Log {
            name,
            mode: work.mode,
            window: Window::new(Source::open(name, work.verb.streams)?),
        };
        log.bring()?;
        Ok(log)
    }

    /// Where the next batch starts; after a stop, the batch that was not read.
    pub fn place(&self) -> u64 {
        self.window.place()
    }

    /// Hands over the place of each batch in turn, and bytes that begin with it, and is told how
    /// many of them it has. It ends with the file, or with the first trouble.
    pub fn walk(
        &mut self,
        judge: impl FnMut(u64, &[u8]) -> Result<usize, Trouble>,
    ) -> Result<(), Trouble> {
        let ended = self.go_on(judge);
        self.window.source_mut().progress.end();
        ended
    }

    fn go_on(
        &mut self,
        mut judge: impl FnMut(u64, &[u8]) -> Result<usize, Trouble>,
    ) -> Result<(), Trouble> {
        while !self.window.bytes().is_empty() {
            let bytes = judge(self.window.place(), self.window.bytes())?;
            self.window.pass(bytes);
            self.bring().map_err(Trouble::Unreadable)?;
        }
        Ok(())
    }

    /// Reads on until the batch at the place is there in full, as far as the file has it, so that
    /// it is judged once. A length that goes past the file's end is not worth the memory.
    fn bring(&mut self) -> io::Result<()> {
        self.window.reach(FRAME)?;
        if let Ok(length) = oddrafisk::framed(self.window.bytes()) {
            if length <= PIECE || length as u64 <= self.left().unwrap_or(u64::MAX) {
                self.window.reach(length)?;
            }
        }
        Ok(())
    }

    /// The batch at the place, where it is there in full.
    pub fn batch(&self) -> Option<&[u8]> {
        let bytes = self.window.bytes();
        bytes.get(..oddrafisk::framed(bytes).ok()?)
    }

    /// What is at hand around the place, and where that begins, with so many bytes from the place
    /// on, as far as the file has them and they can be read.
    pub fn around(&mut self, needed: usize) -> (u64, &[u8]) {
        let _ = self.window.reach(needed);
        self.window.around()
    }

    /// How many bytes the file has from the place on, where it says so and has not shown more.
    fn left(&self) -> Option<u64> {
        let left = self.window.source().length()?.checked_sub(self.place())?;
        (self.window.bytes().len() as u64 <= left).then_some(left)
    }

    /// Why the batch at the place was not read.
    pub fn words(&self, reason: ReadError) -> String {
        match reason {
            ReadError::MoreBytes { needed } => {
                // A file that is written may have grown meanwhile.
                let left = self.left().filter(|&left| left < needed as u64);
                let left = left.unwrap_or(self.window.bytes().len() as u64);
                format!("the log is torn: {left} bytes are there, {needed} are needed")
            }
            ReadError::Refused(refusal) => refusal.words().to_string() + self.hint(),
        }
    }

    /// Said in the bare mode of a marker that the keyed one reads.
    fn hint(&self) -> &'static str {
        let keyed = |batch| oddrafisk::check_in(ControlMode::Keyed, batch).is_ok();
        if self.mode == ControlMode::Bare && self.batch().is_some_and(keyed) {
            "; --control keyed reads it"
        } else {
            ""
        }
    }

    /// Whose file it is and who may use it, where it is a file and no stream.
    pub fn metadata(&self) -> io::Result<Option<Metadata>> {
        let metadata = self.window.source().file.metadata()?;
        Ok(metadata.is_file().then_some(metadata))
    }
}

/// A file, or standard input, from where it stands.
struct Source {
    file: File,
    origin: u64,
    read: u64,
    progress: Progress,
}

impl Source {
    fn open(name: &Name, streams: bool) -> io::Result<Self> {
        let mut file = if name.is_standard_input() {
            standard_input()?
        } else {
            File::open(name.path())?
        };
        let mut source = Source {
            origin: file.stream_position().unwrap_or(0),
            file,
            read: 0,
            progress: Progress::new(name, streams),
        };
        source.progress.length = source.length();
        Ok(source)
    }

    /// How many bytes the file says that it has by now. A pipe says that it has none.
    fn length(&self) -> Option<u64> {
        self.file.metadata().ok()?.len().checked_sub(self.origin)
    }
}

/// Standard input as a file, since `io::Stdin` takes one that is not open for reading for an empty
/// one.
fn standard_input() -> io::Result<File> {
    let file = File::from(io::stdin().as_fd().try_clone_to_owned()?);
    if was_closed(&file)? {
        return Err(io::Error::other("it is closed"));
    }
    Ok(file)
}

/// Where standard input is closed, Rust opens the null device in its place before `main`, for
/// reading and writing, as nobody does who means an empty log.
fn was_closed(file: &File) -> io::Result<bool> {
    const NULL_DEVICE: u64 = 0x103;
    let metadata = file.metadata()?;
    if !metadata.file_type().is_char_device() || metadata.rdev() != NULL_DEVICE {
        return Ok(false);
    }
    let said = fs::read_to_string("/proc/self/fdinfo/0").unwrap_or_default();
    let flags = said.lines().find_map(|line| line.strip_prefix("flags:"));
    Ok(flags.is_some_and(|flags| flags.ends_with('2')))
}

impl Read for Source {
    fn read(&mut self, buffer: &mut [u8]) -> io::Result<usize> {
        let bytes = self.file.read(buffer)?;
        self.read += bytes as u64;
        self.progress.at(self.read);
        Ok(bytes)
    }
}
