//! Reading a log: batch after batch.

use core::error::Error;
use core::fmt;

use crate::{framed, Batch, ControlMode, ReadError, Reader};

/// The batches of a log that is held in memory, one after the other.
///
/// It ends where the log ends, or with the first error: nothing is read past a batch that is
/// refused or cut off, unless [`pass_over`](Log::pass_over) says so. Each batch has rows of its own
/// and may be kept; its keys and values are parts of the log's bytes.
///
/// ```
/// use oddrafisk::{Log, LogError, ReadError};
///
/// let mut bytes = oddrafisk::BatchBuilder::default().to_vec().unwrap();
/// bytes.extend([0, 0, 0]);
/// let mut log = Log::new(&bytes);
/// assert!(log.next().unwrap().is_ok());
/// let reason = ReadError::MoreBytes { needed: 12 };
/// assert_eq!(log.next().unwrap().unwrap_err(), LogError { place: 61, reason });
/// assert!(log.next().is_none());
/// ```
pub struct Log<'a> {
    bytes: &'a [u8],
    place: usize,
    stopped: bool,
    reader: Reader,
}

impl<'a> Log<'a> {
    /// The log that these bytes are, from its beginning, with keyed markers, as brokers write them.
    ///
    /// Bytes that may change meanwhile, as those of a mapped file that is written, are to be copied
    /// first: [what a caller owes](crate#what-a-caller-owes).
    ///
    /// ```
    /// assert!(oddrafisk::Log::new(&[]).next().is_none());
    /// ```
    pub fn new(bytes: &'a [u8]) -> Self {
        Log {
            bytes,
            place: 0,
            stopped: false,
            reader: Reader::new(),
        }
    }

    /// The same log, from where it is, in that mode. A log that has stopped stays so.
    ///
    /// ```
    /// use oddrafisk::{BatchBuilder, ControlMode, Fields, Kind, Log, Marker};
    ///
    /// let mut bytes = BatchBuilder::default().to_vec().unwrap();
    /// Marker::Commit.append_to(&Fields::default(), &mut bytes);
    /// let log = Log::new(&bytes);
    /// let kinds = log.map(|batch| Ok(batch?.kind())).collect::<Result<Vec<_>, _>>()?;
    /// assert_eq!(kinds, [Kind::Records, Kind::Marker(Marker::Commit)]);
    ///
    /// let mut log = Log::new(&bytes).in_mode(ControlMode::Bare);
    /// let error = log.find_map(Result::err).unwrap();
    /// assert_eq!((error.place, error.reason.number()), (61, 12));
    /// # Ok::<(), oddrafisk::LogError>(())
    /// ```
    pub fn in_mode(self, mode: ControlMode) -> Self {
        Log {
            reader: self.reader.in_mode(mode),
            ..self
        }
    }

    /// Where the next batch starts; after an error, the batch that was not read.
    ///
    /// ```
    /// let bytes = oddrafisk::BatchBuilder::default().to_vec()?;
    /// let mut log = oddrafisk::Log::new(&bytes);
    /// assert_eq!(log.place(), 0);
    /// log.next();
    /// assert_eq!(log.place(), 61);
    /// # Ok::<(), oddrafisk::WriteRefusal>(())
    /// ```
    pub fn place(&self) -> usize {
        self.place
    }

    /// Passes over the next batch by its own length, as [`framed`] tells it, and returns that
    /// length; the log then goes on after it, also where it had stopped.
    ///
    /// Where the length is refused, or the log is too short for it, the error is returned and
    /// nothing changes: then no place is known at which to go on.
    /// [Going on after damage](crate#going-on-after-damage) says what is at stake.
    ///
    /// ```
    /// let mut bytes = oddrafisk::BatchBuilder::default().to_vec()?;
    /// bytes.extend(oddrafisk::BatchBuilder::default().to_vec()?);
    /// bytes[30] ^= 1;
    /// let mut log = oddrafisk::Log::new(&bytes);
    /// assert_eq!(log.next().unwrap().unwrap_err().reason.number(), 4);
    /// assert_eq!(log.pass_over()?, 61);
    /// assert!(log.next().unwrap().is_ok());
    /// # Ok::<(), Box<dyn std::error::Error>>(())
    /// ```
    pub fn pass_over(&mut self) -> Result<usize, LogError> {
        let place = self.place;
        let rest = &self.bytes[place..];
        let length = match framed(rest) {
            Ok(length) if rest.len() < length => Err(ReadError::MoreBytes { needed: length }),
            framed => framed,
        };
        let length = length.map_err(|reason| LogError { place, reason })?;
        self.place += length;
        self.stopped = false;
        Ok(length)
    }
}

impl<'a> Iterator for Log<'a> {
    type Item = Result<Batch<'a, 'static>, LogError>;

    fn next(&mut self) -> Option<Self::Item> {
        if self.stopped || self.place == self.bytes.len() {
            return None;
        }
        let place = self.place;
        let read = self.reader.read(&self.bytes[place..]);
        match &read {
            Ok(batch) => self.place += batch.bytes.len(),
            Err(_) => self.stopped = true,
        }
        Some(
            read.map(Batch::into_owned)
                .map_err(|reason| LogError { place, reason }),
        )
    }
}

impl fmt::Debug for Log<'_> {
    fn fmt(&self, f: &mut fmt::Formatter<'_>) -> fmt::Result {
        f.debug_struct("Log")
            .field("length", &self.bytes.len())
            .field("place", &self.place)
            .field("stopped", &self.stopped)
            .finish_non_exhaustive()
    }
}

/// Why a log cannot be read on.
///
/// ```
/// let error = oddrafisk::Log::new(&[0; 11]).next().unwrap().unwrap_err();
/// assert_eq!(error.to_string(), "at 0: 12 bytes are needed (number 1)");
/// ```
#[derive(Debug, Clone, Copy, PartialEq, Eq, Hash)]
pub struct LogError {
    /// Where the batch that was not read starts: all before it was read.
    pub place: usize,
    /// Why it was not read. [`MoreBytes`](ReadError::MoreBytes) is a log that is cut off, or a
    /// batch whose length is damaged, and counts from `place`.
    pub reason: ReadError,
}

impl fmt::Display for LogError {
    fn fmt(&self, f: &mut fmt::Formatter<'_>) -> fmt::Result {
        write!(f, "at {}: {}", self.place, self.reason)
    }
}

impl Error for LogError {}
