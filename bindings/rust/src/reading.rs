//! Reading one batch.

use alloc::borrow::Cow;
use alloc::vec::Vec;
use core::error::Error;
use core::fmt;

use oddrafisk_sys::{self as sys, Entries, HeaderRow, RecordRow};

use crate::{Batch, ControlMode, Outline, Refusal};

/// Why no batch was read.
///
/// ```
/// use oddrafisk::{check, ReadError, Refusal};
///
/// let mut bytes = oddrafisk::BatchBuilder::default().to_vec()?;
/// assert_eq!(check(&bytes[..40]), Err(ReadError::MoreBytes { needed: 61 }));
/// bytes[60] = 1;
/// assert_eq!(check(&bytes), Err(ReadError::Refused(Refusal::ChecksumDiffers)));
/// # Ok::<(), oddrafisk::WriteRefusal>(())
/// ```
#[derive(Debug, Clone, Copy, PartialEq, Eq, Hash)]
pub enum ReadError {
    /// The bytes may be the beginning of a batch: with fewer than `needed`, counted from the first,
    /// no more can be said.
    MoreBytes {
        /// How many bytes are needed; those of the whole batch, once its length and its magic byte
        /// are there.
        needed: usize,
    },
    /// The bytes begin with no batch, whatever may follow.
    Refused(Refusal),
}

impl ReadError {
    /// Its number: 1 for more bytes, else the refusal's.
    ///
    /// ```
    /// assert_eq!(oddrafisk::check(&[]).unwrap_err().number(), 1);
    /// ```
    pub fn number(self) -> u32 {
        match self {
            ReadError::MoreBytes { .. } => sys::MORE_BYTES,
            ReadError::Refused(refusal) => refusal.number(),
        }
    }
}

impl From<Refusal> for ReadError {
    fn from(refusal: Refusal) -> Self {
        ReadError::Refused(refusal)
    }
}

impl fmt::Display for ReadError {
    fn fmt(&self, f: &mut fmt::Formatter<'_>) -> fmt::Result {
        match self {
            ReadError::MoreBytes { needed } => {
                write!(f, "{needed} bytes are needed (number {})", self.number())
            }
            ReadError::Refused(refusal) => refusal.fmt(f),
        }
    }
}

impl Error for ReadError {}

/// What the bytes begin with, without its records.
///
/// Bytes that may change meanwhile, as those of a mapped file that is written, are to be copied
/// first: [what a caller owes](crate#what-a-caller-owes).
///
/// ```
/// let bytes = oddrafisk::BatchBuilder::default().to_vec()?;
/// let outline = oddrafisk::check(&bytes)?;
/// assert_eq!((outline.bytes, outline.records), (61, 0));
/// # Ok::<(), Box<dyn std::error::Error>>(())
/// ```
pub fn check(bytes: &[u8]) -> Result<Outline, ReadError> {
    check_in(ControlMode::default(), bytes)
}

/// The same as [`check`] in a mode, which is keyed where none is named.
///
/// ```
/// use oddrafisk::{check_in, BatchBuilder, ControlMode};
///
/// let bytes = BatchBuilder::default().to_vec()?;
/// for mode in [ControlMode::Bare, ControlMode::Keyed] {
///     assert_eq!(check_in(mode, &bytes)?.bytes, 61);
/// }
/// # Ok::<(), Box<dyn std::error::Error>>(())
/// ```
pub fn check_in(mode: ControlMode, bytes: &[u8]) -> Result<Outline, ReadError> {
    let mut entries = [0; sys::ENTRIES];
    let number = sys::check(mode.number(), bytes, &mut entries);
    outline(number, &entries)
}

/// How many bytes the batch that the bytes begin with has, by its own length: what stands after
/// its first 17 bytes is not looked at, and need not be there. It is the same in every mode.
///
/// - With fewer than 12 bytes the answer is [`MoreBytes`](ReadError::MoreBytes) and 12; with fewer
///   than 17, where the length is not refused, `MoreBytes` and 17.
/// - [`LengthTooSmall`](Refusal::LengthTooSmall) and [`UnknownMagic`](Refusal::UnknownMagic) are
///   refused here too, since what has no magic byte of 2 has no such length.
/// - Otherwise the answer is the number of bytes, at least 21, and it is the one that
///   [`check`] and [`Reader::read`] answer by: they need as many bytes, and of a batch that they
///   accept [`Outline::bytes`] is that number.
///
/// So one can go on after a batch that is refused: see
/// [going on after damage](crate#going-on-after-damage) for what may go wrong with it.
///
/// ```
/// use oddrafisk::{check, framed, ReadError, Refusal};
///
/// let mut log = oddrafisk::BatchBuilder::default().to_vec()?;
/// log.extend(oddrafisk::BatchBuilder::default().to_vec()?);
/// log[30] ^= 1;
/// assert_eq!(check(&log), Err(ReadError::Refused(Refusal::ChecksumDiffers)));
/// let next = framed(&log)?;
/// assert!(check(&log[next..]).is_ok());
/// # Ok::<(), Box<dyn std::error::Error>>(())
/// ```
pub fn framed(bytes: &[u8]) -> Result<usize, ReadError> {
    match check(&bytes[..bytes.len().min(FRAME)]) {
        Err(ReadError::MoreBytes { needed }) if FRAME < needed => Ok(needed),
        Err(error) => Err(error),
        Ok(outline) => Ok(outline.bytes),
    }
}

/// The bytes up to the magic byte, with which the length of a batch is settled. No batch is as
/// short as that.
const FRAME: usize = 17;

/// Whether the bytes, all of them, are one batch just as [`BatchBuilder`](crate::BatchBuilder) or
/// [`Marker`](crate::Marker) writes it.
///
/// Bytes that may change meanwhile, as those of a mapped file that is written, are to be copied
/// first: [what a caller owes](crate#what-a-caller-owes).
///
/// ```
/// let mut bytes = oddrafisk::BatchBuilder::default().to_vec()?;
/// assert!(oddrafisk::is_canonical(&bytes));
/// bytes.push(0);
/// assert!(!oddrafisk::is_canonical(&bytes));
/// # Ok::<(), oddrafisk::WriteRefusal>(())
/// ```
pub fn is_canonical(bytes: &[u8]) -> bool {
    is_canonical_in(ControlMode::default(), bytes)
}

/// The same as [`is_canonical`] in a mode, which is keyed where none is named. In the bare mode no
/// control batch is.
///
/// ```
/// use oddrafisk::{is_canonical_in, ControlMode, Fields, Marker};
///
/// let bytes = Marker::Abort.to_vec(&Fields::default());
/// assert!(is_canonical_in(ControlMode::Keyed, &bytes));
/// assert!(!is_canonical_in(ControlMode::Bare, &bytes));
/// ```
pub fn is_canonical_in(mode: ControlMode, bytes: &[u8]) -> bool {
    sys::is_canonical(mode.number(), bytes) != 0
}

impl<'a> Batch<'a, 'static> {
    /// Reads the batch that the bytes begin with, in the keyed mode; [`Reader::in_mode`] reads it
    /// in another. What follows it is not looked at.
    ///
    /// Bytes that may change meanwhile, as those of a mapped file that is written, are to be copied
    /// first: [what a caller owes](crate#what-a-caller-owes).
    ///
    /// ```
    /// # use oddrafisk::{Batch, BatchBuilder};
    /// # let bytes = BatchBuilder::default().push(0, None, Some(b"A"), &[])?.to_vec()?;
    /// assert_eq!(Batch::read(&bytes)?.records().len(), 1);
    /// # Ok::<(), Box<dyn std::error::Error>>(())
    /// ```
    pub fn read(bytes: &'a [u8]) -> Result<Self, ReadError> {
        Ok(Reader::new().read(bytes)?.into_owned())
    }
}

/// Reads one batch after the other with the same tables, which grow as batches need it and are
/// never cleared.
///
/// A batch then costs no allocation, and has to be let go before the next is read; its keys and
/// values may be kept as long as the bytes are there. A batch that is to be kept itself is made by
/// [`Batch::into_owned`], [`Batch::read`] or [`Log`](crate::Log). A batch needs less than 16 times
/// its bytes in tables.
///
/// ```
/// use std::collections::HashMap;
/// use oddrafisk::{BatchBuilder, Reader};
///
/// let first = BatchBuilder::default().push(0, Some(b"a"), Some(b"1"), &[])?.to_vec()?;
/// let second = BatchBuilder::default().push(0, Some(b"a"), Some(b"2"), &[])?.to_vec()?;
/// let mut latest: HashMap<&[u8], &[u8]> = HashMap::new();
/// let mut reader = Reader::new();
/// for bytes in [&first, &second] {
///     for record in reader.read(bytes)?.records() {
///         latest.insert(record.key().unwrap(), record.value().unwrap());
///     }
/// }
/// assert_eq!(latest[b"a".as_slice()], b"2");
/// # Ok::<(), Box<dyn std::error::Error>>(())
/// ```
#[derive(Default)]
pub struct Reader {
    mode: ControlMode,
    records: Vec<RecordRow>,
    headers: Vec<HeaderRow>,
}

impl Reader {
    /// A reader whose tables are still empty, for keyed markers.
    ///
    /// ```
    /// let mut reader = oddrafisk::Reader::new();
    /// assert_eq!(reader.read(&[]).unwrap_err().number(), 1);
    /// ```
    pub fn new() -> Self {
        Reader::default()
    }

    /// The same reader, tables and all, in that mode.
    ///
    /// ```
    /// use oddrafisk::{ControlMode, Fields, Kind, Marker, Reader};
    ///
    /// let bytes = Marker::Abort.to_vec(&Fields::default());
    /// let mut reader = Reader::new();
    /// assert_eq!(reader.read(&bytes)?.kind(), Kind::Marker(Marker::Abort));
    /// assert_eq!(reader.in_mode(ControlMode::Bare).read(&bytes).unwrap_err().number(), 12);
    /// # Ok::<(), oddrafisk::ReadError>(())
    /// ```
    pub fn in_mode(self, mode: ControlMode) -> Self {
        Reader { mode, ..self }
    }

    /// Reads the batch that the bytes begin with. What follows it is not looked at.
    ///
    /// Bytes that may change meanwhile, as those of a mapped file that is written, are to be copied
    /// first: [what a caller owes](crate#what-a-caller-owes).
    ///
    /// ```
    /// # let bytes = oddrafisk::BatchBuilder::default().to_vec()?;
    /// let mut reader = oddrafisk::Reader::new();
    /// let length = reader.read(&bytes)?.bytes().len();
    /// assert_eq!(reader.read(&bytes[length..]).unwrap_err().number(), 1);
    /// # Ok::<(), Box<dyn std::error::Error>>(())
    /// ```
    pub fn read<'a>(&mut self, bytes: &'a [u8]) -> Result<Batch<'a, '_>, ReadError> {
        let outline = self.fill(bytes)?;
        Ok(Batch {
            outline,
            bytes: &bytes[..outline.bytes],
            records: Cow::Borrowed(&self.records[..outline.records]),
            headers: Cow::Borrowed(&self.headers[..outline.headers]),
        })
    }

    /// Fills the first rows of the tables. "No room" names the rows that are needed, and only where
    /// the bytes are a batch, so it is met once at the most.
    fn fill(&mut self, bytes: &[u8]) -> Result<Outline, ReadError> {
        let (mut number, mut entries) = self.read_rows(bytes);
        if number == sys::NO_ROOM {
            let empty = ([0; sys::RECORD_ROW], [0; sys::HEADER_ROW]);
            grow(&mut self.records, entries[sys::RECORDS], empty.0);
            grow(&mut self.headers, entries[sys::HEADERS], empty.1);
            (number, entries) = self.read_rows(bytes);
        }
        outline(number, &entries)
    }

    fn read_rows(&mut self, bytes: &[u8]) -> (u32, Entries) {
        let mut entries = [0; sys::ENTRIES];
        let records = self.records.as_flattened_mut();
        let headers = self.headers.as_flattened_mut();
        let number = sys::read(self.mode.number(), bytes, records, headers, &mut entries);
        (number, entries)
    }
}

impl fmt::Debug for Reader {
    fn fmt(&self, f: &mut fmt::Formatter<'_>) -> fmt::Result {
        f.debug_struct("Reader").finish_non_exhaustive()
    }
}

fn outline(number: u32, entries: &Entries) -> Result<Outline, ReadError> {
    match number {
        sys::ACCEPTED => Ok(Outline::of_entries(entries)),
        sys::MORE_BYTES => Err(ReadError::MoreBytes {
            needed: entries[sys::BYTES] as usize,
        }),
        _ => Err(Refusal::of_number(number)
            .expect("the reader has no other number")
            .into()),
    }
}

fn grow<Row: Copy>(table: &mut Vec<Row>, rows: i64, empty: Row) {
    let rows = rows as usize;
    if table.len() < rows {
        table.resize(rows, empty);
    }
}
