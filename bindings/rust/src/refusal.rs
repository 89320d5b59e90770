//! Why a batch is refused.

use core::error::Error;
use core::fmt;

/// Why the bytes begin with no batch, whatever bytes may follow them. It is the first fault in the
/// order of reading.
///
/// ```
/// use oddrafisk::{check, ReadError, Refusal};
///
/// assert_eq!(check(&[0; 12]), Err(ReadError::Refused(Refusal::LengthTooSmall)));
/// ```
#[derive(Debug, Clone, Copy, PartialEq, Eq, Hash)]
#[non_exhaustive]
pub enum Refusal {
    /// batchLength is below 9.
    LengthTooSmall = 2,
    /// The magic byte is not 2.
    UnknownMagic = 3,
    /// The bytes have another CRC-32C than the batch says.
    ChecksumDiffers = 4,
    /// The codec is 5, 6 or 7.
    UnknownCodec = 5,
    /// The codec is one of 1 to 4: the records are compressed.
    Compressed = 6,
    /// The count of records is below -1, or that of a control batch is not 1.
    WrongCount = 7,
    /// A field runs past its record or past the batch.
    PastEnd = 8,
    /// A number of varying length has too many bytes, or is too large.
    BeyondLimits = 9,
    /// A length or a count is negative where it may not be.
    NegativeLength = 10,
    /// The key of a header is not UTF-8.
    KeyNotUtf8 = 11,
    /// The version or the type of a marker is unknown, or its key is null or shorter than the four
    /// bytes of both. In the bare mode every keyed marker is such a one:
    /// [`ControlMode`](crate::ControlMode).
    UnknownControl = 12,
    /// Bytes are left in a record, or after the last record or the marker.
    BytesLeft = 13,
    /// The batch is a bare marker with no other fault. That form is withdrawn:
    /// [`convert`](crate::convert) makes a keyed marker of it, and the program `oddrafisk convert`
    /// converts whole files.
    BareMarker = 41,
}

impl Refusal {
    const ALL: [Refusal; 13] = [
        Refusal::LengthTooSmall,
        Refusal::UnknownMagic,
        Refusal::ChecksumDiffers,
        Refusal::UnknownCodec,
        Refusal::Compressed,
        Refusal::WrongCount,
        Refusal::PastEnd,
        Refusal::BeyondLimits,
        Refusal::NegativeLength,
        Refusal::KeyNotUtf8,
        Refusal::UnknownControl,
        Refusal::BytesLeft,
        Refusal::BareMarker,
    ];

    /// Its number, 2 to 13 or 41.
    ///
    /// ```
    /// assert_eq!(oddrafisk::Refusal::ChecksumDiffers.number(), 4);
    /// ```
    pub fn number(self) -> u32 {
        self as u32
    }

    pub(crate) fn of_number(number: u32) -> Option<Refusal> {
        Refusal::ALL
            .into_iter()
            .find(|refusal| refusal.number() == number)
    }

    /// What it is, in plain words.
    ///
    /// ```
    /// assert_eq!(oddrafisk::Refusal::ChecksumDiffers.words(), "the checksum differs");
    /// ```
    pub fn words(self) -> &'static str {
        match self {
            Refusal::LengthTooSmall => "the length of the batch is too small",
            Refusal::UnknownMagic => "the magic byte is not 2",
            Refusal::ChecksumDiffers => "the checksum differs",
            Refusal::UnknownCodec => "the codec is unknown",
            Refusal::Compressed => "the records are compressed",
            Refusal::WrongCount => "the count of records is wrong",
            Refusal::PastEnd => "a field runs past its end",
            Refusal::BeyondLimits => "a number of varying length is too long or too large",
            Refusal::NegativeLength => "a length or a count is negative",
            Refusal::KeyNotUtf8 => "the key of a header is not UTF-8",
            Refusal::UnknownControl => "the control marker is unknown",
            Refusal::BytesLeft => "bytes are left over",
            Refusal::BareMarker => {
                "bare markers are withdrawn; `oddrafisk convert IN OUT` converts a stored log"
            }
        }
    }
}

impl fmt::Display for Refusal {
    fn fmt(&self, f: &mut fmt::Formatter<'_>) -> fmt::Result {
        write!(f, "{} (number {})", self.words(), self.number())
    }
}

impl Error for Refusal {}

/// Why a batch cannot be written.
///
/// The writer has two more numbers, 20 and 22, for a codec and for keys that are not UTF-8. They do
/// not come up here: [`BatchBuilder`](crate::BatchBuilder) asks for no codec and takes the keys of
/// headers as `str`.
///
/// ```
/// use oddrafisk::{BatchBuilder, WriteRefusal};
///
/// assert_eq!(BatchBuilder::default().write(&mut [0; 60]), Err(WriteRefusal::ShortOutput));
/// ```
#[derive(Debug, Clone, Copy, PartialEq, Eq, Hash)]
#[non_exhaustive]
pub enum WriteRefusal {
    /// No batch has such a row: the value of a header is null, which is not written yet (request
    /// C-15). All else in the rows [`BatchBuilder`](crate::BatchBuilder) makes as it is to be.
    WrongRow = 21,
    /// batchLength would exceed 2147483647.
    TooLong = 23,
    /// The output is shorter than the batch.
    ShortOutput = 24,
    /// A marker is asked for in the bare mode, in which none is written:
    /// [`ControlMode`](crate::ControlMode).
    BareMarker = 41,
}

impl WriteRefusal {
    const ALL: [WriteRefusal; 4] = [
        WriteRefusal::WrongRow,
        WriteRefusal::TooLong,
        WriteRefusal::ShortOutput,
        WriteRefusal::BareMarker,
    ];

    /// Its number: 21, 23, 24 or 41.
    ///
    /// ```
    /// assert_eq!(oddrafisk::WriteRefusal::ShortOutput.number(), 24);
    /// ```
    pub fn number(self) -> u32 {
        self as u32
    }

    pub(crate) fn of_number(number: u32) -> Option<WriteRefusal> {
        WriteRefusal::ALL
            .into_iter()
            .find(|refusal| refusal.number() == number)
    }

    /// What it is, in plain words.
    ///
    /// ```
    /// use oddrafisk::WriteRefusal::ShortOutput;
    ///
    /// assert_eq!(ShortOutput.words(), "the output is shorter than the batch");
    /// ```
    pub fn words(self) -> &'static str {
        match self {
            WriteRefusal::WrongRow => "an entry or a row is asked for that no batch has",
            WriteRefusal::TooLong => {
                "the batch would be longer than 2147483647 bytes after its length"
            }
            WriteRefusal::ShortOutput => "the output is shorter than the batch",
            WriteRefusal::BareMarker => {
                "markers are not written in the bare mode; write them in the keyed mode"
            }
        }
    }
}

impl fmt::Display for WriteRefusal {
    fn fmt(&self, f: &mut fmt::Formatter<'_>) -> fmt::Result {
        write!(f, "{} (number {})", self.words(), self.number())
    }
}

impl Error for WriteRefusal {}

/// Why a record cannot come next in a batch. The batch is as it was.
///
/// ```
/// use oddrafisk::{BatchBuilder, PushRefusal};
///
/// let mut builder = BatchBuilder::default();
/// builder.push(-2, None, None, &[])?;
/// assert_eq!(builder.push(i64::MAX, None, None, &[]).unwrap_err(), PushRefusal::Timestamp);
/// # Ok::<(), PushRefusal>(())
/// ```
#[derive(Debug, Clone, Copy, PartialEq, Eq, Hash)]
#[non_exhaustive]
pub enum PushRefusal {
    /// The time, counted from that of the first record, leaves 64 bits.
    Timestamp,
    /// The offset, counted from the base offset, leaves 32 bits, or itself 64.
    Offset,
    /// The value of a header is null, which is not written yet (request C-15).
    NullHeaderValue,
}

impl fmt::Display for PushRefusal {
    fn fmt(&self, f: &mut fmt::Formatter<'_>) -> fmt::Result {
        f.write_str(match self {
            PushRefusal::Timestamp => "the time, counted from the first record's, leaves 64 bits",
            PushRefusal::Offset => "the offset leaves 64 bits, or counted from the base offset 32",
            PushRefusal::NullHeaderValue => "the value of a header is null",
        })
    }
}

impl Error for PushRefusal {}

#[cfg(test)]
mod tests {
    use super::*;

    /// The number that the header gives to a name.
    fn in_header(name: &str) -> u32 {
        let header = include_str!("../../c/oddrafisk.h");
        let (_, rest) = header
            .split_once(&alloc::format!(" ODDRAFISK_{name} = "))
            .expect(name);
        let digits = rest.split(|c: char| !c.is_ascii_digit()).next().unwrap();
        digits.parse().expect(name)
    }

    #[test]
    fn numbers_are_the_header_s() {
        let numbers = [
            ("LENGTH_TOO_SMALL", Refusal::LengthTooSmall.number()),
            ("UNKNOWN_MAGIC", Refusal::UnknownMagic.number()),
            ("CHECKSUM_DIFFERS", Refusal::ChecksumDiffers.number()),
            ("UNKNOWN_CODEC", Refusal::UnknownCodec.number()),
            ("COMPRESSED", Refusal::Compressed.number()),
            ("WRONG_COUNT", Refusal::WrongCount.number()),
            ("PAST_END", Refusal::PastEnd.number()),
            ("BEYOND_LIMITS", Refusal::BeyondLimits.number()),
            ("NEGATIVE_LENGTH", Refusal::NegativeLength.number()),
            ("KEY_NOT_UTF8", Refusal::KeyNotUtf8.number()),
            ("UNKNOWN_CONTROL", Refusal::UnknownControl.number()),
            ("BYTES_LEFT", Refusal::BytesLeft.number()),
            ("BARE_MARKER", Refusal::BareMarker.number()),
            ("BARE_MARKER", WriteRefusal::BareMarker.number()),
            ("WRONG_ROW", WriteRefusal::WrongRow.number()),
            ("TOO_LONG", WriteRefusal::TooLong.number()),
            ("SHORT_OUTPUT", WriteRefusal::ShortOutput.number()),
        ];
        for (name, number) in numbers {
            assert_eq!(in_header(name), number, "{name}");
        }
    }

    /// Whoever reads C and whoever reads Rust is told the same. For a number that reader and writer
    /// both have, C has one text, with every part of the reader's.
    #[test]
    fn words_are_the_header_s() {
        let header = include_str!("../../c/oddrafisk.h");
        let has = |words: &str| header.contains(&alloc::format!("\"{words}\""));
        let has_parts_of = |words: &str| {
            let mut returned = header.lines().filter(|line| line.contains("return \""));
            returned.any(|line| words.split("; ").all(|part| line.contains(part)))
        };
        for refusal in Refusal::ALL {
            let words = refusal.words();
            match WriteRefusal::of_number(refusal.number()) {
                None => assert!(has(words), "{words}"),
                Some(_) => assert!(has_parts_of(words), "{words}"),
            }
        }
        for refusal in WriteRefusal::ALL {
            let shared = Refusal::of_number(refusal.number()).is_some();
            assert_eq!(has(refusal.words()), !shared, "{}", refusal.words());
        }
    }
}
