//! Converting logs that were stored before bare markers were withdrawn.

use alloc::borrow::Cow;

use oddrafisk_sys as sys;

use crate::{check, ReadError, Refusal};

/// What a batch is converted to: what [`convert`] tells.
///
/// ```
/// use std::borrow::Cow;
///
/// let bytes = oddrafisk::BatchBuilder::default().to_vec()?;
/// let conversion = oddrafisk::convert(&bytes)?;
/// assert_eq!((conversion.taken, conversion.bytes), (61, Cow::Borrowed(&bytes[..])));
/// # Ok::<(), Box<dyn std::error::Error>>(())
/// ```
#[derive(Debug, Clone, PartialEq, Eq, Hash)]
pub struct Conversion<'a> {
    /// How many bytes the batch has: the next one starts after them.
    pub taken: usize,
    /// What is to be stored in its place: its own bytes, borrowed, or a keyed marker's, owned.
    pub bytes: Cow<'a, [u8]>,
}

/// Converts the batch that the bytes begin with, for logs with bare markers that are stored. What
/// follows it is not looked at.
///
/// A bare marker becomes a keyed one of the same type: 72 bytes for 65. All fixed fields are kept
/// bit for bit, attributes without a meaning too, but for the length and the checksum, which are
/// those of the new bytes. Any other batch that is accepted where markers are keyed stays as it is,
/// and what is not accepted is refused as [`check`] refuses it, but never by
/// [`BareMarker`](Refusal::BareMarker). What a conversion gives it leaves as it is.
///
/// Bytes that may change meanwhile, as those of a mapped file that is written, are to be copied
/// first: [what a caller owes](crate#what-a-caller-owes).
///
/// ```
/// use oddrafisk::{check, convert, Kind, Marker, Refusal};
///
/// // A commit in the bare form, and a batch after it.
/// let mut log = vec![0; 65];
/// log[11] = 53; // the length
/// log[16] = 2; // the magic byte
/// log[17..21].copy_from_slice(&[0xBC, 0x2B, 0x21, 0x21]); // the checksum
/// log[22] = 0x20; // a control batch
/// log[60] = 1; // the count
/// log[64] = 1; // the type
/// log.extend(oddrafisk::BatchBuilder::default().to_vec()?);
/// assert_eq!(check(&log), Err(Refusal::BareMarker.into()));
///
/// let (mut converted, mut place) = (Vec::new(), 0);
/// while place < log.len() {
///     let conversion = convert(&log[place..])?;
///     converted.extend_from_slice(&conversion.bytes);
///     place += conversion.taken;
/// }
/// assert_eq!(check(&converted)?.kind, Kind::Marker(Marker::Commit));
/// assert_eq!((converted.len(), &converted[72..]), (72 + 61, &log[65..]));
/// # Ok::<(), Box<dyn std::error::Error>>(())
/// ```
pub fn convert(bytes: &[u8]) -> Result<Conversion<'_>, ReadError> {
    match check(bytes) {
        Ok(outline) => Ok(Conversion {
            taken: outline.bytes,
            bytes: Cow::Borrowed(&bytes[..outline.bytes]),
        }),
        Err(ReadError::Refused(Refusal::BareMarker)) => Ok(convert_marker(bytes)),
        Err(error) => Err(error),
    }
}

/// How many bytes a keyed marker has, as it is written.
const KEYED_BYTES: usize = 72;

fn convert_marker(bytes: &[u8]) -> Conversion<'static> {
    let (mut output, mut answer) = ([0; KEYED_BYTES], [0; 2]);
    let number = sys::convert(bytes, &mut output, &mut answer);
    assert!(number == sys::ACCEPTED, "a bare marker is converted");
    let [taken, given] = answer.map(|bytes| bytes as usize);
    Conversion {
        taken,
        bytes: Cow::Owned(output[..given].to_vec()),
    }
}
