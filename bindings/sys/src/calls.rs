//! The C functions as safe ones: the one module with `unsafe` in it. `c.rs` declares what it calls,
//! and bindings/c/oddrafisk.h has the rules.
//!
//! What the header asks of a caller is what Rust's references are. A slice is a pointer that is not
//! null and is aligned, even where it is empty, to as many elements as it says; a `&mut` overlaps
//! nothing else; and while they are borrowed nothing changes what a `&` shows, and nobody else
//! looks at what a `&mut` does. That addresses have 64 bits is held in `lib.rs`. The functions keep
//! nothing that they are lent, use no memory but that and their stack, of which the header says how
//! much, and answer every value of every parameter. Every number is a valid one, so any may be
//! stored.

use core::sync::atomic::{AtomicBool, Ordering::Relaxed};

use crate::{c, Entries, VERSION};

/// What the bytes begin with, by `oddrafisk_check`.
///
/// ```
/// use oddrafisk_sys::{check, BYTES, ENTRIES, KEYED, MORE_BYTES};
///
/// let mut answer = [0; ENTRIES];
/// assert_eq!(check(KEYED, &[], &mut answer), MORE_BYTES);
/// assert_eq!(answer[BYTES], 12);
/// ```
#[inline]
pub fn check(mode: u32, bytes: &[u8], answer: &mut Entries) -> u32 {
    hold_version();
    // SAFETY: each is lent as what it is, and the slice with its own length.
    unsafe { c::oddrafisk_check(mode, bytes.as_ptr(), bytes.len(), answer.as_mut_ptr()) }
}

/// The same, with the rows of the records and of their headers, by `oddrafisk_read`. Tables are row
/// after row; what is left over after the last whole row is never touched.
///
/// ```
/// use oddrafisk_sys::{read, ENTRIES, HEADER_ROW, KEYED, MORE_BYTES, RECORD_ROW};
///
/// // Four rows of records and two of headers.
/// let (mut records, mut headers) = ([0; 4 * RECORD_ROW], [0; 2 * HEADER_ROW]);
/// let mut answer = [0; ENTRIES];
/// assert_eq!(read(KEYED, &[], &mut records, &mut headers, &mut answer), MORE_BYTES);
/// ```
#[inline]
pub fn read(
    mode: u32,
    bytes: &[u8],
    records: &mut [i64],
    headers: &mut [i64],
    answer: &mut Entries,
) -> u32 {
    hold_version();
    // SAFETY: each is lent as what it is, and each slice with its own length.
    unsafe {
        c::oddrafisk_read(
            mode,
            bytes.as_ptr(),
            bytes.len(),
            records.as_mut_ptr(),
            records.len(),
            headers.as_mut_ptr(),
            headers.len(),
            answer.as_mut_ptr(),
        )
    }
}

/// How many bytes a batch has when it is written, by `oddrafisk_measure`.
///
/// ```
/// use oddrafisk_sys::{measure, BARE, KEYED, KIND, KIND_ABORT};
///
/// let (mut batch, mut answer) = ([0; 16], [0]);
/// batch[KIND] = KIND_ABORT;
/// assert_eq!(measure(KEYED, &batch, 0, &[], &[], &[], &mut answer), 0);
/// assert_eq!(answer, [72]);
/// assert_eq!(measure(BARE, &batch, 0, &[], &[], &[], &mut answer), 41);
/// assert_eq!(answer, [0]);
/// ```
#[inline]
pub fn measure(
    mode: u32,
    batch: &Entries,
    codec: i64,
    records: &[i64],
    headers: &[i64],
    source: &[u8],
    answer: &mut [i64; 1],
) -> u32 {
    hold_version();
    // SAFETY: each is lent as what it is, and each slice with its own length.
    unsafe {
        c::oddrafisk_measure(
            mode,
            batch.as_ptr(),
            codec,
            records.as_ptr(),
            records.len(),
            headers.as_ptr(),
            headers.len(),
            source.as_ptr(),
            source.len(),
            answer.as_mut_ptr(),
        )
    }
}

/// Writes a batch to the start of the output, by `oddrafisk_write`.
///
/// ```
/// use oddrafisk_sys::{write, KEYED};
///
/// let (mut output, mut answer) = ([0; 60], [0]);
/// assert_eq!(write(KEYED, &[0; 16], 0, &[], &[], &[], &mut output, &mut answer), 24);
/// ```
#[inline]
#[allow(clippy::too_many_arguments)]
pub fn write(
    mode: u32,
    batch: &Entries,
    codec: i64,
    records: &[i64],
    headers: &[i64],
    source: &[u8],
    output: &mut [u8],
    answer: &mut [i64; 1],
) -> u32 {
    hold_version();
    // SAFETY: each is lent as what it is, and each slice with its own length.
    unsafe {
        c::oddrafisk_write(
            mode,
            batch.as_ptr(),
            codec,
            records.as_ptr(),
            records.len(),
            headers.as_ptr(),
            headers.len(),
            source.as_ptr(),
            source.len(),
            output.as_mut_ptr(),
            output.len(),
            answer.as_mut_ptr(),
        )
    }
}

/// 1 where the bytes, all of them, are one batch just as [`write()`] gives it in that mode, else 0,
/// by `oddrafisk_is_canonical`.
///
/// ```
/// assert_eq!(oddrafisk_sys::is_canonical(oddrafisk_sys::KEYED, &[]), 0);
/// ```
#[inline]
pub fn is_canonical(mode: u32, bytes: &[u8]) -> u32 {
    hold_version();
    // SAFETY: the slice is lent with its own length.
    unsafe { c::oddrafisk_is_canonical(mode, bytes.as_ptr(), bytes.len()) }
}

/// Converts the batch that the bytes begin with, by `oddrafisk_convert`: a bare marker becomes a
/// keyed one in the output, and what is accepted in the keyed mode is copied to it. The answer is
/// how many bytes were taken, or are needed, and how many were given.
///
/// ```
/// use oddrafisk_sys::{convert, write, ACCEPTED, KEYED, MORE_BYTES};
///
/// let (mut batch, mut output, mut answer) = ([0; 61], [0; 68], [0; 2]);
/// write(KEYED, &[0; 16], 0, &[], &[], &[], &mut batch, &mut [0]);
/// assert_eq!(convert(&batch, &mut output, &mut answer), ACCEPTED);
/// assert_eq!((answer, &output[..61]), ([61, 61], &batch[..]));
/// assert_eq!(convert(&batch[..20], &mut output, &mut answer), MORE_BYTES);
/// assert_eq!(answer, [61, 0]);
/// ```
#[inline]
pub fn convert(bytes: &[u8], output: &mut [u8], answer: &mut [i64; 2]) -> u32 {
    hold_version();
    // SAFETY: each is lent as what it is, and each slice with its own length.
    unsafe {
        c::oddrafisk_convert(
            bytes.as_ptr(),
            bytes.len(),
            output.as_mut_ptr(),
            output.len(),
            answer.as_mut_ptr(),
        )
    }
}

/// 1 and the time of a record, or 0 where there is none, by `oddrafisk_record_time`.
///
/// ```
/// let mut answer = [0];
/// assert_eq!(oddrafisk_sys::record_time(0, 1000, 2000, -1, &mut answer), 1);
/// assert_eq!(answer, [999]);
/// ```
#[inline]
pub fn record_time(
    timestamp_type: i64,
    first_timestamp: i64,
    max_timestamp: i64,
    delta: i64,
    answer: &mut [i64; 1],
) -> u32 {
    hold_version();
    // SAFETY: the answer is lent as what it is.
    unsafe {
        c::oddrafisk_record_time(
            timestamp_type,
            first_timestamp,
            max_timestamp,
            delta,
            answer.as_mut_ptr(),
        )
    }
}

/// CRC-32C (Castagnoli) of the bytes, by `oddrafisk_crc32c`.
///
/// ```
/// assert_eq!(oddrafisk_sys::crc32c(b"123456789"), 0xE306_9283);
/// ```
#[inline]
pub fn crc32c(bytes: &[u8]) -> u32 {
    hold_version();
    // SAFETY: the slice is lent with its own length.
    unsafe { c::oddrafisk_crc32c(bytes.as_ptr(), bytes.len()) }
}

/// The version of the archive that is linked, by `oddrafisk_version`.
///
/// ```
/// assert_eq!(oddrafisk_sys::version(), oddrafisk_sys::VERSION);
/// ```
#[inline]
pub fn version() -> u32 {
    // SAFETY: nothing is lent.
    unsafe { c::oddrafisk_version() }
}

/// Panics where the archive has another version than this crate: such a one may answer by other
/// entries and other numbers. It is asked before the first call of this program alone.
#[inline]
fn hold_version() {
    static HELD: AtomicBool = AtomicBool::new(false);
    if !HELD.load(Relaxed) {
        hold(version());
        HELD.store(true, Relaxed);
    }
}

#[cold]
fn hold(found: u32) {
    assert!(
        found == VERSION,
        "liboddrafisk.a has the version {found}, and oddrafisk-sys is for {VERSION}: \
         build the archive again, or name another by ODDRAFISK_LIB_DIR"
    );
}

#[cfg(test)]
mod tests {
    use super::*;

    #[test]
    fn the_archive_has_this_version() {
        assert_eq!(version(), VERSION);
    }

    #[test]
    #[should_panic(expected = "has the version 3999, and oddrafisk-sys is for 4000")]
    fn a_stale_archive_is_found() {
        hold(VERSION - 1);
    }
}
