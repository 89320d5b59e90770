#![doc = include_str!("../README.md")]
#![no_std]
#![forbid(unsafe_code)]
#![deny(missing_docs)]

extern crate alloc;

mod batch;
mod converting;
mod log;
mod reading;
mod refusal;
mod writing;

pub use batch::{
    record_time, Batch, ControlMode, Fields, Header, Kind, Marker, Outline, Record, TimestampType,
};
pub use converting::{convert, Conversion};
pub use log::{Log, LogError};
pub use reading::{check, check_in, framed, is_canonical, is_canonical_in, ReadError, Reader};
pub use refusal::{PushRefusal, Refusal, WriteRefusal};
pub use writing::{BatchBuilder, MarkerBuilder, NewRecord};

/// CRC-32C (Castagnoli) of the bytes.
///
/// Bytes that may change meanwhile, as those of a mapped file that is written, are to be copied
/// first: [what a caller owes](crate#what-a-caller-owes).
///
/// ```
/// assert_eq!(oddrafisk::crc32c(b"123456789"), 0xE306_9283);
/// ```
pub fn crc32c(bytes: &[u8]) -> u32 {
    oddrafisk_sys::crc32c(bytes)
}
