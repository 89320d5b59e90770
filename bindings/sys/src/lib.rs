#![doc = include_str!("../README.md")]
#![no_std]
#![deny(missing_docs, unsafe_code)]

mod c;
#[allow(unsafe_code)]
mod calls;

pub use calls::{check, convert, crc32c, is_canonical, measure, read, record_time, version, write};

#[cfg(not(target_pointer_width = "64"))]
compile_error!("oddrafisk is for processors with 64-bit addresses");

/// The version that this crate is made for, as [`version`] gives that of the archive: 0.4.0 is
/// 4000.
pub const VERSION: u32 = 4000;

// The modes: whether there are markers, which are keyed. Every other number is the bare mode.

/// The mode of batches of records alone: no control batch is read or written. Bare markers, after
/// which it is called, are withdrawn, and [`convert`] makes keyed ones of them.
pub const BARE: u32 = 0;
/// The mode of keyed markers, as brokers write them: a record whose key begins with version and
/// type.
pub const KEYED: u32 = 1;

// The places of a batch's entries.

/// The place of the base offset.
pub const BASE_OFFSET: usize = 0;
/// The place of the epoch of the partition's leader, which has 32 bits.
pub const PARTITION_LEADER_EPOCH: usize = 1;
/// The place of the last offset, counted from the base offset, which has 32 bits.
pub const LAST_OFFSET_DELTA: usize = 2;
/// The place of the first timestamp.
pub const FIRST_TIMESTAMP: usize = 3;
/// The place of the greatest timestamp.
pub const MAX_TIMESTAMP: usize = 4;
/// The place of the producer's id; -1 is none.
pub const PRODUCER_ID: usize = 5;
/// The place of the producer's epoch, which has 16 bits; -1 is none.
pub const PRODUCER_EPOCH: usize = 6;
/// The place of the producer's number for the first record, which has 32 bits; -1 is none.
pub const BASE_SEQUENCE: usize = 7;
/// The place of what the timestamps are: 0 create time, 1 log append time.
pub const TIMESTAMP_TYPE: usize = 8;
/// The place of whether the batch is part of a transaction: 0 or 1.
pub const IS_TRANSACTIONAL: usize = 9;
/// The place of the kind: [`KIND_RECORDS`], [`KIND_ABORT`] or [`KIND_COMMIT`].
pub const KIND: usize = 10;
/// The place of how many records there are; of a marker 0, and not looked at in writing one.
pub const RECORDS: usize = 11;
/// The place of how many headers all records have together; not looked at in writing.
pub const HEADERS: usize = 12;
/// The place of how many bytes there are; not looked at in writing.
pub const BYTES: usize = 13;
/// How many entries there are. Those not named are 0, and are to be 0 in writing.
pub const ENTRIES: usize = 16;

/// The kind of a batch of records.
pub const KIND_RECORDS: i64 = 0;
/// The kind of a marker that aborts a transaction.
pub const KIND_ABORT: i64 = 1;
/// The kind of a marker that commits a transaction.
pub const KIND_COMMIT: i64 = 2;

// The places in a row of a record.

/// The place of its time, counted from the batch's first timestamp.
pub const RECORD_TIMESTAMP_DELTA: usize = 0;
/// The place of its offset, counted from the batch's base offset.
pub const RECORD_OFFSET_DELTA: usize = 1;
/// The place of where its key starts.
pub const RECORD_KEY_START: usize = 2;
/// The place of how long its key is; -1 is null.
pub const RECORD_KEY_LENGTH: usize = 3;
/// The place of where its value starts.
pub const RECORD_VALUE_START: usize = 4;
/// The place of how long its value is; -1 is null.
pub const RECORD_VALUE_LENGTH: usize = 5;
/// The place of its first header's row.
pub const RECORD_FIRST_HEADER: usize = 6;
/// The place of how many headers it has.
pub const RECORD_HEADERS: usize = 7;
/// How many numbers are in a row of a record.
pub const RECORD_ROW: usize = 8;

// The places in a row of a header.

/// The place of where its key starts.
pub const HEADER_KEY_START: usize = 0;
/// The place of how long its key is.
pub const HEADER_KEY_LENGTH: usize = 1;
/// The place of where its value starts.
pub const HEADER_VALUE_START: usize = 2;
/// The place of how long its value is.
pub const HEADER_VALUE_LENGTH: usize = 3;
/// How many numbers are in a row of a header.
pub const HEADER_ROW: usize = 4;

// What the functions return.

/// The answer of what is accepted.
pub const ACCEPTED: u32 = 0;
/// The reader's answer where more bytes are needed.
pub const MORE_BYTES: u32 = 1;
/// The reader's answer where a table is short.
pub const NO_ROOM: u32 = 14;

/// What a batch is, in numbers.
pub type Entries = [i64; ENTRIES];
/// A row of a record.
pub type RecordRow = [i64; RECORD_ROW];
/// A row of a header.
pub type HeaderRow = [i64; HEADER_ROW];
