//! The functions of liboddrafisk.a that are measured, over both tables at once.

use oddrafisk_sys::{self as sys, Entries};

pub use oddrafisk_sys::{
    check, crc32c, ACCEPTED, BARE, BYTES, ENTRIES, HEADER_ROW, KEYED, KIND, RECORDS, RECORD_ROW,
};

/// Both tables, of records and of headers.
#[derive(Clone)]
pub struct Tables {
    pub records: Vec<i64>,
    pub headers: Vec<i64>,
}

pub fn read(mode: u32, bytes: &[u8], tables: &mut Tables, answer: &mut Entries) -> u32 {
    sys::read(mode, bytes, &mut tables.records, &mut tables.headers, answer)
}

pub fn write(
    mode: u32,
    batch: &Entries,
    codec: i64,
    tables: &Tables,
    source: &[u8],
    output: &mut [u8],
    answer: &mut [i64; 1],
) -> u32 {
    sys::write(mode, batch, codec, &tables.records, &tables.headers, source, output, answer)
}

pub fn is_canonical(mode: u32, bytes: &[u8]) -> bool {
    sys::is_canonical(mode, bytes) == 1
}
