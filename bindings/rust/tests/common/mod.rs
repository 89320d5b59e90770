//! Batches put together from bytes, by document 01's table and not by the writer, and fields.

use oddrafisk::{Fields, TimestampType};

/// The checksum of places 21 and on, put where it belongs.
pub fn repaired(mut bytes: Vec<u8>) -> Vec<u8> {
    let checksum = oddrafisk::crc32c(&bytes[21..]);
    bytes[17..21].copy_from_slice(&checksum.to_be_bytes());
    bytes
}

/// A batch with these attributes, this count and this body; its other fields are 0.
pub fn batch_with_body(attributes: u16, count: i32, body: &[u8]) -> Vec<u8> {
    let mut bytes = vec![0; 61];
    bytes[8..12].copy_from_slice(&(49 + body.len() as i32).to_be_bytes());
    bytes[16] = 2;
    bytes[21..23].copy_from_slice(&attributes.to_be_bytes());
    bytes[57..61].copy_from_slice(&count.to_be_bytes());
    bytes.extend(body);
    repaired(bytes)
}

/// The batch of the one record that has no key and the value "A".
pub fn one_record() -> Vec<u8> {
    batch_with_body(0, 1, &[0x0E, 0, 0, 0, 1, 2, 0x41, 0])
}

/// A control batch of this type, as it is written: 0 is an abort, 1 a commit.
pub fn marker(control_type: u8) -> Vec<u8> {
    batch_with_body(0x20, 1, &[0x14, 0, 0, 0, 8, 0, 0, 0, control_type, 1, 0])
}

/// The same in the bare form, which is withdrawn.
#[allow(dead_code)]
pub fn bare_marker(control_type: u8) -> Vec<u8> {
    batch_with_body(0x20, 1, &[0, 0, 0, control_type])
}

/// Every field 0, as these batches have it.
#[allow(dead_code)]
pub const ZERO: Fields = Fields {
    base_offset: 0,
    partition_leader_epoch: 0,
    last_offset_delta: 0,
    first_timestamp: 0,
    max_timestamp: 0,
    producer_id: 0,
    producer_epoch: 0,
    base_sequence: 0,
    timestamp_type: TimestampType::CreateTime,
    is_transactional: false,
};
