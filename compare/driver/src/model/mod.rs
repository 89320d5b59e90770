//! A model of document 01, and of C-16 and C-24 in document 02, written from their texts and sharing
//! nothing with the library: every number, place and rule stands here once more. It is slow and plain
//! on purpose.

pub mod converting;
pub mod reading;
pub mod writing;

/// Which form the marker of a control batch has.
#[derive(Clone, Copy, Debug, PartialEq)]
pub enum Mode {
    /// Document 01's: version and type alone. C-24 withdraws it: such a marker is refused.
    Bare,
    /// Document 02's, C-16: one record, whose key begins with version and type.
    Keyed,
}

/// What the C interface says of a batch: bindings/c/oddrafisk.h names the places.
pub type Entries = [i64; 16];

/// The places that are looked at one by one.
pub const KIND: usize = 10;
pub const RECORDS: usize = 11;
pub const HEADERS: usize = 12;
pub const BYTES: usize = 13;

pub const RECORD_ROW: usize = 8;
pub const HEADER_ROW: usize = 4;

/// Document 01's numbers.
pub const ACCEPTED: u32 = 0;
pub const MORE_BYTES: u32 = 1;
pub const SMALL_LENGTH: u32 = 2;
pub const UNKNOWN_MAGIC: u32 = 3;
pub const CHECKSUM_DIFFERS: u32 = 4;
pub const UNKNOWN_CODEC: u32 = 5;
pub const COMPRESSED: u32 = 6;
pub const WRONG_COUNT: u32 = 7;
pub const PAST_END: u32 = 8;
pub const BEYOND_LIMITS: u32 = 9;
pub const NEGATIVE_LENGTH: u32 = 10;
pub const KEY_NOT_UTF8: u32 = 11;
pub const UNKNOWN_CONTROL: u32 = 12;
pub const BYTES_LEFT: u32 = 13;
pub const NO_ROOM: u32 = 14;
pub const CODEC_ASKED: u32 = 20;
pub const WRONG_ROW: u32 = 21;
pub const ASKED_NOT_UTF8: u32 = 22;
pub const TOO_LONG: u32 = 23;
pub const SHORT_OUTPUT: u32 = 24;
/// C-24's, in reading and in writing.
pub const BARE_MARKER: u32 = 41;

/// The refusals that stand whatever follows. C-24: 41 is "counted among 2 to 13 wherever these are
/// named".
pub const STANDING: [u32; 13] = [
    SMALL_LENGTH,
    UNKNOWN_MAGIC,
    CHECKSUM_DIFFERS,
    UNKNOWN_CODEC,
    COMPRESSED,
    WRONG_COUNT,
    PAST_END,
    BEYOND_LIMITS,
    NEGATIVE_LENGTH,
    KEY_NOT_UTF8,
    UNKNOWN_CONTROL,
    BYTES_LEFT,
    BARE_MARKER,
];

/// CRC-32C: the remainder by Castagnoli's polynomial, lowest bit first, of RFC 3720.
pub fn crc32c(bytes: &[u8]) -> u32 {
    const REMAINDERS: [u32; 256] = remainders();
    !bytes.iter().fold(!0, |crc: u32, &byte| REMAINDERS[usize::from(crc as u8 ^ byte)] ^ (crc >> 8))
}

/// What each byte leaves, divided bit by bit.
const fn remainders() -> [u32; 256] {
    const CASTAGNOLI: u32 = 0x82F6_3B78;
    let mut remainders = [0; 256];
    let mut byte = 0;
    while byte < 256 {
        let mut left = byte as u32;
        let mut bit = 0;
        while bit < 8 {
            left = (left >> 1) ^ if left & 1 == 1 { CASTAGNOLI } else { 0 };
            bit += 1;
        }
        remainders[byte] = left;
        byte += 1;
    }
    remainders
}

#[cfg(test)]
mod tests {
    use super::crc32c;

    /// The examples of RFC 3720, section B.4, and the usual check value.
    #[test]
    fn checksums_are_those_of_the_rfc() {
        let ascending: Vec<u8> = (0..32).collect();
        let descending: Vec<u8> = (0..32).rev().collect();
        assert_eq!(crc32c(&[0; 32]), 0x8A91_36AA);
        assert_eq!(crc32c(&[0xFF; 32]), 0x62A8_AB43);
        assert_eq!(crc32c(&ascending), 0x46DD_794E);
        assert_eq!(crc32c(&descending), 0x113F_DB5C);
        assert_eq!(crc32c(b"123456789"), 0xE306_9283);
    }
}
