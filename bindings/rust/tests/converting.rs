//! Converting: bare markers become keyed ones, what keyed mode accepts stays as it is, and all else
//! is refused. Expectations are put together by document 01's table; the crate's function and the
//! library's have to give the same.

mod common;

use std::borrow::Cow;

use common::{bare_marker, batch_with_body, marker, one_record, repaired};
use oddrafisk::{check, convert, is_canonical, Conversion, Kind, Log, Marker, ReadError, Refusal};
use oddrafisk_sys as sys;

/// Base 5, epoch 3, attributes 80 70, both times 1000, producer 9 with epoch 1, sequence -1. Its
/// checksum, and that of what it is converted to, were worked out apart from the library.
#[rustfmt::skip]
const WORKED: [u8; 65] = [
    0, 0, 0, 0, 0, 0, 0, 5, 0, 0, 0, 0x35, 0, 0, 0, 3, 2, 0x4D, 0x84, 0x95, 0xB3, 0x80, 0x70,
    0, 0, 0, 0, 0, 0, 0, 0, 0, 0, 0x03, 0xE8, 0, 0, 0, 0, 0, 0, 0x03, 0xE8,
    0, 0, 0, 0, 0, 0, 0, 9, 0, 1, 0xFF, 0xFF, 0xFF, 0xFF, 0, 0, 0, 1,
    0, 0, 0, 1,
];

#[rustfmt::skip]
const CONVERTED: [u8; 72] = [
    0, 0, 0, 0, 0, 0, 0, 5, 0, 0, 0, 0x3C, 0, 0, 0, 3, 2, 0x19, 0x8B, 0x7A, 0x08, 0x80, 0x70,
    0, 0, 0, 0, 0, 0, 0, 0, 0, 0, 0x03, 0xE8, 0, 0, 0, 0, 0, 0, 0x03, 0xE8,
    0, 0, 0, 0, 0, 0, 0, 9, 0, 1, 0xFF, 0xFF, 0xFF, 0xFF, 0, 0, 0, 1,
    0x14, 0, 0, 0, 8, 0, 0, 0, 1, 1, 0,
];

/// A bare marker in the form that it is to be converted to.
fn keyed_form(bare: &[u8]) -> Vec<u8> {
    let mut bytes = bare[..61].to_vec();
    bytes[11] = 60;
    bytes.extend([0x14, 0, 0, 0, 8, 0, 0, 0, bare[64], 1, 0]);
    repaired(bytes)
}

/// What the library makes of the bytes with an output of so many bytes, and what that then holds.
fn by_library(bytes: &[u8], room: usize) -> (u32, [i64; 2], Vec<u8>) {
    let (mut output, mut answer) = (vec![0xAA; room], [-1; 2]);
    let number = sys::convert(bytes, &mut output, &mut answer);
    (number, answer, output)
}

/// Holds both functions to what the batch that the bytes begin with, of `taken`, is converted to.
fn hold(bytes: &[u8], taken: usize, due: &[u8]) {
    let conversion = convert(bytes).unwrap();
    assert_eq!((conversion.taken, &*conversion.bytes), (taken, due));
    let copied = &bytes[..taken] == due;
    assert_eq!(matches!(conversion.bytes, Cow::Borrowed(_)), copied);
    let answer = [taken as i64, due.len() as i64];
    for room in [due.len(), due.len() + 1, taken + 7] {
        let (number, found, output) = by_library(bytes, room);
        assert_eq!((number, found), (sys::ACCEPTED, answer));
        assert_eq!(output[..due.len()], *due);
        assert!(output[due.len()..].iter().all(|byte| *byte == 0xAA));
    }
    for room in [0, due.len() - 1] {
        assert_eq!(by_library(bytes, room), (24, [0; 2], vec![0xAA; room]));
    }
}

fn hold_refused(bytes: &[u8], error: ReadError) {
    assert_eq!(convert(bytes), Err(error));
    let needed = match error {
        ReadError::MoreBytes { needed } => needed as i64,
        ReadError::Refused(_) => 0,
    };
    for room in [0, 200] {
        let due = (error.number(), [needed, 0], vec![0xAA; room]);
        assert_eq!(by_library(bytes, room), due);
    }
}

#[test]
fn worked_marker_is_converted() {
    assert_eq!(check(&WORKED), Err(Refusal::BareMarker.into()));
    hold(&WORKED, 65, &CONVERTED);
    let outline = check(&CONVERTED).unwrap();
    assert_eq!(outline.kind, Kind::Marker(Marker::Commit));
    assert_eq!(outline.fields.base_offset, 5);
    // Attributes that the writer would not write are kept.
    assert!(!is_canonical(&CONVERTED));
    hold(&CONVERTED, 72, &CONVERTED);
}

#[test]
fn every_bit_of_the_fields_is_kept() {
    for control_type in [0, 1] {
        // Base offset, leader epoch, and all from the attributes to the count; of the attributes
        // those bits that say neither the codec nor that it is a marker.
        let places = (0..8).chain(12..16).chain(21..57);
        for bit in places.flat_map(|place| (0..8).map(move |bit| (place, bit))) {
            if bit.0 == 22 && [0, 1, 2, 5].contains(&bit.1) {
                continue;
            }
            let mut bytes = bare_marker(control_type);
            bytes[bit.0] ^= 1 << bit.1;
            let bytes = repaired(bytes);
            let due = keyed_form(&bytes);
            hold(&bytes, 65, &due);
            hold(&due, 72, &due);
        }
    }
}

#[test]
fn markers_as_they_are_written_are_canonical_afterwards() {
    for control_type in [0, 1] {
        let bytes = bare_marker(control_type);
        let conversion = convert(&bytes).unwrap();
        assert_eq!(*conversion.bytes, marker(control_type));
        assert!(is_canonical(&conversion.bytes));
    }
}

#[test]
fn other_batches_stay_as_they_are() {
    let broker = [0x20, 0, 0, 0, 8, 0, 0, 0, 0, 12, 0, 0, 0, 0, 0, 5, 0];
    for bytes in [
        one_record(),
        batch_with_body(0, 0, &[]),
        batch_with_body(0, -1, &[]),
        batch_with_body(0x8040, 1, &[0x0E, 0, 0, 0, 1, 2, 0x41, 0]),
        marker(0),
        batch_with_body(0x30, 1, &broker),
    ] {
        assert!(check(&bytes).is_ok());
        hold(&bytes, bytes.len(), &bytes);
        let conversion = Conversion {
            taken: bytes.len(),
            bytes: Cow::Borrowed(&bytes),
        };
        assert_eq!(convert(&bytes), Ok(conversion));
    }
}

/// What follows a batch is neither looked at nor copied, whether it is a batch or not.
#[test]
fn only_the_first_batch_is_converted() {
    for after in [vec![0], bare_marker(0), one_record(), vec![0xFF; 100]] {
        let bytes = [WORKED.to_vec(), after.clone()].concat();
        hold(&bytes, 65, &CONVERTED);
        let bytes = [one_record(), after].concat();
        hold(&bytes, 69, &one_record());
    }
}

#[test]
fn cut_off_batches_name_the_bytes_needed() {
    for bytes in [WORKED.to_vec(), CONVERTED.to_vec(), one_record()] {
        for count in 0..bytes.len() {
            let needed = match count {
                0..12 => 12,
                12..17 => 17,
                _ => bytes.len(),
            };
            hold_refused(&bytes[..count], ReadError::MoreBytes { needed });
        }
    }
}

#[test]
fn what_keyed_mode_refuses_is_refused() {
    let altered = |place: usize, byte: u8| {
        let mut bytes = WORKED.to_vec();
        bytes[place] = byte;
        bytes
    };
    let control = |count, body: &[u8]| batch_with_body(0x20, count, body);
    for (refusal, bytes) in [
        (Refusal::LengthTooSmall, altered(11, 8)),
        (Refusal::UnknownMagic, altered(16, 1)),
        (Refusal::ChecksumDiffers, altered(20, 0)),
        (Refusal::ChecksumDiffers, altered(64, 0)),
        (Refusal::UnknownCodec, repaired(altered(22, 0x75))),
        (Refusal::Compressed, repaired(altered(22, 0x71))),
        (Refusal::WrongCount, repaired(altered(60, 2))),
        // The numbers of keyed mode, and not those of the old rules.
        (Refusal::PastEnd, control(1, &[0, 1, 0, 0])),
        (Refusal::PastEnd, control(1, &[0, 0, 0, 2])),
        (Refusal::PastEnd, control(1, &[0, 0, 0, 0, 0])),
        (Refusal::PastEnd, control(1, &[0, 0, 0])),
        (
            Refusal::UnknownControl,
            control(1, &[0x0C, 0, 0, 0, 1, 1, 0]),
        ),
        (
            Refusal::BytesLeft,
            control(1, &[0x14, 0, 0, 0, 8, 0, 0, 0, 1, 1, 0, 0]),
        ),
    ] {
        hold_refused(&bytes, refusal.into());
        assert_eq!(check(&bytes), Err(refusal.into()));
    }
}

#[test]
fn log_is_converted_batch_by_batch() {
    let log = [one_record(), bare_marker(1), marker(0), WORKED.to_vec()].concat();
    let (mut converted, mut place) = (Vec::new(), 0);
    while place < log.len() {
        let conversion = convert(&log[place..]).unwrap();
        converted.extend_from_slice(&conversion.bytes);
        place += conversion.taken;
    }
    let due = [one_record(), marker(1), marker(0), CONVERTED.to_vec()].concat();
    assert_eq!((place, &converted), (log.len(), &due));
    let kinds: Vec<_> = Log::new(&converted).map(|b| b.unwrap().kind()).collect();
    let [abort, commit] = [Marker::Abort, Marker::Commit].map(Kind::Marker);
    assert_eq!(kinds, [Kind::Records, commit, abort, commit]);
}
