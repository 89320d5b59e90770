//! Inputs in keyed mode: control batches whose marker is a record, put together here and not by the
//! library's writer.

use crate::damage::{change_part, no_marker};
use crate::inputs::{self, Group};
use crate::random::Random;
use crate::shape::{Batch, Coded, Form, Record, Span, CONTROL, LOG_APPEND, TRANSACTIONAL};

/// The groups that have all of their kind.
pub const GROUPS: [(&str, Group); 9] = [
    ("keyed markers, every beginning", |each| inputs::beginnings_of(&small(), each)),
    ("keyed markers, every change of a byte", |each| inputs::changed_bytes_of(&small(), each)),
    ("keyed markers, every change of two bytes of the body", |each| {
        inputs::changed_pairs_of(&small()[..1], each)
    }),
    ("keyed markers, every two damaged places", |each| inputs::damaged_pairs_of(&small(), each)),
    ("keyed markers, all versions and types", markers),
    ("keyed markers, keys of up to six bytes", keys),
    ("keyed markers, attributes and counts", attributes),
    ("keyed markers, header keys", header_keys),
    ("keyed markers, numbers of varying length", numbers),
];

const ABORT: [u8; 4] = [0; 4];
const COMMIT: [u8; 4] = [0, 0, 0, 1];
/// What a broker puts there: a version, and its epoch as coordinator.
const BROKERS_VALUE: [u8; 6] = [0, 0, 0, 0, 0, 5];

fn with_header(key: &[u8], value: &[u8]) -> Record {
    let header = [key, value].map(|bytes| Span::of(Some(bytes.to_vec())));
    Record { headers: vec![header], ..Record::of(Some(&ABORT), None) }
}

/// Markers with each part that is ignored, and two whose key tells none.
fn small() -> Vec<Batch> {
    let mut ignored = Record::of(Some(&COMMIT), Some(b""));
    ignored.attributes = 0xFF;
    ignored.timestamp_delta = (-1, Coded::Right(2));
    ignored.offset_delta = (64, Coded::Right(0));
    ignored.value.length = Coded::Right(1);
    let mut batches: Vec<Batch> = [
        Record::of(Some(&ABORT), None),
        Record::of(Some(&COMMIT), None),
        Record::of(Some(&[0, 0, 0, 1, 0xFF]), None),
        Record::of(Some(&COMMIT), Some(&BROKERS_VALUE)),
        with_header("\u{E9}".as_bytes(), b"v"),
        Record::of(None, None),
        Record::of(Some(&ABORT[..3]), None),
    ]
    .map(Batch::keyed)
    .into();
    let attributes = CONTROL | LOG_APPEND | TRANSACTIONAL | 0x40;
    batches.push(Batch { attributes, ..Batch::keyed(ignored) });
    batches
}

/// Demand 3's beginnings: each of a marker's, with tails that are no part of it.
pub fn beginnings_with_tails(each: &mut dyn FnMut(&[u8], &[u8])) {
    let all: Vec<Vec<u8>> = small().iter().map(Batch::bytes).collect();
    inputs::each_with_tails(&all, &all, each);
}

/// With a key of these bytes, as the writer gives it, and with a byte after the record.
fn with_key(key: Option<&[u8]>, each: &mut dyn FnMut(&[u8])) {
    let batch = Batch::keyed(Record::of(key, None));
    each(&batch.bytes());
    each(&Batch { left: vec![0], ..batch }.bytes());
}

fn markers(each: &mut dyn FnMut(&[u8])) {
    for number in i16::MIN..=i16::MAX {
        for numbers in [[number, 0], [number, 1], [0, number], [1, number]] {
            let key: Vec<u8> = numbers.iter().flat_map(|number| number.to_be_bytes()).collect();
            with_key(Some(&key), each);
        }
    }
}

/// Null, and all keys of so few bytes of some values.
fn keys(each: &mut dyn FnMut(&[u8])) {
    const VALUES: [u8; 4] = [0, 1, 2, 0xFF];
    with_key(None, each);
    let mut keys = vec![Vec::new()];
    for _ in 0..=6 {
        keys.iter().for_each(|key| with_key(Some(key), each));
        let longer = |key: &Vec<u8>| VALUES.map(|value| [&key[..], &[value]].concat());
        keys = keys.iter().flat_map(longer).collect();
    }
}

fn attributes(each: &mut dyn FnMut(&[u8])) {
    for mut batch in small() {
        for count in [i32::MIN, -2, -1, 0, 1, 2, i32::MAX] {
            batch.count = Some(count);
            for attributes in (0..=0xFF).map(|low| low | CONTROL) {
                batch.attributes = attributes;
                each(&batch.bytes());
            }
        }
    }
}

fn header_keys(each: &mut dyn FnMut(&[u8])) {
    inputs::strings(2, &mut |key| each(&Batch::keyed(with_header(key, b"")).bytes()));
}

fn numbers(each: &mut dyn FnMut(&[u8])) {
    let records = [with_header(b"k", b"v"), Record::of(Some(&ABORT), None)];
    inputs::numbers_of(&records, Batch::keyed, each);
}

/// A random marker that is accepted, one with faults, or what is left of one.
pub fn random(random: &mut Random) -> Vec<u8> {
    let mut batch = random.pick(&[Form::Canonical, Form::Free]).keyed(random);
    for _ in 0..random.pick(&[0, 0, 1, 1, 1, 2]) {
        let fault = if random.one_in(4) { no_marker } else { change_part };
        fault(&mut batch, random);
    }
    inputs::mostly_left(batch.bytes(), random)
}
