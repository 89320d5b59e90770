//! The inputs that are compared: all of a kind where that is possible, and random ones.

use std::path::Path;

use crate::damage::{change_bytes, change_part};
use crate::model::reading;
use crate::model::{Mode, ACCEPTED, BYTES};
use crate::random::Random;
use crate::shape::{
    repair, repair_crc, varint, Batch, Body, Coded, Form, Record, Span, BATCH_LENGTH, BODY,
    CONTROL, LOG_APPEND, TRANSACTIONAL,
};

/// A group of inputs, each of which is handed on.
pub type Group = fn(&mut dyn FnMut(&[u8]));

/// The groups that have all of their kind.
pub const GROUPS: [(&str, Group); 14] = [
    ("strings of 0 to 3 bytes", short_strings),
    ("small batches, every beginning", beginnings),
    ("small batches, every batchLength from -20 to 120", batch_lengths),
    ("small batches, every change of a byte", changed_bytes),
    ("small batches, every change of two bytes of the body", changed_pairs),
    ("small batches, every two damaged places", damaged_pairs),
    ("small batches, every splice of two", splices),
    ("producers' logs, from each of their batches on", logs),
    ("producers' batches, each of their places damaged", damaged_logs),
    ("bodies of 0 to 2 bytes", short_bodies),
    ("attributes and counts", attributes),
    ("markers", markers),
    ("header keys", header_keys),
    ("numbers of varying length", numbers),
];

/// Random inputs of a kind, one for so many of those that are asked for.
pub type RandomGroup = (&'static str, usize, fn(&mut Random) -> Vec<u8>);

pub const RANDOM: [RandomGroup; 4] = [
    ("random inputs", 1, random),
    ("random splices of two batches", 8, spliced),
    ("random batches with two damaged places", 8, damaged_twice),
    ("random batches of many records", 10_000, many_records),
];

fn record_with_header(key: &[u8], value: &[u8]) -> Record {
    let header = [key, value].map(|bytes| Span::of(Some(bytes.to_vec())));
    Record { headers: vec![header], ..Record::of(Some(b"ab"), None) }
}

/// Batches of every kind, as short as they can be.
pub fn small() -> Vec<Batch> {
    let smallest = Record::of(None, None);
    let mut long_numbers = Record::of(Some(b""), Some(b"v"));
    long_numbers.timestamp_delta = (-1, Coded::Right(2));
    long_numbers.value.length = Coded::Right(1);
    long_numbers.attributes = 0xFF;
    vec![
        Batch::of(Vec::new()),
        Batch { count: Some(-1), ..Batch::of(Vec::new()) },
        Batch::of(vec![smallest.clone()]),
        Batch::of(vec![Record::of(None, Some(b"A"))]),
        Batch::of(vec![record_with_header(b"", b"")]),
        Batch::of(vec![record_with_header("\u{E9}".as_bytes(), b"v")]),
        Batch::of(vec![smallest, Record::of(Some(b"k"), Some(b""))]),
        Batch { attributes: LOG_APPEND | TRANSACTIONAL | 0x40, ..Batch::of(vec![long_numbers]) },
        Batch::marker(0, 0),
        Batch::marker(0, 1),
    ]
}

fn short_strings(each: &mut dyn FnMut(&[u8])) {
    strings(3, each);
}

/// All strings of so many bytes and fewer.
pub fn strings(most: usize, each: &mut dyn FnMut(&[u8])) {
    for length in 0..=most {
        for number in 0u32..1 << (8 * length) {
            each(&number.to_be_bytes()[4 - length..]);
        }
    }
}

fn beginnings(each: &mut dyn FnMut(&[u8])) {
    beginnings_of(&small(), each);
}

/// As they are, and as batches with a right length and checksum.
pub fn beginnings_of(batches: &[Batch], each: &mut dyn FnMut(&[u8])) {
    for batch in batches {
        let bytes = batch.bytes();
        for end in 0..=bytes.len() {
            each(&bytes[..end]);
            let mut cut = bytes[..end].to_vec();
            repair(&mut cut);
            each(&cut);
        }
    }
}

/// Every length about those that batches have, and the greatest and the least, with bytes enough
/// for most and without.
fn batch_lengths(each: &mut dyn FnMut(&[u8])) {
    let edges = [i32::MIN, i32::MIN + 1, i32::MAX - 1, i32::MAX];
    for batch in small() {
        let right = batch.bytes();
        for length in (-20..=120).chain(edges) {
            let mut bytes = right.clone();
            bytes[BATCH_LENGTH..BATCH_LENGTH + 4].copy_from_slice(&length.to_be_bytes());
            repair_crc(&mut bytes);
            each(&bytes);
            bytes.extend([0; 60]);
            repair_crc(&mut bytes);
            each(&bytes);
        }
    }
}

fn changed_bytes(each: &mut dyn FnMut(&[u8])) {
    changed_bytes_of(&small(), each);
}

pub fn changed_bytes_of(batches: &[Batch], each: &mut dyn FnMut(&[u8])) {
    for batch in batches {
        let right = batch.bytes();
        for place in 0..right.len() {
            for byte in (0..=255).filter(|&byte| byte != right[place]) {
                let mut bytes = right.clone();
                bytes[place] = byte;
                each(&bytes);
                if !(BATCH_LENGTH..BATCH_LENGTH + 4).contains(&place) {
                    repair(&mut bytes);
                    each(&bytes);
                }
            }
        }
    }
}

fn changed_pairs(each: &mut dyn FnMut(&[u8])) {
    changed_pairs_of(&small(), each);
}

pub fn changed_pairs_of(batches: &[Batch], each: &mut dyn FnMut(&[u8])) {
    for batch in batches {
        let right = batch.bytes();
        for place in BODY..right.len().saturating_sub(1) {
            for pair in 0..=u16::MAX {
                let mut bytes = right.clone();
                bytes[place..place + 2].copy_from_slice(&pair.to_be_bytes());
                repair(&mut bytes);
                each(&bytes);
            }
        }
    }
}

/// As they are, and as batches with a right length and checksum.
fn as_is_and_repaired(mut bytes: Vec<u8>, each: &mut dyn FnMut(&[u8])) {
    each(&bytes);
    repair(&mut bytes);
    each(&bytes);
}

fn damaged_pairs(each: &mut dyn FnMut(&[u8])) {
    damaged_pairs_of(&small(), each);
}

/// Every two places, each with its lowest bit or its highest changed, or made 0 or FF.
pub fn damaged_pairs_of(batches: &[Batch], each: &mut dyn FnMut(&[u8])) {
    const DAMAGES: [fn(u8) -> u8; 4] = [|byte| byte ^ 1, |byte| byte ^ 0x80, |_| 0, |_| 0xFF];
    for batch in batches {
        let right = batch.bytes();
        for (second, first) in (0..right.len()).flat_map(|at| (0..at).map(move |first| (at, first)))
        {
            for (one, other) in DAMAGES.iter().flat_map(|one| DAMAGES.map(|other| (one, other))) {
                let mut bytes = right.clone();
                bytes[first] = one(bytes[first]);
                bytes[second] = other(bytes[second]);
                as_is_and_repaired(bytes, each);
            }
        }
    }
}

/// Each beginning of each with each end of each.
fn splices(each: &mut dyn FnMut(&[u8])) {
    let all: Vec<Vec<u8>> = small().iter().map(Batch::bytes).collect();
    for (one, other) in all.iter().flat_map(|one| all.iter().map(move |other| (one, other))) {
        for cut in 0..=one.len() {
            for from in 0..=other.len() {
                as_is_and_repaired([&one[..cut], &other[from..]].concat(), each);
            }
        }
    }
}

/// The logs of samples/, which real producers made, but for one.
fn sample_logs() -> Vec<Vec<u8>> {
    let folder = Path::new(concat!(env!("CARGO_MANIFEST_DIR"), "/../../samples"));
    let files = folder.read_dir().expect("the repository has samples");
    let mut logs: Vec<_> = files.map(|file| file.expect("samples/ can be read").path()).collect();
    logs.retain(|path| path.extension().is_some_and(|ending| ending == "log"));
    logs.sort();
    logs.iter().map(|path| std::fs::read(path).expect("a sample can be read")).collect()
}

/// Where each batch of a log starts, and where it ends. The model reads it, to its end.
fn batches_of(log: &[u8]) -> Vec<(usize, usize)> {
    let mut ends = Vec::new();
    let mut at = 0;
    while at < log.len() {
        let read = reading::read(Mode::Keyed, &log[at..]);
        assert_eq!(read.number, ACCEPTED, "a sample has a batch that is not one, at {at}");
        let end = at + read.entries[BYTES] as usize;
        ends.push((at, end));
        at = end;
    }
    ends
}

fn logs(each: &mut dyn FnMut(&[u8])) {
    for log in sample_logs() {
        for (start, end) in batches_of(&log) {
            each(&log[start..]);
            each(&log[start..end]);
        }
    }
}

/// A bit of each place changed, with the checksum left and repaired.
fn damaged_logs(each: &mut dyn FnMut(&[u8])) {
    for log in sample_logs() {
        for (start, end) in batches_of(&log) {
            for place in 0..end - start {
                let mut bytes = log[start..end].to_vec();
                bytes[place] ^= 1 << (place % 8);
                each(&bytes);
                repair_crc(&mut bytes);
                each(&bytes);
            }
        }
    }
}

/// Demand 3's beginnings: each of a batch's, with tails that are no part of it. Of the long ones
/// of producers only some.
pub fn beginnings_with_tails(each: &mut dyn FnMut(&[u8], &[u8])) {
    let mut all: Vec<Vec<u8>> = small().iter().map(Batch::bytes).collect();
    let others = all.clone();
    for log in sample_logs() {
        all.extend(batches_of(&log).into_iter().map(|(start, end)| log[start..end].to_vec()));
    }
    each_with_tails(&all, &others, each);
}

/// The beginnings of all of these, with zeros, ones, another byte and each of the others after them.
pub fn each_with_tails(all: &[Vec<u8>], others: &[Vec<u8>], each: &mut dyn FnMut(&[u8], &[u8])) {
    for bytes in all {
        let step = 1 + bytes.len() / 200;
        for cut in (0..bytes.len()).step_by(step).chain([bytes.len()]) {
            let left = bytes.len() - cut;
            let zeros = vec![0; left + 1];
            let ones = vec![0xFF; left + 1];
            let mut changed = bytes[cut..].to_vec();
            changed.iter_mut().take(1).for_each(|byte| *byte ^= 0x55);
            for tail in [&zeros, &ones, &changed].into_iter().chain(others) {
                each(&bytes[..cut], tail);
            }
        }
    }
}

fn short_bodies(each: &mut dyn FnMut(&[u8])) {
    for attributes in [0, CONTROL] {
        for count in [-1, 0, 1, 2] {
            let batch = Batch { attributes, count: Some(count), ..Batch::of(Vec::new()) };
            strings(2, &mut |body| {
                each(&Batch { left: body.to_vec(), ..batch.clone() }.bytes());
            });
        }
    }
}

fn attributes(each: &mut dyn FnMut(&[u8])) {
    let bodies = [
        Body::Records(Vec::new()),
        Body::Records(vec![Record::of(None, None)]),
        Body::Marker([0, 1]),
    ];
    for body in bodies {
        for count in [i32::MIN, -2, -1, 0, 1, 2] {
            let mut batch = Batch { count: Some(count), ..Batch::of(Vec::new()) };
            batch.body = body.clone();
            for attributes in i16::MIN..=i16::MAX {
                batch.attributes = attributes;
                each(&batch.bytes());
            }
        }
    }
}

fn markers(each: &mut dyn FnMut(&[u8])) {
    for number in i16::MIN..=i16::MAX {
        for numbers in [[number, 0], [number, 1], [0, number], [1, number]] {
            each(&Batch::marker(numbers[0], numbers[1]).bytes());
        }
    }
}

/// All keys of up to two bytes, and longer ones with every lead and every second byte.
fn header_keys(each: &mut dyn FnMut(&[u8])) {
    const LATER: [u8; 8] = [0x00, 0x7F, 0x80, 0x8F, 0x9F, 0xBF, 0xC0, 0xFF];
    let mut key = |key: &[u8]| each(&Batch::of(vec![record_with_header(key, b"")]).bytes());
    strings(2, &mut key);
    for lead in 0xC0..=0xFF {
        for second in 0..=0xFF {
            for third in LATER {
                key(&[lead, second, third]);
                for fourth in LATER {
                    key(&[lead, second, third, fourth]);
                }
            }
        }
    }
}

fn numbers(each: &mut dyn FnMut(&[u8])) {
    let records = [record_with_header(b"k", b"v"), Record::of(None, None)];
    numbers_of(&records, |record| Batch::of(vec![record]), each);
}

/// Numbers at both sides of every length, and those that ought to be there, each in every number of
/// bytes up to eleven, at every place that has one in each of the records, made a batch.
pub fn numbers_of(records: &[Record], batch: fn(Record) -> Batch, each: &mut dyn FnMut(&[u8])) {
    let mut at_every_place = |number: Coded| {
        for record in records {
            for place in 0..6 + 2 * record.headers.len() {
                let mut record = record.clone();
                *number_at(place, &mut record) = number.clone();
                each(&batch(record).bytes());
            }
        }
    };
    let mut values = vec![0, i64::MIN, i64::MAX];
    for power in (6..63).step_by(7).chain([31]) {
        let edge = 1i64 << power;
        values.extend([edge - 1, edge, -edge, -edge - 1]);
    }
    for value in values {
        for longer in 0..=11 - varint(value, 0).len() {
            at_every_place(Coded::Raw(varint(value, longer)));
        }
    }
    for longer in 0..=10 {
        at_every_place(Coded::Right(longer));
    }
}

fn number_at(place: usize, record: &mut Record) -> &mut Coded {
    match place {
        0 => &mut record.length,
        1 => &mut record.timestamp_delta.1,
        2 => &mut record.offset_delta.1,
        3 => &mut record.key.length,
        4 => &mut record.value.length,
        5 => &mut record.header_count,
        _ => &mut record.headers[0][place - 6].length,
    }
}

/// A random input: a batch that is accepted, one with faults, or what is left of one.
pub fn random(random: &mut Random) -> Vec<u8> {
    let form = random.pick(&[Form::Canonical, Form::Free]);
    let mut batch = form.batch(random);
    let faults = random.pick(&[0, 0, 1, 1, 1, 1, 1, 2]);
    for _ in 0..faults {
        change_part(&mut batch, random);
    }
    mostly_left(batch.bytes(), random)
}

/// The bytes as they are, more often than not, or changed, longer or cut.
pub fn mostly_left(mut bytes: Vec<u8>, random: &mut Random) -> Vec<u8> {
    match random.below(12) {
        0..=2 => change_bytes(&mut bytes, random),
        3..=6 => {
            let size = 1 + random.below(20);
            bytes.extend(random.bytes(size));
        }
        7 => bytes.truncate(random.below(bytes.len())),
        _ => {}
    }
    bytes
}

fn any_batch(random: &mut Random) -> Vec<u8> {
    random.pick(&[Form::Canonical, Form::Free]).batch(random).bytes()
}

/// The lengths and the checksum are repaired more often than not.
fn mostly_repaired(mut bytes: Vec<u8>, random: &mut Random) -> Vec<u8> {
    match random.below(4) {
        0 => {}
        1 => repair_crc(&mut bytes),
        _ => repair(&mut bytes),
    }
    bytes
}

/// A beginning of one batch and an end of another, most of them cut in their bodies.
fn spliced(random: &mut Random) -> Vec<u8> {
    let [one, other] = [(); 2].map(|()| any_batch(random));
    let cut = |bytes: &[u8], random: &mut Random| {
        let first = if random.one_in(4) { 0 } else { BODY };
        first + random.below(bytes.len() - first + 1)
    };
    let [end, start] = [cut(&one, random), cut(&other, random)];
    mostly_repaired([&one[..end], &other[start..]].concat(), random)
}

/// Two places of a batch, which may be the same.
fn damaged_twice(random: &mut Random) -> Vec<u8> {
    let mut bytes = any_batch(random);
    for _ in 0..2 {
        let place = random.below(bytes.len());
        let any = random.byte();
        bytes[place] = random.pick(&[0, 1, 0x7F, 0x80, 0xFF, bytes[place] ^ 1, any]);
    }
    mostly_repaired(bytes, random)
}

/// Some thousand records, in half of them with a part that is wrong.
fn many_records(random: &mut Random) -> Vec<u8> {
    let form = random.pick(&[Form::Canonical, Form::Free]);
    let count = 1000 + random.below(3000);
    let mut batch = form.batch_of(count, random);
    if random.one_in(2) {
        change_part(&mut batch, random);
    }
    batch.bytes()
}
