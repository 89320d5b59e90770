//! Faults of every kind, each put into one part of a batch.

use crate::random::Random;
use crate::shape::{repair, repair_crc, Batch, Body, Coded, Record, Span, BODY, CONTROL};

/// Changes one part of the batch. Lengths and checksum around it are then right for what is there.
pub fn change_part(batch: &mut Batch, random: &mut Random) {
    const CHANGES: [fn(&mut Batch, &mut Random); 16] = [
        small_batch_length,
        other_batch_length,
        magic,
        checksum,
        codec,
        count,
        count_of_control,
        control_bit,
        marker,
        length,
        beyond_limits,
        negative,
        no_text,
        left_in_record,
        left_in_batch,
        record_length,
    ];
    random.pick(&CHANGES)(batch, random);
}

/// Changes bytes, whatever they are, and makes them a batch again, or one with a right checksum, or
/// neither.
pub fn change_bytes(bytes: &mut Vec<u8>, random: &mut Random) {
    for _ in 0..1 + random.below(3) {
        let first = if random.one_in(4) { 0 } else { BODY.min(bytes.len()) };
        let place = first + random.below(bytes.len() - first + 1);
        match random.below(4) {
            0 => bytes.insert(place, random.byte()),
            _ if place == bytes.len() => bytes.push(random.byte()),
            1 => drop(bytes.remove(place)),
            2 => bytes[place] ^= 1 << random.below(8),
            _ => bytes[place] = random.byte(),
        }
    }
    match random.below(8) {
        0 => {}
        1 => repair_crc(bytes),
        _ => repair(bytes),
    }
}

fn small_batch_length(batch: &mut Batch, random: &mut Random) {
    let length: i32 = random.pick(&[8, 7, 1, 0, -1, -12, -13, i32::MIN, i32::MIN + 1]);
    batch.batch_length = length.wrapping_sub(batch.bytes().len() as i32 - 12);
}

/// For a very large length the Rust lays out 10 MB, so these are few.
fn other_batch_length(batch: &mut Batch, random: &mut Random) {
    batch.batch_length = match random.below(200) {
        0 => i32::MAX - (batch.bytes().len() as i32 - 12),
        1..=60 => 1 + random.below(300) as i32,
        _ => -1 - random.below(60) as i32,
    };
}

fn magic(batch: &mut Batch, random: &mut Random) {
    let any = random.byte();
    batch.magic = random.pick(&[0, 1, 3, 0x82, 0xFF, any]);
}

fn checksum(batch: &mut Batch, random: &mut Random) {
    batch.crc = if random.one_in(2) { 1 << random.below(32) } else { random.next() as u32 };
}

fn codec(batch: &mut Batch, random: &mut Random) {
    batch.attributes |= 1 + random.below(7) as i16;
    if random.one_in(8) {
        count(batch, random);
    }
}

fn count(batch: &mut Batch, random: &mut Random) {
    let any = random.number(32) as i32;
    batch.count = Some(random.pick(&[-2, -3, i32::MIN, -1, 0, 1, 2, 3, 4, i32::MAX, any]));
}

fn count_of_control(batch: &mut Batch, random: &mut Random) {
    batch.body = Body::Marker([0, 0]);
    batch.attributes |= CONTROL;
    count(batch, random);
}

fn control_bit(batch: &mut Batch, _: &mut Random) {
    batch.attributes ^= CONTROL;
}

fn marker(batch: &mut Batch, random: &mut Random) {
    let number = |random: &mut Random| {
        let any = random.number(16) as i16;
        random.pick(&[0, 0, 1, 2, 256, any])
    };
    batch.body = Body::Marker([number(random), number(random)]);
    batch.attributes |= CONTROL;
}

/// A key that tells no marker: null, short, or of another version or type.
pub fn no_marker(batch: &mut Batch, random: &mut Random) {
    let [any, other] = [(); 2].map(|()| random.number(16) as i16);
    let [version, kind] =
        random.pick(&[[1, 0], [0, 2], [256, 0], [0, 256], [0, any], [any, other]]);
    let key = match random.below(4) {
        0 => None,
        1 => Some(vec![0; random.below(4)]),
        _ => Some([version.to_be_bytes(), kind.to_be_bytes()].concat()),
    };
    some_record(batch, random).key = Span::of(key);
}

/// A record of the batch, which gets one where it has none.
fn some_record<'a>(batch: &'a mut Batch, random: &mut Random) -> &'a mut Record {
    if !matches!(&batch.body, Body::Records(records) if !records.is_empty()) {
        batch.body = Body::Records(vec![Record::of(None, Some(b"A"))]);
        batch.attributes &= !CONTROL;
        batch.count = None;
    }
    match &mut batch.body {
        Body::Records(records) => {
            let last = records.len();
            &mut records[random.below(last)]
        }
        Body::Marker(_) => unreachable!("it has just been given records"),
    }
}

/// A header of the record, which gets one where it has none.
fn some_header<'a>(record: &'a mut Record, random: &mut Random) -> &'a mut [Span; 2] {
    if record.headers.is_empty() {
        record.headers.push([b"k", b"v"].map(|bytes| Span::of(Some(bytes.to_vec()))));
    }
    let last = record.headers.len();
    &mut record.headers[random.below(last)]
}

/// A length or a count in a record, other than the record's own.
fn some_length<'a>(record: &'a mut Record, random: &mut Random) -> &'a mut Coded {
    match random.below(5) {
        0 => &mut record.key.length,
        1 => &mut record.value.length,
        2 => &mut record.header_count,
        place => &mut some_header(record, random)[place - 3].length,
    }
}

fn off_by(random: &mut Random) -> i64 {
    let size = 1 + if random.one_in(4) { random.below(300) } else { random.below(4) } as i64;
    if random.one_in(2) {
        size
    } else {
        -size
    }
}

/// Here too the Rust lays out 10 MB for a very large one.
fn length(batch: &mut Batch, random: &mut Random) {
    let record = some_record(batch, random);
    *some_length(record, random) = match random.below(200) {
        0 => Coded::Value(random.pick(&[i32::MAX as i64, i32::MAX as i64 - 1, 1 << 30, 1 << 20])),
        1..=20 => Coded::Value(1000 + random.below(1000) as i64),
        _ => Coded::OffBy(off_by(random)),
    };
}

/// A number in more bytes than it may have, or one that is too large. Some of them have a value
/// that fits.
fn beyond_limits(batch: &mut Batch, random: &mut Random) {
    let record = some_record(batch, random);
    if random.one_in(4) {
        let tenth = random.pick(&[0x02, 0x03, 0x7F, 0x80, 0x81, 0xFF]);
        let mut bytes = vec![random.pick(&[0x80, 0xFF]); 9];
        bytes.extend([tenth, 0]);
        record.timestamp_delta.1 =
            if random.one_in(2) { Coded::Right(10) } else { Coded::Raw(bytes) };
        return;
    }
    let number = match random.below(4) {
        0 => &mut record.length,
        1 => &mut record.offset_delta.1,
        _ => some_length(record, random),
    };
    let fifth = random.pick(&[0x10, 0x11, 0x1F, 0x7F]);
    let mut bytes = vec![random.pick(&[0x80, 0xFF]); 4];
    bytes.push(fifth);
    *number = if random.one_in(2) { Coded::Right(4 + random.below(7)) } else { Coded::Raw(bytes) };
}

fn negative(batch: &mut Batch, random: &mut Random) {
    let record = some_record(batch, random);
    let number = if random.one_in(6) { &mut record.length } else { some_length(record, random) };
    *number = Coded::Value(random.pick(&[-1, -2, -2, -64, -65, i32::MIN as i64]));
}

fn no_text(batch: &mut Batch, random: &mut Random) {
    let bytes = random.no_text();
    let record = some_record(batch, random);
    some_header(record, random)[0] = Span::of(Some(bytes));
}

fn left_in_record(batch: &mut Batch, random: &mut Random) {
    let size = 1 + random.below(5);
    some_record(batch, random).left = random.bytes(size);
}

fn left_in_batch(batch: &mut Batch, random: &mut Random) {
    let size = 1 + random.below(5);
    batch.left = random.bytes(size);
}

fn record_length(batch: &mut Batch, random: &mut Random) {
    let length = match random.below(8) {
        0 => Coded::Value(random.pick(&[0, 1, 5, 6, 100, i32::MAX as i64])),
        _ => Coded::OffBy(off_by(random)),
    };
    some_record(batch, random).length = length;
}
