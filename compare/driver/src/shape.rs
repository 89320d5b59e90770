//! Batches put together part by part after document 01, so that each part can be made wrong by
//! itself and all the others still be right.

use crate::model::crc32c;
use crate::random::Random;

/// Where document 01 has the fields that are changed after a batch has been put together.
pub const BATCH_LENGTH: usize = 8;
pub const CRC: usize = 17;
pub const CHECKED: usize = 21;
pub const BODY: usize = 61;

/// Bits of the attributes.
pub const LOG_APPEND: i16 = 1 << 3;
pub const TRANSACTIONAL: i16 = 1 << 4;
pub const CONTROL: i16 = 1 << 5;

/// A number of varying length, as it is put down.
#[derive(Clone)]
pub enum Coded {
    /// What it ought to be, in so many bytes more than it needs.
    Right(usize),
    /// What it ought to be and so much more.
    OffBy(i64),
    Value(i64),
    Raw(Vec<u8>),
}

#[derive(Clone)]
pub struct Span {
    pub length: Coded,
    pub bytes: Option<Vec<u8>>,
}

#[derive(Clone)]
pub struct Record {
    pub length: Coded,
    pub attributes: u8,
    pub timestamp_delta: (i64, Coded),
    pub offset_delta: (i64, Coded),
    pub key: Span,
    pub value: Span,
    pub header_count: Coded,
    pub headers: Vec<[Span; 2]>,
    pub left: Vec<u8>,
}

#[derive(Clone)]
pub enum Body {
    Records(Vec<Record>),
    Marker([i16; 2]),
}

#[derive(Clone)]
pub struct Batch {
    pub base_offset: i64,
    /// What is added to the right one.
    pub batch_length: i32,
    pub partition_leader_epoch: i32,
    pub magic: u8,
    /// The bits in which the checksum is not the right one.
    pub crc: u32,
    pub attributes: i16,
    pub last_offset_delta: i32,
    pub first_timestamp: i64,
    pub max_timestamp: i64,
    pub producer_id: i64,
    pub producer_epoch: i16,
    pub base_sequence: i32,
    /// Where it is not how many there are.
    pub count: Option<i32>,
    pub body: Body,
    pub left: Vec<u8>,
}

/// The bytes of a number, so many of them more than it needs.
pub fn varint(number: i64, longer: usize) -> Vec<u8> {
    let mut code = if number < 0 { !(number << 1) } else { number << 1 } as u64;
    let mut bytes = Vec::new();
    while code >= 0x80 {
        bytes.push(code as u8 | 0x80);
        code >>= 7;
    }
    bytes.push(code as u8);
    for _ in 0..longer {
        *bytes.last_mut().expect("one byte at least") |= 0x80;
        bytes.push(0);
    }
    bytes
}

/// Gives the bytes the checksum that they ought to have, as far as they go.
pub fn repair_crc(bytes: &mut [u8]) {
    if bytes.len() < CHECKED {
        return;
    }
    let length =
        i32::from_be_bytes(bytes[BATCH_LENGTH..BATCH_LENGTH + 4].try_into().expect("four"));
    let end = usize::try_from(i64::from(length) + 12).unwrap_or(0).clamp(CHECKED, bytes.len());
    let crc = crc32c(&bytes[CHECKED..end]);
    bytes[CRC..CHECKED].copy_from_slice(&crc.to_be_bytes());
}

/// Makes all the bytes one batch: its length, and then its checksum.
pub fn repair(bytes: &mut [u8]) {
    if let Some(counted) = bytes.len().checked_sub(12) {
        let length = i32::try_from(counted).expect("inputs are short");
        bytes[BATCH_LENGTH..BATCH_LENGTH + 4].copy_from_slice(&length.to_be_bytes());
        repair_crc(bytes);
    }
}

/// The keyed form of a bare control batch: its own bytes, with a record whose key they end with in the
/// place of these four, and with the length and the checksum of that.
pub fn twin(bare: &[u8]) -> Vec<u8> {
    let (fields, marker) = bare.split_at(BODY);
    let mut keyed = [fields, &[20, 0, 0, 0, 8], marker, &[1, 0]].concat();
    repair(&mut keyed);
    keyed
}

impl Coded {
    fn put(&self, right: i64, out: &mut Vec<u8>) {
        match self {
            Coded::Right(longer) => out.extend(varint(right, *longer)),
            Coded::OffBy(more) => out.extend(varint(right + more, 0)),
            Coded::Value(number) => out.extend(varint(*number, 0)),
            Coded::Raw(bytes) => out.extend(bytes),
        }
    }
}

impl Span {
    pub fn of(bytes: Option<Vec<u8>>) -> Self {
        Self { length: Coded::Right(0), bytes }
    }

    fn put(&self, out: &mut Vec<u8>) {
        let right = self.bytes.as_ref().map_or(-1, |bytes| bytes.len() as i64);
        self.length.put(right, out);
        out.extend(self.bytes.iter().flatten());
    }
}

impl Record {
    pub fn of(key: Option<&[u8]>, value: Option<&[u8]>) -> Self {
        Self {
            length: Coded::Right(0),
            attributes: 0,
            timestamp_delta: (0, Coded::Right(0)),
            offset_delta: (0, Coded::Right(0)),
            key: Span::of(key.map(<[u8]>::to_vec)),
            value: Span::of(value.map(<[u8]>::to_vec)),
            header_count: Coded::Right(0),
            headers: Vec::new(),
            left: Vec::new(),
        }
    }

    fn put(&self, out: &mut Vec<u8>) {
        let mut fields = vec![self.attributes];
        self.timestamp_delta.1.put(self.timestamp_delta.0, &mut fields);
        self.offset_delta.1.put(self.offset_delta.0, &mut fields);
        self.key.put(&mut fields);
        self.value.put(&mut fields);
        self.header_count.put(self.headers.len() as i64, &mut fields);
        self.headers.iter().flatten().for_each(|span| span.put(&mut fields));
        fields.extend(&self.left);
        self.length.put(fields.len() as i64, out);
        out.extend(fields);
    }
}

impl Batch {
    /// The batch with these records and every field 0.
    pub fn of(records: Vec<Record>) -> Self {
        Self {
            base_offset: 0,
            batch_length: 0,
            partition_leader_epoch: 0,
            magic: 2,
            crc: 0,
            attributes: 0,
            last_offset_delta: 0,
            first_timestamp: 0,
            max_timestamp: 0,
            producer_id: 0,
            producer_epoch: 0,
            base_sequence: 0,
            count: None,
            body: Body::Records(records),
            left: Vec::new(),
        }
    }

    pub fn marker(version: i16, kind: i16) -> Self {
        Self { attributes: CONTROL, body: Body::Marker([version, kind]), ..Self::of(Vec::new()) }
    }

    /// A control batch whose marker is this record.
    pub fn keyed(record: Record) -> Self {
        Self { attributes: CONTROL, ..Self::of(vec![record]) }
    }

    fn put_body(&self, out: &mut Vec<u8>) {
        match &self.body {
            Body::Records(records) => records.iter().for_each(|record| record.put(out)),
            Body::Marker(numbers) => out.extend(numbers.iter().flat_map(|n| n.to_be_bytes())),
        }
        out.extend(&self.left);
    }

    fn right_count(&self) -> i32 {
        match &self.body {
            Body::Records(records) => records.len() as i32,
            Body::Marker(_) => 1,
        }
    }

    pub fn bytes(&self) -> Vec<u8> {
        let mut out = Vec::with_capacity(256);
        out.extend(self.base_offset.to_be_bytes());
        out.extend([0; 4]);
        out.extend(self.partition_leader_epoch.to_be_bytes());
        out.push(self.magic);
        out.extend([0; 4]);
        out.extend(self.attributes.to_be_bytes());
        out.extend(self.last_offset_delta.to_be_bytes());
        out.extend(self.first_timestamp.to_be_bytes());
        out.extend(self.max_timestamp.to_be_bytes());
        out.extend(self.producer_id.to_be_bytes());
        out.extend(self.producer_epoch.to_be_bytes());
        out.extend(self.base_sequence.to_be_bytes());
        out.extend(self.count.unwrap_or(self.right_count()).to_be_bytes());
        self.put_body(&mut out);
        let length = (out.len() as i32 - 12).wrapping_add(self.batch_length);
        out[BATCH_LENGTH..BATCH_LENGTH + 4].copy_from_slice(&length.to_be_bytes());
        repair_crc(&mut out);
        for (byte, wrong) in out[CRC..CHECKED].iter_mut().zip(self.crc.to_be_bytes()) {
            *byte ^= wrong;
        }
        out
    }
}

/// How far a random batch keeps to what the writer gives.
#[derive(Clone, Copy, PartialEq)]
pub enum Form {
    Canonical,
    Free,
}

impl Form {
    fn right(self, most: usize, random: &mut Random) -> Coded {
        let longer = self == Form::Free && random.one_in(8);
        Coded::Right(if longer { 1 + random.below(most) } else { 0 })
    }

    /// Lengths and counts are below 2^13 or so, two bytes, and may have three more.
    fn span(self, bytes: Option<Vec<u8>>, random: &mut Random) -> Span {
        let most = if bytes.as_ref().is_some_and(|bytes| bytes.len() >= 8192) { 2 } else { 3 };
        Span { length: self.right(most, random), bytes }
    }

    fn delta(self, bits: u32, most: usize, random: &mut Random) -> (i64, Coded) {
        let number = random.number(bits);
        let room = most - varint(number, 0).len();
        let coded = if room == 0 { Coded::Right(0) } else { self.right(room, random) };
        (number, coded)
    }

    fn record(self, random: &mut Random) -> Record {
        let some = |random: &mut Random| match random.one_in(4) {
            true => None,
            false => Some(random.size()).map(|size| random.bytes(size)),
        };
        let key = some(random);
        let value = some(random);
        let header_count = match random.below(60) {
            0 => 60 + random.below(8),
            1..=29 => 0,
            _ => 1 + random.below(3),
        };
        let header = |random: &mut Random| {
            let key = Some(random.text().into_bytes());
            let size = if header_count < 4 { random.size() } else { 0 };
            let value = Some(random.bytes(size));
            [self.span(key, random), self.span(value, random)]
        };
        Record {
            length: self.right(2, random),
            attributes: if self == Form::Free && random.one_in(8) { random.byte() } else { 0 },
            timestamp_delta: self.delta(64, 10, random),
            offset_delta: self.delta(32, 5, random),
            key: self.span(key, random),
            value: self.span(value, random),
            header_count: self.right(3, random),
            headers: (0..header_count).map(|_| header(random)).collect(),
            left: Vec::new(),
        }
    }

    fn records(self, count: usize, random: &mut Random) -> Body {
        Body::Records((0..count).map(|_| self.record(random)).collect())
    }

    fn body(self, random: &mut Random) -> Body {
        if random.one_in(8) {
            return Body::Marker([0, random.below(2) as i16]);
        }
        let count = match random.below(200) {
            0 => 100,
            1..=40 => 0,
            _ => 1 + random.below(3),
        };
        self.records(count, random)
    }

    /// A batch that is accepted.
    pub fn batch(self, random: &mut Random) -> Batch {
        let body = self.body(random);
        self.batch_with(body, random)
    }

    /// A batch of so many records that is accepted.
    pub fn batch_of(self, count: usize, random: &mut Random) -> Batch {
        let body = self.records(count, random);
        self.batch_with(body, random)
    }

    /// A control batch that is accepted in keyed mode.
    pub fn keyed(self, random: &mut Random) -> Batch {
        let mut key = vec![0, 0, 0, random.below(2) as u8];
        let mut record = Record::of(Some(&key), None);
        if self == Form::Free {
            record = self.record(random);
            let more = if random.one_in(2) { random.size() } else { 0 };
            key.extend(random.bytes(more));
            record.key = self.span(Some(key), random);
        }
        let mut batch = self.batch_with(Body::Records(vec![record]), random);
        batch.attributes |= CONTROL;
        batch
    }

    fn batch_with(self, body: Body, random: &mut Random) -> Batch {
        let mut attributes =
            random.pick(&[0, LOG_APPEND, TRANSACTIONAL, LOG_APPEND | TRANSACTIONAL]);
        if matches!(body, Body::Marker(_)) {
            attributes |= CONTROL;
        }
        if self == Form::Free && random.one_in(6) {
            attributes |= (random.next() as i16) << 6;
        }
        let empty = matches!(&body, Body::Records(records) if records.is_empty());
        Batch {
            base_offset: random.number(64),
            partition_leader_epoch: random.number(32) as i32,
            attributes,
            last_offset_delta: random.number(32) as i32,
            first_timestamp: random.number(64),
            max_timestamp: random.number(64),
            producer_id: random.number(64),
            producer_epoch: random.number(16) as i16,
            base_sequence: random.number(32) as i32,
            count: (empty && self == Form::Free && random.one_in(2)).then_some(-1),
            body,
            ..Batch::of(Vec::new())
        }
    }
}
