//! Reads a log after document 01.

use crate::format::crc32c;

/// A batch that was read.
pub struct Batch {
    pub place: usize,
    pub base_offset: i64,
    pub bytes: usize,
    pub kind: &'static str,
    pub first_timestamp: i64,
    pub records: Vec<Record>,
}

impl Batch {
    pub fn headers(&self) -> usize {
        self.records.iter().map(|record| record.headers.len()).sum()
    }
}

pub type Bytes = Option<Vec<u8>>;

/// A record that was read.
pub struct Record {
    pub timestamp_delta: i64,
    pub offset_delta: i64,
    pub key: Bytes,
    pub value: Bytes,
    pub headers: Vec<(Vec<u8>, Vec<u8>)>,
}

/// The batches of a log, and the number by which it stops, where it does.
pub fn read_log(bytes: &[u8]) -> (Vec<Batch>, Option<u32>) {
    let (mut batches, mut place) = (Vec::new(), 0);
    while place < bytes.len() {
        match read_batch(bytes, place) {
            Ok(batch) => {
                place += batch.bytes;
                batches.push(batch);
            }
            Err(number) => return (batches, Some(number)),
        }
    }
    (batches, None)
}

/// Where a log ends or stops.
pub fn end_of(batches: &[Batch]) -> usize {
    batches.iter().map(|batch| batch.bytes).sum()
}

/// Bytes that are read up to an end.
struct Cursor<'a> {
    bytes: &'a [u8],
}

impl<'a> Cursor<'a> {
    fn take(&mut self, length: usize) -> Result<&'a [u8], u32> {
        if self.bytes.len() < length {
            return Err(8);
        }
        let (taken, rest) = self.bytes.split_at(length);
        self.bytes = rest;
        Ok(taken)
    }

    /// An integer of so many bytes, signed.
    fn integer(&mut self, length: usize) -> Result<i64, u32> {
        let bytes = self.take(length)?;
        let start = if bytes[0] < 128 { 0 } else { -1 };
        Ok(bytes
            .iter()
            .fold(start, |n, &byte| n << 8 | i64::from(byte)))
    }

    fn varint(&mut self, bits: u32) -> Result<i64, u32> {
        let mut code = 0u128;
        for at in 0.. {
            let byte = self.take(1)?[0];
            code |= u128::from(byte & 127) << (7 * at);
            if byte < 128 && code < 1 << bits {
                break;
            }
            if byte < 128 || 7 * (at + 1) >= bits {
                return Err(9);
            }
        }
        let half = (code / 2) as i64;
        Ok(if code % 2 == 0 { half } else { -half - 1 })
    }

    fn length(&mut self, least: i64) -> Result<i64, u32> {
        let length = self.varint(32)?;
        if length < least {
            return Err(10);
        }
        Ok(length)
    }

    fn nullable(&mut self) -> Result<Bytes, u32> {
        match self.length(-1)? {
            -1 => Ok(None),
            length => Ok(Some(self.take(length as usize)?.to_vec())),
        }
    }

    fn header(&mut self) -> Result<(Vec<u8>, Vec<u8>), u32> {
        let length = self.length(0)? as usize;
        let key = self.take(length)?.to_vec();
        if String::from_utf8(key.clone()).is_err() {
            return Err(11);
        }
        let length = self.length(0)? as usize;
        Ok((key, self.take(length)?.to_vec()))
    }

    fn record(&mut self) -> Result<Record, u32> {
        let named = self.length(0)? as usize;
        let mut fields = Cursor {
            bytes: &self.bytes[..named.min(self.bytes.len())],
        };
        let within = fields.bytes.len();
        fields.take(1)?;
        let record = Record {
            timestamp_delta: fields.varint(64)?,
            offset_delta: fields.varint(32)?,
            key: fields.nullable()?,
            value: fields.nullable()?,
            headers: (0..fields.length(0)?)
                .map(|_| fields.header())
                .collect::<Result<_, _>>()?,
        };
        let read = within - fields.bytes.len();
        if read != named {
            return Err(13);
        }
        self.take(read)?;
        Ok(record)
    }
}

fn read_batch(log: &[u8], place: usize) -> Result<Batch, u32> {
    let bytes = frame(&log[place..])?;
    let mut body = Cursor {
        bytes: &bytes[21..],
    };
    if bytes[17..21] != crc32c(body.bytes).to_be_bytes() {
        return Err(4);
    }
    let (first_timestamp, kind, records) = read_checked(&mut body)?;
    if !body.bytes.is_empty() {
        return Err(13);
    }
    Ok(Batch {
        place,
        base_offset: Cursor { bytes }.integer(8)?,
        bytes: bytes.len(),
        kind,
        first_timestamp,
        records,
    })
}

/// What the checksum is over: the first timestamp, the kind and the records.
fn read_checked(body: &mut Cursor) -> Result<(i64, &'static str, Vec<Record>), u32> {
    let attributes = body.integer(2)?;
    if 4 < attributes & 7 {
        return Err(5);
    }
    body.take(4)?;
    let first_timestamp = body.integer(8)?;
    body.take(22)?;
    let count = body.integer(4)?;
    if count < -1 {
        return Err(7);
    }
    if attributes & 7 != 0 {
        return Err(6);
    }
    if attributes & 0x20 != 0 {
        return Ok((first_timestamp, read_marker(body, count)?, Vec::new()));
    }
    let records = (0..count)
        .map(|_| body.record())
        .collect::<Result<_, _>>()?;
    Ok((first_timestamp, "records", records))
}

/// The bytes of the batch, by its length.
fn frame(bytes: &[u8]) -> Result<&[u8], u32> {
    let length = Cursor {
        bytes: bytes.get(8..12).ok_or(1u32)?,
    }
    .integer(4)?;
    if length < 9 {
        return Err(2);
    }
    if *bytes.get(16).ok_or(1u32)? != 2 {
        return Err(3);
    }
    bytes.get(..12 + length as usize).ok_or(1)
}

/// A record whose key begins with version and type. A bare marker, which is these four bytes alone,
/// is withdrawn.
fn read_marker(body: &mut Cursor, count: i64) -> Result<&'static str, u32> {
    if count != 1 {
        return Err(7);
    }
    if matches!(body.bytes, [0, 0, 0, 0 | 1]) {
        return Err(41);
    }
    let key = body.record()?.key.unwrap_or_default();
    if !body.bytes.is_empty() {
        return Err(13);
    }
    match key.get(..4) {
        Some([0, 0, 0, 0]) => Ok("abort"),
        Some([0, 0, 0, 1]) => Ok("commit"),
        _ => Err(12),
    }
}
