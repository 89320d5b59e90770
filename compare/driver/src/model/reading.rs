//! Reading by document 01, in keyed mode by C-16, and of bare markers by C-24: of every byte string
//! the number with its values, every row, and whether it lies in the domain on which the Rust is
//! compared.

use super::*;

/// What is answered where rows enough are lent.
#[derive(Debug, Default, PartialEq)]
pub struct Reading {
    pub number: u32,
    pub entries: Entries,
    pub records: Vec<[i64; RECORD_ROW]>,
    pub headers: Vec<[i64; HEADER_ROW]>,
    /// Whether the bytes, all of them, are one batch as the writer gives it.
    pub canonical: bool,
}

impl Reading {
    /// "Every input in which each varint met in reading order keeps the byte limits": one that does
    /// not is a fault where it is met, and no other fault has its number.
    pub fn in_domain(&self) -> bool {
        self.number != BEYOND_LIMITS
    }

    /// The answer where tables of so many numbers are lent. Room is whole rows.
    pub fn with_room(&self, records: usize, headers: usize) -> (u32, Entries) {
        let short =
            self.records.len() > records / RECORD_ROW || self.headers.len() > headers / HEADER_ROW;
        if self.number != ACCEPTED || !short {
            return (self.number, self.entries);
        }
        let mut counts = [0; 16];
        counts[RECORDS] = self.entries[RECORDS];
        counts[HEADERS] = self.entries[HEADERS];
        (NO_ROOM, counts)
    }
}

/// Reads the batch that the bytes begin with. "41, in reading, in either mode, where a bare marker
/// would have been accepted."
pub fn read(mode: Mode, bytes: &[u8]) -> Reading {
    if bare_marker(bytes).is_some() {
        return Reading { number: BARE_MARKER, ..Reading::default() };
    }
    by_earlier_rules(mode, bytes)
}

/// The control batch that the bytes begin with, where document 01 accepts one. Others are not read
/// twice: the control bit is looked at first.
pub fn bare_marker(bytes: &[u8]) -> Option<Reading> {
    let control_bit = bytes.get(22).is_some_and(|low| low & 32 != 0);
    let read = control_bit.then(|| by_earlier_rules(Mode::Bare, bytes))?;
    (read.number == ACCEPTED && read.entries[KIND] != 0).then_some(read)
}

/// Reads by the rules of before C-24, which 41 and the conversion are defined by.
fn by_earlier_rules(mode: Mode, bytes: &[u8]) -> Reading {
    match framed(bytes) {
        Err((number, needed)) => {
            let mut entries = [0; 16];
            entries[BYTES] = needed as i64;
            Reading { number, entries, ..Reading::default() }
        }
        Ok(end) => checked(mode, bytes, end)
            .unwrap_or_else(|number| Reading { number, ..Reading::default() }),
    }
}

/// Where the batch ends, if its checksum is right; else the number, and for 1 the bytes needed.
fn framed(bytes: &[u8]) -> Result<usize, (u32, usize)> {
    if bytes.len() < 12 {
        return Err((MORE_BYTES, 12));
    }
    let batch_length = signed(&bytes[8..12]);
    if batch_length < 9 {
        return Err((SMALL_LENGTH, 0));
    }
    if bytes.len() < 17 {
        return Err((MORE_BYTES, 17));
    }
    if bytes[16] != 2 {
        return Err((UNKNOWN_MAGIC, 0));
    }
    let end = 12 + batch_length as usize;
    if bytes.len() < end {
        return Err((MORE_BYTES, end));
    }
    if bytes[17..21] != crc32c(&bytes[21..end]).to_be_bytes() {
        return Err((CHECKSUM_DIFFERS, 0));
    }
    Ok(end)
}

/// A big-endian number in two's complement.
fn signed(bytes: &[u8]) -> i64 {
    let unsigned = bytes.iter().fold(0i128, |number, &byte| number * 256 + i128::from(byte));
    let negative = bytes[0] >= 0x80;
    (if negative { unsigned - (1 << (8 * bytes.len())) } else { unsigned }) as i64
}

/// Reads on from place 21, in the order of the fields.
fn checked(mode: Mode, bytes: &[u8], end: usize) -> Result<Reading, u32> {
    let mut part = Part { bytes, at: 21, end, strict: end == bytes.len() };
    let attributes = part.integer(2)?;
    let codec = attributes & 7;
    if codec > 4 {
        return Err(UNKNOWN_CODEC);
    }
    let mut entries = [0; 16];
    [entries[0], entries[1]] = [signed(&bytes[..8]), signed(&bytes[12..16])];
    // lastOffsetDelta, firstTimestamp, maxTimestamp, producerId, producerEpoch, baseSequence
    for (entry, size) in entries[2..].iter_mut().zip([4, 8, 8, 8, 2, 4]) {
        *entry = part.integer(size)?;
    }
    let count = part.integer(4)?;
    if count < -1 {
        return Err(WRONG_COUNT);
    }
    if codec != 0 {
        return Err(COMPRESSED);
    }
    part.strict &= count != -1 && (0..64).contains(&attributes);
    let bit = |place: u32| attributes >> place & 1;
    [entries[8], entries[9]] = [bit(3), bit(4)];
    let mut reading = Reading::default();
    if bit(5) == 1 {
        if count != 1 {
            return Err(WRONG_COUNT);
        }
        entries[KIND] = match mode {
            Mode::Bare => part.bare_marker()?,
            Mode::Keyed => part.keyed_marker()?,
        };
    } else {
        (0..count).try_for_each(|_| part.record(&mut reading))?;
    }
    if part.at != end {
        return Err(BYTES_LEFT);
    }
    entries[RECORDS] = reading.records.len() as i64;
    entries[HEADERS] = reading.headers.len() as i64;
    entries[BYTES] = end as i64;
    Ok(Reading { entries, canonical: part.strict, ..reading })
}

/// A part of the bytes, and how far it has been read.
#[derive(Clone)]
struct Part<'a> {
    bytes: &'a [u8],
    at: usize,
    end: usize,
    /// Whether all that was read is as the writer gives it.
    strict: bool,
}

impl Part<'_> {
    /// Where the next bytes start, so many of them.
    fn take(&mut self, count: usize) -> Result<usize, u32> {
        if count > self.end - self.at {
            return Err(PAST_END);
        }
        self.at += count;
        Ok(self.at - count)
    }

    fn integer(&mut self, size: usize) -> Result<i64, u32> {
        let start = self.take(size)?;
        Ok(signed(&self.bytes[start..][..size]))
    }

    /// "`Varint` .. at most 5 bytes, the fifth at most 15. `Varlong` .. at most 10, the tenth at most
    /// 1."
    fn varying(&mut self, most: usize, greatest_last: u8) -> Result<i64, u32> {
        let mut code = 0u64;
        for place in 0..most {
            let start = self.take(1)?;
            let byte = self.bytes[start];
            if place == most - 1 && byte > greatest_last {
                return Err(BEYOND_LIMITS);
            }
            code += u64::from(byte % 128) << (7 * place);
            if byte < 128 {
                self.strict &= place == 0 || byte != 0;
                break;
            }
        }
        let half = (code / 2) as i64;
        Ok(if code & 1 == 0 { half } else { -half - 1 })
    }

    fn varint(&mut self) -> Result<i64, u32> {
        self.varying(5, 15)
    }

    fn varlong(&mut self) -> Result<i64, u32> {
        self.varying(10, 1)
    }

    /// A length or a count, which may not be below the least.
    fn length(&mut self, least: i64) -> Result<i64, u32> {
        let length = self.varint()?;
        if length < least {
            return Err(NEGATIVE_LENGTH);
        }
        Ok(length)
    }

    /// Start and length of bytes after their length, which may be null (-1) or not (0).
    fn span(&mut self, least: i64) -> Result<[i64; 2], u32> {
        let length = self.length(least)?;
        if length == -1 {
            return Ok([0, -1]);
        }
        let start = self.take(length as usize)?;
        Ok([start as i64, length])
    }

    /// "Fields are read from the shorter of the named length and what the body has left. Afterwards
    /// the bytes read must equal the named length."
    fn record(&mut self, rows: &mut Reading) -> Result<(), u32> {
        let length = self.length(0)? as usize;
        let named_end = self.at + length;
        let mut fields = Part { end: named_end.min(self.end), ..self.clone() };
        fields.strict &= fields.integer(1)? == 0;
        let deltas = [fields.varlong()?, fields.varint()?];
        let [key, value] = [fields.span(-1)?, fields.span(-1)?];
        let header_count = fields.length(0)?;
        let first_header = rows.headers.len() as i64;
        for _ in 0..header_count {
            let header = fields.header()?;
            rows.headers.push(header);
        }
        if fields.at != named_end {
            return Err(BYTES_LEFT);
        }
        (self.at, self.strict) = (named_end, fields.strict);
        rows.records.push([
            deltas[0],
            deltas[1],
            key[0],
            key[1],
            value[0],
            value[1],
            first_header,
            header_count,
        ]);
        Ok(())
    }

    /// "A header key's UTF-8 is judged before its value length."
    fn header(&mut self) -> Result<[i64; HEADER_ROW], u32> {
        let [start, length] = self.span(0)?;
        if std::str::from_utf8(&self.bytes[start as usize..][..length as usize]).is_err() {
            return Err(KEY_NOT_UTF8);
        }
        let value = self.span(0)?;
        Ok([start, length, value[0], value[1]])
    }

    /// The kind of a control batch: 1 abort, 2 commit.
    fn bare_marker(&mut self) -> Result<i64, u32> {
        if self.integer(2)? != 0 {
            return Err(UNKNOWN_CONTROL);
        }
        match self.integer(2)? {
            0 => Ok(1),
            1 => Ok(2),
            _ => Err(UNKNOWN_CONTROL),
        }
    }

    /// The same of a record: "its record is read by the record rules, the key must begin with the
    /// four bytes of version and type, and other key bytes, the value and headers, once read by
    /// those rules (8 to 11 and 13 included), are ignored". "After 13, 12 also for a key that is
    /// null, shorter than four or of unknown version or type."
    fn keyed_marker(&mut self) -> Result<i64, u32> {
        let mut ignored = Reading::default();
        self.record(&mut ignored)?;
        if self.at != self.end {
            return Err(BYTES_LEFT);
        }
        let record = ignored.records[0];
        let [start, length] = [record[2], record[3]];
        if length < 4 {
            return Err(UNKNOWN_CONTROL);
        }
        // "The writer in this mode gives a four-byte key, zero deltas, null value and no headers."
        self.strict &= record == [0, 0, start, 4, 0, -1, 0, 0];
        match self.bytes[start as usize..][..4] {
            [0, 0, 0, 0] => Ok(1),
            [0, 0, 0, 1] => Ok(2),
            _ => Err(UNKNOWN_CONTROL),
        }
    }
}

#[cfg(test)]
mod tests {
    use super::*;

    /// A batch with these attributes, this count and this body, its other fields 0.
    fn batch(attributes: u16, count: i32, body: &[u8]) -> Vec<u8> {
        let mut checked = [&attributes.to_be_bytes()[..], &[0; 34], &count.to_be_bytes()].concat();
        checked.extend(body);
        framed(checked)
    }

    fn framed(checked: Vec<u8>) -> Vec<u8> {
        let length = 9 + checked.len() as i32;
        let crc = crc32c(&checked).to_be_bytes();
        [&[0; 8][..], &length.to_be_bytes(), &[0; 4], &[2], &crc, &checked].concat()
    }

    fn number(bytes: &[u8]) -> u32 {
        read(Mode::Bare, bytes).number
    }

    fn varying(bytes: &[u8], most: usize, greatest_last: u8) -> Result<i64, u32> {
        Part { bytes, at: 0, end: bytes.len(), strict: true }.varying(most, greatest_last)
    }

    /// Document 01, Numbers of varying length.
    #[test]
    fn numbers_are_those_of_the_table() {
        let varint = |bytes: &[u8]| varying(bytes, 5, 15);
        let values = [[0x00], [0x01], [0x02], [0x7E], [0x7F]].map(|bytes| varint(&bytes));
        assert_eq!(values, [Ok(0), Ok(-1), Ok(1), Ok(63), Ok(-64)]);
        assert_eq!([varint(&[0x80, 0x01]), varint(&[0x81, 0x01])], [Ok(64), Ok(-65)]);
        assert_eq!(varint(&[0xFE, 0xFF, 0xFF, 0xFF, 0x0F]), Ok(2147483647));
        assert_eq!(varint(&[0xFF, 0xFF, 0xFF, 0xFF, 0x0F]), Ok(-2147483648));
        assert_eq!(varint(&[0x80, 0x00]), Ok(0));
        assert_eq!(varint(&[0xFF, 0xFF, 0xFF, 0xFF, 0x10]), Err(9));
        assert_eq!(varint(&[0x80; 5]), Err(9));
        let least = [&[0xFF; 9][..], &[0x01]].concat();
        assert_eq!(varying(&least, 10, 1), Ok(-9223372036854775808));
    }

    /// Document 01, "Both sides", and the lengths of 1.
    #[test]
    fn both_sides_of_each_length() {
        let empty = batch(0, 0, &[]);
        assert_eq!((empty.len(), number(&empty)), (61, 0));
        assert_eq!(number(&batch(0, -1, &[])), 0);
        assert_eq!(number(&framed(Vec::new())), 8);
        let mut short = empty.clone();
        short[11] = 8;
        assert_eq!(number(&short), 2);
        let needed =
            [0, 11, 12, 16, 17, 60].map(|end| read(Mode::Bare, &empty[..end]).entries[BYTES]);
        assert_eq!(needed, [12, 12, 17, 17, 61, 61]);
    }

    /// Document 01, A record, in reading order.
    #[test]
    fn records_have_their_rows() {
        let smallest = read(Mode::Bare, &batch(0, 1, &[0x0C, 0, 0, 0, 1, 1, 0]));
        assert_eq!(smallest.records, [[0, 0, 0, -1, 0, -1, 0, 0]]);
        let with_value = read(Mode::Bare, &batch(0, 1, &[0x0E, 0, 0, 0, 1, 2, 0x41, 0]));
        assert_eq!(with_value.records, [[0, 0, 0, -1, 67, 1, 0, 0]]);
        assert!(smallest.canonical && with_value.canonical);
        assert_eq!(number(&batch(0, 1, &[0xC8, 1, 0, 0, 0, 1, 1, 0])), 13);
    }

    /// Document 01, below the reader's numbers: which of two faults is the first.
    #[test]
    fn the_first_fault_is_told() {
        assert_eq!(number(&framed(vec![0, 5])), 5);
        assert_eq!(number(&framed(vec![0, 4])), 8);
        assert_eq!([number(&batch(1, -2, &[])), number(&batch(1, -1, &[]))], [7, 6]);
        assert_eq!([number(&batch(33, 2, &[])), number(&batch(32, 2, &[]))], [6, 7]);
        assert_eq!([number(&batch(32, 1, &[0, 1])), number(&batch(32, 1, &[0, 0]))], [12, 8]);
        let no_text_then_null = [0x14, 0, 0, 0, 1, 1, 2, 2, 0xFF, 1, 0];
        assert_eq!(number(&batch(0, 1, &no_text_then_null)), 11);
    }

    /// Number and kind of a control batch with this body, in bare mode and in keyed mode.
    fn both(body: &[u8]) -> [(u32, i64); 2] {
        [Mode::Bare, Mode::Keyed].map(|mode| {
            let read = read(mode, &batch(32, 1, body));
            (read.number, read.entries[KIND])
        })
    }

    /// C-16: what each mode says of the same markers.
    #[test]
    fn markers_have_two_forms() {
        const ABORT: (u32, i64) = (0, 1);
        const COMMIT: (u32, i64) = (0, 2);
        const UNKNOWN: (u32, i64) = (12, 0);
        const WITHDRAWN: (u32, i64) = (41, 0);
        let keyed = |key: [u8; 4]| [&[0x14, 0, 0, 0, 8][..], &key, &[1, 0]].concat();
        assert_eq!(both(&keyed([0, 0, 0, 0])), [UNKNOWN, ABORT]);
        assert_eq!(both(&keyed([0, 0, 0, 1])), [UNKNOWN, COMMIT]);
        assert_eq!([both(&keyed([0, 1, 0, 1])), both(&keyed([0, 0, 0, 2]))], [[UNKNOWN; 2]; 2]);
        assert_eq!([both(&keyed([1, 0, 0, 0])), both(&keyed([0, 0, 1, 0]))], [[UNKNOWN; 2]; 2]);
        assert_eq!([both(&[0, 0, 0, 0]), both(&[0, 0, 0, 1])], [[WITHDRAWN; 2]; 2]);
        let null = [0x0C, 0, 0, 0, 1, 1, 0];
        assert_eq!(both(&null), [UNKNOWN; 2]);
        assert_eq!(both(&[&null[..], &[0]].concat()), [UNKNOWN, (13, 0)]);
        assert_eq!(both(&[0x12, 0, 0, 0, 6, 0, 0, 0, 1, 0]), [UNKNOWN; 2]);
        assert_eq!(both(&[0x16, 0, 0, 0, 10, 0, 0, 0, 1, 0xFF, 1, 0]), [UNKNOWN, COMMIT]);
        let six = [&[0x20, 0, 0, 0, 8, 0, 0, 0, 1, 12][..], &[0; 7]].concat();
        assert_eq!(both(&six), [UNKNOWN, COMMIT]);
        assert_eq!(both(&[0x14, 0, 0, 0, 1, 1, 2, 2, 0xFF, 0, 0]), [UNKNOWN, (11, 0)]);
    }

    /// C-24: only where the four bytes alone would have been accepted, and everything before them.
    #[test]
    fn other_control_batches_keep_their_numbers() {
        assert_eq!(both(&[0, 1, 0, 0]), [(12, 0), (8, 0)]);
        assert_eq!(both(&[0, 0, 0, 2]), [(12, 0), (8, 0)]);
        assert_eq!(both(&[0, 0, 0]), [(8, 0); 2]);
        assert_eq!(both(&[0, 0, 0, 1, 0]), [(13, 0), (8, 0)]);
        let both_of = |bytes: &[u8]| [Mode::Bare, Mode::Keyed].map(|mode| read(mode, bytes).number);
        let mut marker = batch(32, 1, &[0, 0, 0, 1]);
        assert_eq!((marker.len(), both_of(&marker)), (65, [41; 2]));
        assert_eq!(both_of(&[&marker[..], &[7]].concat()), [41; 2]);
        assert_eq!(both_of(&marker[..64]), [1; 2]);
        assert!(!read(Mode::Bare, &marker).canonical && !read(Mode::Keyed, &marker).canonical);
        marker[20] ^= 1;
        assert_eq!(both_of(&marker), [4; 2]);
        assert_eq!(both_of(&batch(32, 2, &[0, 0, 0, 1])), [7; 2]);
        assert_eq!(both_of(&batch(33, 1, &[0, 0, 0, 1])), [6; 2]);
        assert_eq!(both_of(&batch(37, 1, &[0, 0, 0, 1])), [5; 2]);
        assert_eq!(both_of(&batch(0xFFE0, 1, &[0, 0, 0, 1])), [41; 2]);
        assert_eq!(both_of(&batch(0, 1, &[0, 0, 0, 1])), [8; 2]);
    }

    /// C-16: the counts answered, what else is told of a marker, and which form is canonical.
    #[test]
    fn a_keyed_marker_has_no_rows() {
        let bytes = batch(32, 1, &[0x14, 0, 0, 0, 8, 0, 0, 0, 0, 1, 0]);
        assert_eq!((bytes.len(), &bytes[17..21]), (72, &[0xEC, 0xE5, 0x1F, 0xAE][..]));
        let read_keyed = |body: &[u8]| read(Mode::Keyed, &batch(32, 1, body));
        let abort = read(Mode::Keyed, &bytes);
        assert_eq!(abort.entries, [0, 0, 0, 0, 0, 0, 0, 0, 0, 0, 1, 0, 0, 72, 0, 0]);
        assert!(abort.canonical && abort.records.is_empty() && abort.headers.is_empty());
        let with_header = read_keyed(&[0x1A, 0, 0, 0, 8, 0, 0, 0, 0, 1, 2, 2, 0x41, 0]);
        assert_eq!((with_header.number, with_header.with_room(0, 0).0), (0, 0));
        for other in [
            &[0x14, 9, 0, 0, 8, 0, 0, 0, 0, 1, 0][..],
            &[0x14, 0, 2, 0, 8, 0, 0, 0, 0, 1, 0],
            &[0x14, 0, 0, 2, 8, 0, 0, 0, 0, 1, 0],
            &[0x16, 0, 0, 0, 10, 0, 0, 0, 0, 0, 1, 0],
            &[0x14, 0, 0, 0, 8, 0, 0, 0, 0, 0, 0],
            &[0x94, 0, 0, 0, 0, 8, 0, 0, 0, 0, 1, 0],
        ] {
            let read = read_keyed(other);
            assert_eq!((read.number, read.canonical), (0, false));
        }
        let counted = |count| read(Mode::Keyed, &batch(32, count, &bytes[61..])).number;
        assert_eq!([-2, -1, 0, 2].map(counted), [7; 4]);
    }
}
