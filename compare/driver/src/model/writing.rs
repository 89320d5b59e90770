//! Writing by document 01, in keyed mode by C-16, and of bare markers by C-24: of every request its
//! number, 20 to 24 or 41, or the length of the batch, and all bytes of a keyed control batch. Rows
//! may hold any numbers.

use super::*;

/// What is asked of the writer.
#[derive(Clone, Copy)]
pub struct Asked<'a> {
    pub mode: Mode,
    pub batch: &'a Entries,
    pub codec: i64,
    pub records: &'a [i64],
    pub headers: &'a [i64],
    pub source: &'a [u8],
}

/// Whether these entries ask for a marker.
pub fn is_marker(batch: &Entries) -> bool {
    [1, 2].contains(&batch[KIND])
}

/// How long the batch is, or by which number it is refused before an output is looked at.
pub fn measure(asked: &Asked) -> Result<i64, u32> {
    if asked.codec != 0 {
        return Err(CODEC_ASKED);
    }
    // "In writing, after 20, where one is asked for."
    if asked.mode == Mode::Bare && is_marker(asked.batch) {
        return Err(BARE_MARKER);
    }
    entries_fit(asked.batch).then_some(()).ok_or(WRONG_ROW)?;
    let content = match asked.batch[KIND] {
        0 => records_size(asked)?,
        _ => KEYED_MARKER.len() as i64,
    };
    let batch_length = 49 + content;
    if batch_length > 2_147_483_647 {
        return Err(TOO_LONG);
    }
    Ok(12 + batch_length)
}

/// The number and the length that are answered where an output of so many bytes is lent.
pub fn answer(measured: Result<i64, u32>, output: usize) -> (u32, i64) {
    match measured {
        Ok(length) if length as usize > output => (SHORT_OUTPUT, 0),
        Ok(length) => (ACCEPTED, length),
        Err(number) => (number, 0),
    }
}

/// "A four-byte key, zero deltas, null value and no headers": a record of ten bytes after its length,
/// an abort's.
const KEYED_MARKER: [u8; 11] = [20, 0, 0, 0, 8, 0, 0, 0, 0, 1, 0];

/// All bytes of the control batch that these entries ask for in keyed mode, where they are right.
pub fn keyed_batch(batch: &Entries) -> Vec<u8> {
    let attributes = 8 * batch[8] + 16 * batch[9] + 32;
    let mut checked = (attributes as i16).to_be_bytes().to_vec();
    checked.extend((batch[2] as i32).to_be_bytes());
    checked.extend(batch[3..6].iter().flat_map(|entry| entry.to_be_bytes()));
    checked.extend((batch[6] as i16).to_be_bytes());
    checked.extend((batch[7] as i32).to_be_bytes());
    checked.extend(1i32.to_be_bytes());
    checked.extend(KEYED_MARKER);
    checked[40 + 8] = (batch[KIND] - 1) as u8;
    let epoch = (batch[1] as i32).to_be_bytes();
    let crc = crc32c(&checked).to_be_bytes();
    let length = 60i32.to_be_bytes();
    [&batch[0].to_be_bytes()[..], &length, &epoch, &[2], &crc, &checked].concat()
}

fn in_bits(number: i64, bits: u32) -> bool {
    let limit = 1i64 << (bits - 1);
    (-limit..limit).contains(&number)
}

/// What bindings/c/oddrafisk.h asks of the entries: widths, flags, the kind, a count of records that
/// is not negative, and 0 where nothing is named.
fn entries_fit(batch: &Entries) -> bool {
    let narrow = [(1, 32), (2, 32), (6, 16), (7, 32)];
    narrow.iter().all(|&(place, bits)| in_bits(batch[place], bits))
        && [batch[8], batch[9]].iter().all(|flag| (0..2).contains(flag))
        && (0..3).contains(&batch[KIND])
        && (batch[KIND] != 0 || batch[RECORDS] >= 0)
        && batch[14..] == [0, 0]
}

/// The bytes of all records. "Too few record rows is judged first; then rows in order, each record
/// before its headers, a header row's numbers before its UTF-8."
fn records_size(asked: &Asked) -> Result<i64, u32> {
    let count = asked.batch[RECORDS];
    let mut rows = asked.records.chunks_exact(RECORD_ROW);
    if count > rows.len() as i64 {
        return Err(WRONG_ROW);
    }
    let mut header_rows = asked.headers.chunks_exact(HEADER_ROW);
    let header_room = header_rows.len();
    let mut size = 0;
    for row in rows.by_ref().take(count as usize) {
        let used = header_room - header_rows.len();
        let mut fields = record_size(row, used, header_room, asked.source).ok_or(WRONG_ROW)?;
        for header in header_rows.by_ref().take(row[7] as usize) {
            fields += header_size(header, asked.source)?;
        }
        size += varying_size(fields) + fields;
    }
    Ok(size)
}

/// The bytes of a record's fields but for its headers, or none where a number of its row is wrong.
fn record_size(row: &[i64], used: usize, header_room: usize, source: &[u8]) -> Option<i64> {
    let [first_header, header_count] = [row[6], row[7]];
    let left = (header_room - used) as i64;
    let right =
        in_bits(row[1], 32) && first_header == used as i64 && (0..=left).contains(&header_count);
    let spans = span_size(row[2], row[3], -1, source)? + span_size(row[4], row[5], -1, source)?;
    let numbers = [row[0], row[1], header_count].map(varying_size);
    right.then_some(1 + spans + numbers.iter().sum::<i64>())
}

fn header_size(row: &[i64], source: &[u8]) -> Result<i64, u32> {
    let key = span_size(row[0], row[1], 0, source).ok_or(WRONG_ROW)?;
    let value = span_size(row[2], row[3], 0, source).ok_or(WRONG_ROW)?;
    let text = &source[row[0] as usize..][..row[1] as usize];
    std::str::from_utf8(text).map_err(|_| ASKED_NOT_UTF8)?;
    Ok(key + value)
}

/// The bytes of a span with its length; none where it lies outside the source, its length is below
/// the least, or null starts elsewhere than at 0.
fn span_size(start: i64, length: i64, least: i64, source: &[u8]) -> Option<i64> {
    if length == -1 && least == -1 {
        return (start == 0).then_some(1);
    }
    let end = i128::from(start) + i128::from(length);
    let inside = start >= 0 && length >= 0 && end <= source.len() as i128;
    inside.then(|| varying_size(length) + length)
}

/// How many bytes a number of varying length has, the shortest: seven bits each.
fn varying_size(number: i64) -> i64 {
    let wide = i128::from(number);
    let mut code = if wide < 0 { -2 * wide - 1 } else { 2 * wide };
    let mut size = 1;
    while code > 127 {
        code /= 128;
        size += 1;
    }
    size
}

#[cfg(test)]
mod tests {
    use super::*;

    const A: [i64; RECORD_ROW] = [0, 0, 0, -1, 0, 1, 0, 0];

    fn asked(codec: i64, kind: i64, count: i64, row: &[i64], headers: &[i64]) -> (u32, i64) {
        asked_in(Mode::Bare, codec, kind, count, row, headers)
    }

    fn asked_in(
        mode: Mode,
        codec: i64,
        kind: i64,
        count: i64,
        records: &[i64],
        headers: &[i64],
    ) -> (u32, i64) {
        let mut batch = [0; 16];
        batch[KIND] = kind;
        batch[RECORDS] = count;
        let asked = Asked { mode, batch: &batch, codec, records, headers, source: b"A\xFF" };
        answer(measure(&asked), 76)
    }

    /// Document 01, Writer's numbers, in their order.
    #[test]
    fn numbers_are_given_in_their_order() {
        assert_eq!(asked(0, 0, 1, &A, &[]), (0, 69));
        assert_eq!(asked(0, 0, 0, &[], &[]), (0, 61));
        assert_eq!([asked(1, 3, 1, &A, &[]), asked(0, 3, 1, &A, &[])], [(20, 0), (21, 0)]);
        assert_eq!([asked(0, 0, 2, &A, &[]), asked(0, 0, -1, &A, &[])], [(21, 0); 2]);
        let with_header = [0, 0, 0, -1, 0, 1, 0, 1];
        assert_eq!(asked(0, 0, 1, &with_header, &[1, 1, 0, 3]), (21, 0));
        assert_eq!(asked(0, 0, 1, &with_header, &[1, 1, 0, 2]), (22, 0));
        assert_eq!(asked(0, 0, 1, &with_header, &[0, 1, 0, 2]), (0, 74));
        assert_eq!(asked(0, 0, 1, &[i64::MAX, 0, 0, -1, 0, 1, 0, 0], &[]), (24, 0));
    }

    /// C-24: in bare mode no marker is written, which is told after the codec and before all else.
    #[test]
    fn a_bare_marker_is_not_written() {
        assert_eq!([asked(0, 1, -1, &[], &[]), asked(0, 2, 0, &[], &[])], [(41, 0); 2]);
        assert_eq!([asked(1, 1, 0, &[], &[]), asked(0, 3, 0, &[], &[])], [(20, 0), (21, 0)]);
        let mut batch = [0; 16];
        [batch[KIND], batch[6], batch[15]] = [2, 1 << 15, 7];
        let both = [Mode::Bare, Mode::Keyed].map(|mode| {
            let asked =
                Asked { mode, batch: &batch, codec: 0, records: &[], headers: &[], source: &[] };
            measure(&asked)
        });
        assert_eq!(both, [Err(41), Err(21)]);
    }

    /// C-16: a keyed control batch has 72 bytes, and all else is measured as in bare mode.
    #[test]
    fn a_keyed_marker_is_one_record() {
        let keyed = |kind, count| asked_in(Mode::Keyed, 0, kind, count, &A, &[]);
        assert_eq!([keyed(1, -1), keyed(2, 7), keyed(0, 1)], [(0, 72), (0, 72), (0, 69)]);
        assert_eq!(asked_in(Mode::Keyed, 1, 1, 0, &[], &[]), (20, 0));
        let mut entries = [0; 16];
        entries[KIND] = 1;
        let abort = keyed_batch(&entries);
        assert_eq!((abort.len(), &abort[8..12]), (72, &[0, 0, 0, 0x3C][..]));
        assert_eq!(&abort[17..23], [0xEC, 0xE5, 0x1F, 0xAE, 0, 0x20]);
        assert_eq!(abort[57..], [0, 0, 0, 1, 0x14, 0, 0, 0, 8, 0, 0, 0, 0, 1, 0]);
        entries = [-1, 2, 3, 4, 5, 6, 7, 8, 1, 1, 2, 0, 0, 0, 0, 0];
        let commit = keyed_batch(&entries);
        assert_eq!((&commit[..8], commit[15], commit[22]), (&[0xFF; 8][..], 2, 0x38));
        let lows = [26, 34, 42, 50, 52, 56].map(|place: usize| commit[place]);
        assert_eq!((lows, commit[69]), ([3, 4, 5, 6, 7, 8], 1));
    }
}
