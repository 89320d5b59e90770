//! What is asked of the writer: tables over a source, some of them with wild numbers. The model says
//! the number, and the Rust the bytes of what it accepts; those of keyed markers are made of its own.

use rskafka::protocol::record::RecordBatchCompression;

use crate::compare::{in_keyed_mode, keyed_marker, request, same, Difference};
use crate::model::writing::{self, Asked};
use crate::model::{Entries, Mode, CODEC_ASKED, HEADER_ROW, RECORDS, RECORD_ROW, SHORT_OUTPUT};
use crate::ours::{Library, Tables};
use crate::random::Random;
use crate::theirs;

/// A batch to be written.
#[derive(Clone)]
struct Request {
    batch: Entries,
    codec: i64,
    tables: Tables,
    source: Vec<u8>,
}

impl Request {
    fn asked(&self) -> Asked<'_> {
        let Self { batch, codec, tables: Tables { records, headers }, source } = self;
        Asked { mode: Mode::Bare, batch, codec: *codec, records, headers, source }
    }
}

/// The number by which a request was answered.
pub struct Answered {
    pub number: u32,
    /// The one in keyed mode, where a marker was asked for.
    pub keyed_marker: Option<u32>,
}

impl From<u32> for Answered {
    fn from(number: u32) -> Self {
        Self { number, keyed_marker: None }
    }
}

/// Asks for a random batch, or for one with faults.
pub fn ask(library: &mut Library, random: &mut Random) -> Result<Answered, Difference> {
    let mut wanted = random_request(random);
    for _ in 0..random.pick(&[0, 0, 0, 1, 1, 1, 2, 3]) {
        spoil(&mut wanted, random);
    }
    ask_for(library, &wanted, random)
}

/// Asks for markers: right ones, with each entry at both sides of its limits, and by each codec.
pub fn markers(library: &mut Library, random: &mut Random) -> Vec<Result<Answered, Difference>> {
    let mut answered = Vec::new();
    for kind in [1, 2] {
        let batch = [-1, 2, -3, 4, -5, 6, -7, 8, 1, 1, kind, 0, 0, 0, 0, 0];
        let right = Request { batch, codec: 0, tables: Tables::default(), source: Vec::new() };
        let mut ask = |change: &dyn Fn(&mut Request)| {
            let mut wanted = right.clone();
            change(&mut wanted);
            answered.extend((0..20).map(|_| ask_for(library, &wanted, random)));
        };
        for codec in -1..=5 {
            ask(&|wanted| wanted.codec = codec);
        }
        for (place, bits) in (0..16).flat_map(|place| [1, 2, 15, 31, 63].map(|bits| (place, bits)))
        {
            let edge = (1u64 << bits) as i64;
            for number in [edge, edge.wrapping_sub(1), edge.wrapping_neg(), !edge, 0] {
                ask(&|wanted| wanted.batch[place] = number);
            }
        }
    }
    answered
}

/// Asks for a batch in both modes.
fn ask_for(
    library: &mut Library,
    wanted: &Request,
    random: &mut Random,
) -> Result<Answered, Difference> {
    let asked = wanted.asked();
    let written =
        writing::measure(&asked).ok().and_then(|_| theirs::written(&theirs::value(&asked)));
    let length = written.as_ref().map_or(64, Vec::len);
    // A copy, so that the choices of the one mode are not moved by those of the other.
    let mut same_choices = random.clone();
    let room = any_room(length, random);
    let number = request(library, &asked, written.as_deref(), room, random)?;
    refused_by_the_rust(&asked, number, room, length)?;
    let keyed = ask_keyed(library, &asked, written, &mut same_choices)?;
    let keyed_marker = writing::is_marker(asked.batch).then_some(keyed);
    Ok(Answered { number, keyed_marker })
}

/// Asks for the same in keyed mode. Batches of records have the Rust's bytes there too, and a marker,
/// which bare mode refuses, has those that are made of the Rust's.
fn ask_keyed(
    library: &mut Library,
    bare: &Asked,
    written: Option<Vec<u8>>,
    random: &mut Random,
) -> Result<u32, Difference> {
    let asked = Asked { mode: Mode::Keyed, ..*bare };
    let written = match writing::is_marker(asked.batch) && writing::measure(&asked).is_ok() {
        true => Some(keyed_marker(&asked)?),
        false => written,
    };
    let room = any_room(written.as_ref().map_or(64, Vec::len), random);
    request(library, &asked, written.as_deref(), room, random).map_err(in_keyed_mode)
}

/// An output that is too short, just enough or larger.
fn any_room(length: usize, random: &mut Random) -> usize {
    match random.below(4) {
        0 => random.below(length),
        1 => length,
        _ => length + random.below(9),
    }
}

/// The Rust refuses a codec and an output that is too short as well.
fn refused_by_the_rust(
    asked: &Asked,
    number: u32,
    room: usize,
    length: usize,
) -> Result<(), Difference> {
    use RecordBatchCompression::{Gzip, Lz4, Snappy, Zstd};
    let plain = Asked { mode: Mode::Keyed, codec: 0, ..*asked };
    if number == SHORT_OUTPUT {
        let value = theirs::value(asked);
        same(theirs::fits(&value, room), false, "the Rust writes to a short output")?;
        same(theirs::fits(&value, length), true, "the Rust refuses just enough room")?;
    }
    if number == CODEC_ASKED && (1..5).contains(&asked.codec) && writing::measure(&plain).is_ok() {
        let mut value = theirs::value(&plain);
        value.compression = [Gzip, Snappy, Lz4, Zstd][asked.codec as usize - 1];
        same(theirs::written(&value), None, "the Rust writes what is compressed")?;
    }
    Ok(())
}

/// Any part of the source: spans may overlap.
fn any_span(source: &[u8], random: &mut Random) -> [i64; 2] {
    let start = random.below(source.len() + 1);
    let most = if random.one_in(8) { source.len() } else { 12 };
    let length = random.below(most.min(source.len() - start) + 1);
    [start as i64, length as i64]
}

fn put_header(source: &mut Vec<u8>, headers: &mut Vec<i64>, random: &mut Random) {
    let key = random.text();
    headers.extend([source.len() as i64, key.len() as i64]);
    source.extend(key.bytes());
    headers.extend(any_span(source, random));
}

fn put_record(source: &mut Vec<u8>, tables: &mut Tables, random: &mut Random) {
    let nullable = |source: &[u8], random: &mut Random| match random.one_in(4) {
        true => [0, -1],
        false => any_span(source, random),
    };
    let spans = [nullable(source, random), nullable(source, random)];
    let first_header = (tables.headers.len() / HEADER_ROW) as i64;
    let header_count = if random.one_in(50) { 64 } else { random.below(3) };
    (0..header_count).for_each(|_| put_header(source, &mut tables.headers, random));
    tables.records.extend([random.number(64), random.number(32)]);
    tables.records.extend(spans.as_flattened());
    tables.records.extend([first_header, header_count as i64]);
}

fn random_request(random: &mut Random) -> Request {
    let size = random.pick(&[0, 1, 20, 70, 200]);
    let mut source = random.bytes(size);
    let mut tables = Tables::default();
    let kind = random.pick(&[0, 0, 0, 0, 0, 0, 1, 2]);
    let count = if kind == 0 { random.below(6) } else { random.below(2) };
    (0..count).for_each(|_| put_record(&mut source, &mut tables, random));
    let mut batch = [0; 16];
    for (place, bits) in [(0, 64), (1, 32), (2, 32), (3, 64), (4, 64), (5, 64), (6, 16), (7, 32)] {
        batch[place] = random.number(bits);
    }
    batch[8..11].copy_from_slice(&[random.below(2) as i64, random.below(2) as i64, kind]);
    batch[RECORDS] = count as i64;
    // The writer looks at neither how many headers nor how many bytes there are.
    batch[RECORDS + 1..RECORDS + 3].copy_from_slice(&[random.number(64), random.number(64)]);
    if random.one_in(3) {
        let [more_records, more_headers] = [12, 6].map(|most| random.below(most));
        tables.records.extend(random.numbers(more_records));
        tables.headers.extend(random.numbers(more_headers));
    }
    Request { batch, codec: 0, tables, source }
}

/// A number that is at an edge of something, or any.
fn wild(request: &Request, random: &mut Random) -> i64 {
    let end = request.source.len() as i64;
    let any = random.number(64);
    let narrow = random.number(32);
    #[rustfmt::skip]
    let edges = [
        0, 1, 2, 3, -1, -2, end - 1, end, end + 1, 1 << 31, (1 << 31) - 1, -(1 << 31), -(1 << 31) - 1, 1 << 32,
        i64::MIN, i64::MIN + 1, i64::MAX, i64::MAX - end, narrow, any,
    ];
    random.pick(&edges)
}

/// Makes one part wrong, or leaves it right by chance.
fn spoil(request: &mut Request, random: &mut Random) {
    let number = wild(request, random);
    match random.below(12) {
        0 => request.codec = random.pick(&[1, 2, 3, 4, 5, -1, number]),
        1 => request.batch[random.below(16)] = number,
        2 => request.batch[RECORDS] += random.pick(&[1, 1, 2, -1]),
        3 => {
            let Tables { records, headers } = &mut request.tables;
            let table = random.pick(&[0, 1]);
            let table = [records, headers].into_iter().nth(table).expect("there are two");
            table.truncate(random.below(table.len() + 1));
        }
        4 | 5 => not_utf8(request, random),
        6 | 7 => wrong_span(request, random),
        8 => shift_headers(request, random),
        _ => {
            let Tables { records, headers } = &mut request.tables;
            let place = random.below(records.len() + headers.len() + 1);
            if let Some(wrong) = records.iter_mut().chain(headers).nth(place) {
                *wrong = number;
            }
        }
    }
}

/// The Rust's header key is a string, so it has no value with bytes that are no UTF-8.
fn not_utf8(request: &mut Request, random: &mut Random) {
    let Request { tables: Tables { headers, .. }, source, .. } = request;
    let rows = headers.len() / HEADER_ROW;
    if rows > 0 {
        let bytes = random.no_text();
        let row = random.below(rows) * HEADER_ROW;
        headers[row..row + 2].copy_from_slice(&[source.len() as i64, bytes.len() as i64]);
        source.extend(bytes);
    }
}

/// A span of a row by each of document 01's reasons, and at both sides of them.
fn wrong_span(request: &mut Request, random: &mut Random) {
    let end = request.source.len() as i64;
    let Tables { records, headers } = &mut request.tables;
    let record_places = records.len() / RECORD_ROW * 2;
    let header_places = headers.len() / HEADER_ROW * 2;
    if record_places + header_places == 0 {
        return;
    }
    #[rustfmt::skip]
    let spans = [
        [-1, 1], [end, 1], [end, 0], [end + 1, 0], [0, end], [0, end + 1], [1, -1], [0, -1], [0, -2], [-1, -1],
        [i64::MAX, i64::MAX], [i64::MAX, 1], [i64::MIN, i64::MAX], [0, i64::MIN],
    ];
    let span = random.pick(&spans);
    let place = random.below(record_places + header_places);
    let numbers = match place.checked_sub(record_places) {
        None => &mut records[place / 2 * RECORD_ROW + 2 + place % 2 * 2..],
        Some(place) => &mut headers[place * 2..],
    };
    numbers[..2].copy_from_slice(&span);
}

/// First header rows that do not run on, and counts of headers that run past their table.
fn shift_headers(request: &mut Request, random: &mut Random) {
    let Tables { records, headers } = &mut request.tables;
    let rows = records.len() / RECORD_ROW;
    if rows > 0 {
        let row = random.below(rows) * RECORD_ROW;
        let past = (headers.len() / HEADER_ROW) as i64 + 1;
        match random.below(3) {
            0 => records[row + 6] += random.pick(&[1, -1, past]),
            1 => records[row + 7] += random.pick(&[1, -1, past]),
            _ => records[row + 7] = random.pick(&[-1, past, i64::MIN, i64::MAX]),
        }
    }
}

/// Times at every limit: firstTimestamp plus timestampDelta whichever the type, where it fits.
pub fn time(library: &mut Library, random: &mut Random) -> Result<bool, Difference> {
    let kind = random.pick(&[0, 0, 1, 1, 2, -1, i64::MIN]);
    let asked @ [_, first, _, delta] =
        [kind, random.number(64), random.number(64), random.number(64)];
    let due = if (0..2).contains(&kind) { first.checked_add(delta) } else { None };
    same(library.record_time(asked), due, "the time of a record differs")?;
    Ok(due.is_some())
}
