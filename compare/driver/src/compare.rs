//! Holds one input, or one request, to the model and to the Rust.

use std::borrow::Cow;

use rskafka::protocol::record::RecordBatch;

use crate::model::converting::{self, Conversion};
use crate::model::reading::{self, Reading};
use crate::model::writing::{self, Asked};
use crate::model::{
    crc32c, Mode, ACCEPTED, BARE_MARKER, HEADERS, HEADER_ROW, KIND, MORE_BYTES, NO_ROOM, RECORDS,
    RECORD_ROW, UNKNOWN_CONTROL, WRONG_COUNT,
};
use crate::ours::{Library, Tables};
use crate::random::Random;
use crate::shape::{repair_crc, twin, CHECKED, CONTROL};
use crate::theirs::{self, Accepted, Answer};

/// What differs, in words.
pub type Difference = Cow<'static, str>;

/// What an input was answered with, by both.
pub struct Compared {
    pub number: u32,
    pub in_domain: bool,
    /// Whether the Rust accepts it.
    pub accepted: bool,
    pub canonical: bool,
    /// Whether it was read with rows too few as well.
    pub no_room: bool,
    pub keyed: Keyed,
    pub converted: Converted,
}

/// What an input was answered with in keyed mode.
pub struct Keyed {
    pub number: u32,
    /// What a marker does: 1 abort, 2 commit.
    pub kind: i64,
    pub canonical: bool,
    pub control_bit: bool,
    /// Whether its answer had to be that of bare mode.
    pub alike: bool,
}

/// What an input was answered with in the conversion.
pub struct Converted {
    pub number: u32,
    /// Whether what is given is not the batch's own bytes.
    pub changed: bool,
}

pub fn same<T: PartialEq>(one: T, other: T, what: &'static str) -> Result<(), Difference> {
    if one == other {
        Ok(())
    } else {
        Err(what.into())
    }
}

pub fn in_keyed_mode(what: Difference) -> Difference {
    format!("in keyed mode, {what}").into()
}

/// All that is answered of these bytes is what the model says, and in the domain what the Rust
/// says. 41 is answered just where the Rust accepts a control batch, and that is all of the domain in
/// which the Rust's answer is not ours.
pub fn input(
    library: &mut Library,
    bytes: &[u8],
    random: &mut Random,
) -> Result<Compared, Difference> {
    // A copy, so that the choices of the one mode are not moved by those of the other.
    let mut same_choices = random.clone();
    let (model, number) = modelled(library, Mode::Bare, bytes, random)?;
    same(library.crc32c(bytes), crc32c(bytes), "the checksum is not the model's")?;
    let keyed = keyed(library, bytes, &model, &mut same_choices).map_err(in_keyed_mode)?;
    let converted = converted(library, bytes, &mut same_choices)?;
    let theirs = theirs::read(bytes);
    if let Answer::Panicked = theirs {
        return Err("the Rust panics".into());
    }
    let control_batch = theirs.control_batch();
    let withdrawn = model.number == BARE_MARKER;
    same(withdrawn, control_batch.is_some(), "41 and the Rust's control batches are not the same")?;
    match control_batch {
        Some(accepted) => held_by_twin(library, bytes, accepted, random)?,
        None if model.in_domain() => against_rust(library, bytes, &model, &theirs, random)?,
        None => {}
    }
    Ok(Compared {
        number: model.number,
        in_domain: model.in_domain(),
        accepted: matches!(theirs, Answer::Accepted(_)),
        canonical: model.canonical,
        no_room: number == NO_ROOM,
        keyed,
        converted,
    })
}

/// All that is answered of these bytes in that mode is what the model says. Gives also the number
/// that was answered with the tables that were lent.
fn modelled(
    library: &mut Library,
    mode: Mode,
    bytes: &[u8],
    random: &mut Random,
) -> Result<(Reading, u32), Difference> {
    let model = reading::read(mode, bytes);
    let answer = (model.number, model.entries);
    same(library.check(mode, bytes), answer, "the check is not the model's")?;
    let canonical = u32::from(model.canonical);
    same(library.is_canonical(mode, bytes), canonical, "the canonical check is not the model's")?;
    if model.number != MORE_BYTES {
        let more = random.next().to_be_bytes();
        let longer = [bytes, &more[..1 + random.below(more.len())]].concat();
        let stands = library.check(mode, &longer);
        same(stands, answer, "an answer does not stand when bytes are appended")?;
    }
    let rooms = any_rooms(&model, random);
    let number = read(library, mode, bytes, &model, rooms, random)?.0;
    Ok((model, number))
}

/// The same bytes in keyed mode. Without the control bit, and where the answer is 1 to 7 or 41, both
/// modes answer alike; of other control batches the Rust says what it says of their record.
fn keyed(
    library: &mut Library,
    bytes: &[u8],
    bare: &Reading,
    random: &mut Random,
) -> Result<Keyed, Difference> {
    let (model, _) = modelled(library, Mode::Keyed, bytes, random)?;
    let control_bit = bytes.get(CHECKED + 1).is_some_and(|low| low & CONTROL as u8 != 0);
    let shared = |number| (MORE_BYTES..=WRONG_COUNT).contains(&number) || number == BARE_MARKER;
    let alike = !control_bit || shared(bare.number) || shared(model.number);
    if alike {
        same(&model, bare, "the answer is not that of bare mode")?;
    } else {
        record_by_rust(bytes, &model)?;
    }
    if control_bit && model.number == ACCEPTED {
        marker_written(library, bytes, &model, random)?;
    }
    let Reading { number, canonical, .. } = model;
    Ok(Keyed { number, kind: model.entries[KIND], canonical, control_bit, alike })
}

/// The record of a keyed marker is one that the Rust reads where the control bit is not set: it
/// refuses the same, and where it does not, the key that it has read tells the marker. What the key
/// means is document 02's alone.
fn record_by_rust(bytes: &[u8], keyed: &Reading) -> Result<(), Difference> {
    if !keyed.in_domain() {
        return Ok(());
    }
    let mut plain = bytes.to_vec();
    plain[CHECKED + 1] &= !(CONTROL as u8);
    repair_crc(&mut plain);
    let accepted = match theirs::read(&plain) {
        Answer::Panicked => return Err("the Rust panics at a record".into()),
        Answer::Refused => {
            let refused = ![ACCEPTED, UNKNOWN_CONTROL].contains(&keyed.number);
            return same(refused, true, "the Rust refuses a record that is accepted here");
        }
        Answer::Accepted(accepted) => accepted,
    };
    let record = theirs::records(&accepted.batch).first().ok_or("the Rust reads no record")?;
    let mut entries = theirs::entries(&accepted.batch, accepted.consumed);
    [entries[RECORDS], entries[HEADERS]] = [0, 0];
    entries[KIND] = match record.key.as_deref() {
        Some([0, 0, 0, 0, ..]) => 1,
        Some([0, 0, 0, 1, ..]) => 2,
        _ => return same(keyed.number, UNKNOWN_CONTROL, "the key that the Rust reads tells none"),
    };
    let due = (ACCEPTED, entries);
    same((keyed.number, keyed.entries), due, "the key that the Rust reads tells another marker")
}

/// What was read of a marker is written in keyed mode, and is canonical exactly where these are its
/// bytes.
fn marker_written(
    library: &mut Library,
    bytes: &[u8],
    model: &Reading,
    random: &mut Random,
) -> Result<(), Difference> {
    let batch = &model.entries;
    let asked =
        Asked { mode: Mode::Keyed, batch, codec: 0, records: &[], headers: &[], source: bytes };
    let written = keyed_marker(&asked)?;
    same(model.canonical, written == bytes, "what is canonical is not what is written")?;
    for room in [written.len() + 3, written.len(), written.len() - 1] {
        request(library, &asked, Some(&written), room, random)?;
    }
    Ok(())
}

/// The bytes that are due of a marker in keyed mode: those that the Rust's own make, and the model's.
pub fn keyed_marker(asked: &Asked) -> Result<Vec<u8>, Difference> {
    let bare = theirs::written(&theirs::value(asked)).ok_or("the Rust does not write a marker")?;
    let keyed = twin(&bare);
    same(&keyed, &writing::keyed_batch(asked.batch), "the model's marker is not the Rust's")?;
    Ok(keyed)
}

/// The conversion of these bytes is the model's: to outputs that are just enough, a byte longer and a
/// byte too short, or where it refuses to any. Other bytes that follow change nothing, and what is
/// given is given again for itself.
fn converted(
    library: &mut Library,
    bytes: &[u8],
    random: &mut Random,
) -> Result<Converted, Difference> {
    let model = converting::convert(bytes);
    let given = &model.given[..];
    if model.number == ACCEPTED {
        for room in [given.len() - 1, given.len(), given.len() + 1] {
            conversion(library, bytes, &model, room, random)?;
        }
        let taken = given.len() as i64;
        same(taken <= model.taken + 7, true, "more is given than taken and seven bytes")?;
        let again = Conversion { number: ACCEPTED, taken, given: given.into() };
        same(&converting::convert(given), &again, "the model converts twice otherwise")?;
        let twice = conversion(library, given, &again, given.len(), random);
        twice.map_err(in_converting_twice)?;
    } else {
        let room = random.below(80);
        conversion(library, bytes, &model, room, random)?;
    }
    if model.number != MORE_BYTES {
        let more = random.next().to_be_bytes();
        let longer = [bytes, &more[..1 + random.below(more.len())]].concat();
        let room = given.len() + random.below(9);
        conversion(library, &longer, &model, room, random).map_err(in_longer_bytes)?;
    }
    let changed = !given.is_empty() && !bytes.starts_with(given);
    Ok(Converted { number: model.number, changed })
}

fn in_converting_twice(what: Difference) -> Difference {
    format!("in converting twice, {what}").into()
}

fn in_longer_bytes(what: Difference) -> Difference {
    format!("when bytes are appended, {what}").into()
}

/// Converts to an output of so many bytes that are filled with anything: the answer is what is due,
/// and so is every byte of the output.
fn conversion(
    library: &mut Library,
    bytes: &[u8],
    due: &Conversion,
    room: usize,
    random: &mut Random,
) -> Result<(), Difference> {
    let mut output = random.bytes(room);
    let mut due_output = output.clone();
    let answer = due.with_room(room);
    if answer.0 == ACCEPTED {
        due_output[..due.given.len()].copy_from_slice(&due.given);
    }
    same(library.convert(bytes, &mut output), answer, "the conversion's answer differs")?;
    same(output, due_output, "the conversion's output is not as it should be")
}

/// A control batch that the Rust accepts is refused, so it is held by its twin. The conversion gives
/// that of the bytes that the Rust has read and of those that it writes; and the latter is what is
/// written in keyed mode, and read there as the Rust has read it.
fn held_by_twin(
    library: &mut Library,
    bytes: &[u8],
    accepted: &Accepted,
    random: &mut Random,
) -> Result<(), Difference> {
    let Accepted { batch, consumed, written } = accepted;
    let due = |bare: &[u8]| Conversion {
        number: ACCEPTED,
        taken: bare.len() as i64,
        given: twin(bare).into(),
    };
    for bare in [&bytes[..*consumed], written] {
        conversion(library, bare, &due(bare), 72, random).map_err(of_twin)?;
    }
    let keyed = twin(written);
    let entries = theirs::entries(batch, keyed.len());
    let read = library.check(Mode::Keyed, &keyed);
    same(read, (ACCEPTED, entries), "a twin is not read as the Rust has read it")?;
    same(library.is_canonical(Mode::Keyed, &keyed), 1, "a twin is not canonical")?;
    let asked =
        |mode| Asked { mode, batch: &entries, codec: 0, records: &[], headers: &[], source: bytes };
    request(library, &asked(Mode::Keyed), Some(&keyed), keyed.len(), random).map_err(of_twin)?;
    let bare = request(library, &asked(Mode::Bare), None, keyed.len(), random)?;
    same(bare, BARE_MARKER, "a bare marker is not refused with 41 in writing")
}

fn of_twin(what: Difference) -> Difference {
    format!("of a twin, {what}").into()
}

/// Reads with tables of so many numbers, filled with anything: answer and tables are the model's.
fn read(
    library: &mut Library,
    mode: Mode,
    bytes: &[u8],
    model: &Reading,
    rooms: [usize; 2],
    random: &mut Random,
) -> Result<(u32, Tables), Difference> {
    let [records, headers] = rooms.map(|room| random.numbers(room));
    let mut tables = Tables { records, headers };
    let mut due = tables.clone();
    let answer = model.with_room(rooms[0], rooms[1]);
    if answer.0 == ACCEPTED {
        put_rows(&mut due.records, model.records.as_flattened());
        put_rows(&mut due.headers, model.headers.as_flattened());
    }
    same(library.read(mode, bytes, &mut tables), answer, "the reader's answer is not the model's")?;
    same(&tables, &due, "the tables are not the model's")?;
    Ok((answer.0, tables))
}

fn put_rows(table: &mut [i64], rows: &[i64]) {
    table[..rows.len()].copy_from_slice(rows);
}

/// The numbers of tables that are too small, just enough or larger, most with a part of a row.
fn any_rooms(model: &Reading, random: &mut Random) -> [usize; 2] {
    let needed = [(model.records.len(), RECORD_ROW), (model.headers.len(), HEADER_ROW)];
    needed.map(|(rows, row)| {
        let rows = match random.below(4) {
            0 => random.below(rows + 1),
            1 => rows + 1 + random.below(3),
            _ => rows,
        };
        rows * row + random.below(row)
    })
}

/// The numbers of tables with rows enough.
fn rooms_enough(model: &Reading, random: &mut Random) -> [usize; 2] {
    let needed = [(model.records.len(), RECORD_ROW), (model.headers.len(), HEADER_ROW)];
    needed.map(|(rows, row)| (rows + random.below(3)) * row + random.below(row))
}

/// In the domain the Rust accepts and refuses the same, with the same values, and writes the same
/// bytes for them.
fn against_rust(
    library: &mut Library,
    bytes: &[u8],
    model: &Reading,
    theirs: &Answer,
    random: &mut Random,
) -> Result<(), Difference> {
    let Answer::Accepted(accepted) = theirs else {
        return same(model.number == ACCEPTED, false, "accepted here, refused by the Rust");
    };
    same(model.number, ACCEPTED, "refused here, accepted by the Rust")?;
    let Accepted { batch, consumed, written } = accepted;
    let entries = theirs::entries(batch, *consumed);
    same(model.entries, entries, "fields, kind, counts or bytes differ from the Rust's")?;
    same(model.canonical, accepted.is_canonical(bytes), "the canonical check is not the Rust's")?;
    let rooms = rooms_enough(model, random);
    let (_, tables) = read(library, Mode::Bare, bytes, model, rooms, random)?;
    rows(batch, &tables, bytes)?;
    let Tables { records, headers } = &tables;
    let batch = &entries;
    let asked = Asked { mode: Mode::Bare, batch, codec: 0, records, headers, source: bytes };
    for room in [written.len() + 3, written.len(), written.len() - 1] {
        request(library, &asked, Some(written), room, random)?;
    }
    Ok(())
}

/// The span of a row, if it lies in the bytes; null is none.
fn span(bytes: &[u8], start: i64, length: i64) -> Result<Option<&[u8]>, Difference> {
    if (start, length) == (0, -1) {
        return Ok(None);
    }
    let range = usize::try_from(start).ok().zip(usize::try_from(length).ok());
    let span = range.and_then(|(start, length)| bytes.get(start..)?.get(..length));
    span.map(Some).ok_or("a span lies outside the bytes".into())
}

/// The rows show what the Rust has read.
fn rows(batch: &RecordBatch, tables: &Tables, bytes: &[u8]) -> Result<(), Difference> {
    let mut first_header = 0;
    for (row, record) in tables.records.chunks(RECORD_ROW).zip(theirs::records(batch)) {
        same(row[0], record.timestamp_delta, "a timestamp delta differs")?;
        same(row[1], record.offset_delta.into(), "an offset delta differs")?;
        same(span(bytes, row[2], row[3])?, record.key.as_deref(), "a key differs")?;
        same(span(bytes, row[4], row[5])?, record.value.as_deref(), "a value differs")?;
        same(row[6], first_header as i64, "a first header row differs")?;
        same(row[7], record.headers.len() as i64, "a header count differs")?;
        let header_rows = tables.headers.chunks(HEADER_ROW).skip(first_header);
        for (row, header) in header_rows.zip(&record.headers) {
            let key = Some(header.key.as_bytes());
            same(span(bytes, row[0], row[1])?, key, "a header's key differs")?;
            let value = Some(header.value.as_slice());
            same(span(bytes, row[2], row[3])?, value, "a header's value differs")?;
        }
        first_header += record.headers.len();
    }
    Ok(())
}

/// Measures what is asked, and writes it to an output of so many bytes that are filled with
/// anything. The model says number and length; what it accepts are these bytes.
pub fn request(
    library: &mut Library,
    asked: &Asked,
    written: Option<&[u8]>,
    room: usize,
    random: &mut Random,
) -> Result<u32, Difference> {
    let measured = writing::measure(asked);
    let length = writing::answer(measured, usize::MAX);
    same(library.measure(asked), length, "measuring is not the model's")?;
    let answer = writing::answer(measured, room);
    let mut output = random.bytes(room);
    let mut due = output.clone();
    if answer.0 == ACCEPTED {
        let written = written.ok_or("the Rust does not write what the model accepts")?;
        same(written.len() as i64, answer.1, "the length of what is due is not the model's")?;
        due[..written.len()].copy_from_slice(written);
    }
    same(library.write(asked, &mut output), answer, "the writer's answer is not the model's")?;
    same(output, due, "the output is not as it should be")?;
    Ok(answer.0)
}

/// Demand 3 as a run: what the reader answers of a beginning, but for 1 and 14, it answers of all
/// the bytes with tables at least as large, with the same rows.
pub fn stands(
    library: &mut Library,
    bytes: &[u8],
    cut: usize,
    random: &mut Random,
) -> Result<Compared, Difference> {
    let mut same_choices = random.clone();
    judgement_stands(library, Mode::Bare, bytes, cut, random)?;
    judgement_stands(library, Mode::Keyed, bytes, cut, &mut same_choices).map_err(in_keyed_mode)?;
    input(library, bytes, random)
}

fn judgement_stands(
    library: &mut Library,
    mode: Mode,
    bytes: &[u8],
    cut: usize,
    random: &mut Random,
) -> Result<(), Difference> {
    let beginning = &bytes[..cut];
    let rooms = any_rooms(&reading::read(mode, beginning), random);
    let [records, headers] = rooms.map(|room| random.numbers(room));
    let mut tables = Tables { records, headers };
    let mut larger = tables.clone();
    for table in [&mut larger.records, &mut larger.headers] {
        let more = random.below(9);
        table.extend(random.numbers(more));
    }
    let mut due = larger.clone();
    let early = library.read(mode, beginning, &mut tables);
    if early.0 != MORE_BYTES && early.0 != NO_ROOM {
        put_rows(&mut due.records, &tables.records);
        put_rows(&mut due.headers, &tables.headers);
        same(library.read(mode, bytes, &mut larger), early, "a judgement does not stand")?;
        same(larger, due, "the rows of a judgement do not stand")?;
    }
    Ok(())
}
