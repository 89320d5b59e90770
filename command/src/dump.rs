//! `oddrafisk dump`: every record of a log, as text or as JSON.

use std::io::{self, Write};

use oddrafisk::{Batch, Fields, Header, Reader, Record, TimestampType};

use crate::arguments::Work;
use crate::console::Console;
use crate::log;
use crate::name::Name;
use crate::quoted;
use crate::verbs::{Flag, Operands, Verb};

const JSON: &str = "--json";
const FIELDS: &str = "--fields";

pub const VERB: Verb = Verb {
    name: "dump",
    about: "a line for each record, as text or as JSON",
    help: "\
A line has the record's offset, its time in milliseconds since 1970, its key, its value and its
headers as \"key\"=value, with a tab between two of them. Bytes that are UTF-8 are a quoted string
as JSON has it, others 0x and their digits, and null is null. An offset or a time that leaves 64
bits is -. With several files a line `# file FILE` comes before the records of each.

With --json a line is an object with \"offset\", \"time\", \"key\", \"value\" and \"headers\", a list of
objects with \"key\" and \"value\"; with several files it has \"file\" too. Bytes that are UTF-8 are a
string, others {\"hex\":\"..\"}; null, and a number that leaves 64 bits, is null. A program that reads
numbers as doubles loses digits of those above 2^53.

With --fields a line comes before the records of each batch: `# place PLACE: ` and each field with
its value, or an object \"batch\" with \"place\" and each field. A marker, which ends a transaction,
has no records: it shows here alone.

Under log append the time of a record is not yet Kafka's: it is the first timestamp and the record's
delta, where Kafka has the greatest timestamp of the batch (request C-12).

Where a log stops, all records before that place have been written.

examples:
  oddrafisk dump 00000000000000000000.log
  oddrafisk dump --fields 00000000000000000000.log | grep '^#'
  oddrafisk dump --json *.log | jq -r 'select(.key == \"session-7\") | .value'
",
    operands: Operands::Files,
    options: &[
        Flag {
            name: JSON,
            about: "write an object of JSON for each record",
        },
        Flag {
            name: FIELDS,
            about: "write the fields of each batch before its records",
        },
    ],
    streams: true,
    run,
};

fn run(work: &Work, console: &mut Console) -> io::Result<()> {
    let several = 1 < work.files.len();
    let (json, fields) = (work.has(JSON), work.has(FIELDS));
    let mut reader = Reader::new().in_mode(work.mode);
    log::each(work, console, |log, console| {
        let file = several.then_some(log.name);
        if let (Some(name), false) = (file, json) {
            writeln!(console, "# file {name}")?;
        }
        log.walk(|place, bytes| {
            let batch = reader.read(bytes)?;
            if json {
                write_json(file, place, &batch, fields, console)?;
            } else {
                write_text(place, &batch, fields, console)?;
            }
            Ok(batch.bytes().len())
        })
    })
}

fn write_text(place: u64, batch: &Batch, fields: bool, output: &mut Console) -> io::Result<()> {
    if fields {
        text_fields(place, batch, output)?;
    }
    for record in batch.records() {
        text_record(&record, output)?;
    }
    Ok(())
}

fn text_fields(place: u64, batch: &Batch, output: &mut Console) -> io::Result<()> {
    write!(output, "# place {place}")?;
    for (at, (name, entry)) in entries(batch).into_iter().enumerate() {
        let gap = if at == 0 { ": " } else { ", " };
        write!(output, "{gap}{name} ")?;
        match entry {
            Entry::Number(number) => write!(output, "{number}")?,
            Entry::Flag(flag) => write!(output, "{flag}")?,
            Entry::Word(word) => write!(output, "{word}")?,
        }
    }
    writeln!(output)
}

fn text_record(record: &Record, output: &mut Console) -> io::Result<()> {
    for number in [record.offset(), record.time()] {
        match number {
            Some(number) => write!(output, "{number}\t")?,
            None => write!(output, "-\t")?,
        }
    }
    quoted::TEXT.write(record.key(), output)?;
    write!(output, "\t")?;
    quoted::TEXT.write(record.value(), output)?;
    for header in record.headers() {
        write!(output, "\t")?;
        quoted::string(header.key(), output)?;
        write!(output, "=")?;
        quoted::TEXT.write(value_of(&header), output)?;
    }
    writeln!(output)
}

fn write_json(
    file: Option<&Name>,
    place: u64,
    batch: &Batch,
    fields: bool,
    output: &mut Console,
) -> io::Result<()> {
    if fields {
        open_object(file, output)?;
        json_fields(place, batch, output)?;
    }
    for record in batch.records() {
        open_object(file, output)?;
        json_record(&record, output)?;
    }
    Ok(())
}

/// Opens an object, with its file where there are several.
fn open_object(file: Option<&Name>, output: &mut Console) -> io::Result<()> {
    write!(output, "{{")?;
    if let Some(name) = file {
        write!(output, "\"file\":")?;
        quoted::JSON.write(Some(name.bytes()), output)?;
        write!(output, ",")?;
    }
    Ok(())
}

fn json_fields(place: u64, batch: &Batch, output: &mut Console) -> io::Result<()> {
    write!(output, "\"batch\":{{\"place\":{place}")?;
    for (name, entry) in entries(batch) {
        write!(output, ",\"{name}\":")?;
        match entry {
            Entry::Number(number) => write!(output, "{number}")?,
            Entry::Flag(flag) => write!(output, "{flag}")?,
            Entry::Word(word) => write!(output, "\"{word}\"")?,
        }
    }
    writeln!(output, "}}}}")
}

fn json_record(record: &Record, output: &mut Console) -> io::Result<()> {
    for (name, number) in [("offset", record.offset()), ("time", record.time())] {
        match number {
            Some(number) => write!(output, "\"{name}\":{number},")?,
            None => write!(output, "\"{name}\":null,")?,
        }
    }
    write!(output, "\"key\":")?;
    quoted::JSON.write(record.key(), output)?;
    write!(output, ",\"value\":")?;
    quoted::JSON.write(record.value(), output)?;
    write!(output, ",\"headers\":[")?;
    for (at, header) in record.headers().enumerate() {
        write!(output, "{}{{\"key\":", if at == 0 { "" } else { "," })?;
        quoted::string(header.key(), output)?;
        write!(output, ",\"value\":")?;
        quoted::JSON.write(value_of(&header), output)?;
        write!(output, "}}")?;
    }
    writeln!(output, "]}}")
}

/// A header's value is never null so far (request C-15).
fn value_of<'a>(header: &Header<'a>) -> Option<&'a [u8]> {
    Some(header.value())
}

/// As Kafka's settings have them.
fn words_of(timestamp_type: TimestampType) -> &'static str {
    match timestamp_type {
        TimestampType::CreateTime => "CreateTime",
        TimestampType::LogAppendTime => "LogAppendTime",
    }
}

enum Entry {
    Number(i64),
    Flag(bool),
    Word(&'static str),
}

/// What a batch says of itself, by name. A field that the format gains has to be entered here.
fn entries(batch: &Batch) -> [(&'static str, Entry); 14] {
    let Fields {
        base_offset,
        partition_leader_epoch,
        last_offset_delta,
        first_timestamp,
        max_timestamp,
        producer_id,
        producer_epoch,
        base_sequence,
        timestamp_type,
        is_transactional,
    } = *batch.fields();
    let headers: usize = batch.records().map(|record| record.headers().len()).sum();
    let count = |items: usize| Entry::Number(items as i64);
    [
        ("base_offset", Entry::Number(base_offset)),
        (
            "partition_leader_epoch",
            Entry::Number(partition_leader_epoch.into()),
        ),
        ("last_offset_delta", Entry::Number(last_offset_delta.into())),
        ("first_timestamp", Entry::Number(first_timestamp)),
        ("max_timestamp", Entry::Number(max_timestamp)),
        ("producer_id", Entry::Number(producer_id)),
        ("producer_epoch", Entry::Number(producer_epoch.into())),
        ("base_sequence", Entry::Number(base_sequence.into())),
        ("timestamp_type", Entry::Word(words_of(timestamp_type))),
        ("is_transactional", Entry::Flag(is_transactional)),
        ("kind", Entry::Word(log::name_of(batch.kind()))),
        ("records", count(batch.records().len())),
        ("headers", count(headers)),
        ("bytes", count(batch.bytes().len())),
    ]
}
