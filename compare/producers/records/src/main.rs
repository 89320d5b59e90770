//! Prints the batches of a log and their records, as the Rust reads them, in the lines of compare/processors/driver.c:
//!
//! ```text
//! records FILE
//! ```
//!
//! It stops where the Rust reads no further.

use std::fmt::Write;
use std::io::Cursor;

use rskafka::protocol::record::{
    ControlBatchOrRecords, ControlBatchRecord, Record, RecordBatch, RecordBatchTimestampType,
};
use rskafka::protocol::traits::ReadType;

fn main() -> Result<(), Box<dyn std::error::Error>> {
    let name = std::env::args().nth(1).ok_or("usage: records FILE")?;
    let log = std::fs::read(name)?;
    let mut at = 0;
    while at < log.len() {
        let mut rest = Cursor::new(&log[at..]);
        let batch = RecordBatch::read(&mut rest)?;
        let size = usize::try_from(rest.position())?;
        print_batch(&batch, size);
        at += size;
    }
    Ok(())
}

fn print_batch(batch: &RecordBatch, size: usize) {
    let (kind, records): (_, &[Record]) = match &batch.records {
        ControlBatchOrRecords::Records(records) => (0, records),
        ControlBatchOrRecords::ControlBatch(ControlBatchRecord::Abort) => (1, &[]),
        ControlBatchOrRecords::ControlBatch(ControlBatchRecord::Commit) => (2, &[]),
    };
    let entries = [
        batch.base_offset,
        batch.partition_leader_epoch.into(),
        batch.last_offset_delta.into(),
        batch.first_timestamp,
        batch.max_timestamp,
        batch.producer_id,
        batch.producer_epoch.into(),
        batch.base_sequence.into(),
        i64::from(batch.timestamp_type == RecordBatchTimestampType::LogAppendTime),
        batch.is_transactional.into(),
        kind,
    ];
    let headers: usize = records.iter().map(|record| record.headers.len()).sum();
    let entries = entries.map(|entry| entry.to_string()).join(" ");
    println!("read 0 {entries} {} {headers} {size} 0 0", records.len());
    for record in records {
        println!("{}", record_line(batch.first_timestamp, record));
    }
}

/// The Rust tells no times. Here a time is the sum that the library gives.
fn record_line(first_timestamp: i64, record: &Record) -> String {
    let time = match first_timestamp.checked_add(record.timestamp_delta) {
        Some(time) => time.to_string(),
        None => "none-0".to_owned(),
    };
    let mut line = format!("record {} {time}", record.offset_delta);
    push_span(&mut line, record.key.as_deref());
    push_span(&mut line, record.value.as_deref());
    for header in &record.headers {
        push_span(&mut line, Some(header.key.as_bytes()));
        push_span(&mut line, Some(&header.value));
    }
    line
}

fn push_span(line: &mut String, bytes: Option<&[u8]>) {
    let Some(bytes) = bytes else {
        line.push_str(" null");
        return;
    };
    line.push_str(" x");
    for byte in bytes {
        write!(line, "{byte:02X}").expect("a String takes all that is written");
    }
}
