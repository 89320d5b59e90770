//! Writes the pinning log of a balancer that has seen so many cookies.
//!
//! ```text
//! cargo run --release --example write_log FILE COOKIES
//! ```
//!
//! Cookie `i` is pinned to server `i` modulo 6. Then each fourth cookie moves to the next server in
//! a transaction that is committed, each fifth in one that is aborted, and each tenth is withdrawn.

use std::env;
use std::error::Error;
use std::fs::File;
use std::io::{BufWriter, Write};
use std::process::ExitCode;

use oddrafisk::{BatchBuilder, Fields, Marker};

const SERVERS: u64 = 6;
const RECORDS_IN_A_BATCH: usize = 100;
/// 15 November 2024, 08:00 UTC, in milliseconds since 1970.
const START: i64 = 1_731_657_600_000;
const PRODUCER: i64 = 4012;

/// What a record says: a cookie, and the server that it is pinned to from now on.
type Change = (u64, Option<u64>);

/// A log that is being written. Each record and each marker takes an offset and a millisecond.
struct Writer<W> {
    output: W,
    builder: BatchBuilder,
    bytes: Vec<u8>,
    next_offset: i64,
    next_sequence: i32,
}

impl<W: Write> Writer<W> {
    fn new(output: W) -> Self {
        Writer {
            output,
            builder: BatchBuilder::default(),
            bytes: Vec::new(),
            next_offset: 0,
            next_sequence: 0,
        }
    }

    fn pin(&mut self, changes: impl Iterator<Item = Change>) -> Result<(), Box<dyn Error>> {
        self.write_batches(changes, Fields::default())
    }

    fn transact(
        &mut self,
        changes: impl Iterator<Item = Change>,
        marker: Marker,
    ) -> Result<(), Box<dyn Error>> {
        let producer = Fields {
            producer_id: PRODUCER,
            producer_epoch: 0,
            is_transactional: true,
            ..Fields::default()
        };
        self.write_batches(changes, producer)?;
        let fields = self.at_next_offset(producer);
        self.bytes.clear();
        marker.append_to(&fields, &mut self.bytes);
        self.output.write_all(&self.bytes)?;
        self.next_offset += 1;
        Ok(())
    }

    fn write_batches(
        &mut self,
        mut changes: impl Iterator<Item = Change>,
        producer: Fields,
    ) -> Result<(), Box<dyn Error>> {
        loop {
            let batch: Vec<Change> = changes.by_ref().take(RECORDS_IN_A_BATCH).collect();
            if batch.is_empty() {
                return Ok(());
            }
            self.write_batch(&batch, producer)?;
        }
    }

    fn write_batch(&mut self, changes: &[Change], producer: Fields) -> Result<(), Box<dyn Error>> {
        self.builder.clear();
        self.builder.fields = self.at_next_offset(producer);
        if producer.is_transactional {
            self.builder.fields.base_sequence = self.next_sequence;
        }
        for (time, &(cookie, server)) in (START + self.next_offset..).zip(changes) {
            let cookie = format!("session-{cookie:016}");
            let server = server.map(|server| format!("rail-node-{:02}", server + 1));
            let server = server.as_ref().map(String::as_bytes);
            self.builder
                .push(time, Some(cookie.as_bytes()), server, &[])?;
        }
        self.bytes.clear();
        self.builder.append_to(&mut self.bytes)?;
        self.output.write_all(&self.bytes)?;
        let next = &self.builder.next_batch()?.fields;
        self.next_offset = next.base_offset;
        if producer.is_transactional {
            self.next_sequence = next.base_sequence;
        }
        Ok(())
    }

    fn at_next_offset(&self, fields: Fields) -> Fields {
        let time = START + self.next_offset;
        Fields {
            base_offset: self.next_offset,
            first_timestamp: time,
            max_timestamp: time,
            ..fields
        }
    }
}

fn write_log(output: impl Write, cookies: u64) -> Result<(), Box<dyn Error>> {
    let next_server = |cookie: u64| (cookie, Some((cookie + 1) % SERVERS));
    let mut log = Writer::new(output);
    log.pin((0..cookies).map(|cookie| (cookie, Some(cookie % SERVERS))))?;
    log.transact((0..cookies).step_by(4).map(next_server), Marker::Commit)?;
    log.transact((0..cookies).step_by(5).map(next_server), Marker::Abort)?;
    log.pin((0..cookies).step_by(10).map(|cookie| (cookie, None)))?;
    log.output.flush()?;
    Ok(())
}

fn main() -> Result<ExitCode, Box<dyn Error>> {
    let mut arguments = env::args_os().skip(1);
    let (Some(file), Some(cookies)) = (arguments.next(), arguments.next()) else {
        eprintln!("write_log FILE COOKIES");
        return Ok(ExitCode::from(2));
    };
    let cookies = cookies.to_string_lossy().parse()?;
    write_log(BufWriter::new(File::create(file)?), cookies)?;
    Ok(ExitCode::SUCCESS)
}
