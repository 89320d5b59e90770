//! The Rust, and what it reads in the words of Oddrafisk's interface.

use std::io::Cursor;
use std::panic::catch_unwind;
use std::sync::atomic::{AtomicBool, Ordering::Relaxed};

use rskafka::protocol::record::{
    ControlBatchOrRecords, ControlBatchRecord, Record, RecordBatch, RecordBatchCompression,
    RecordBatchTimestampType, RecordHeader,
};
use rskafka::protocol::traits::{ReadType, WriteType};

use crate::model::writing::Asked;
use crate::model::{Entries, HEADER_ROW, RECORDS, RECORD_ROW};

/// What the Rust makes of bytes.
pub enum Answer {
    Refused,
    Accepted(Accepted),
    Panicked,
}

pub struct Accepted {
    pub batch: RecordBatch,
    pub consumed: usize,
    /// The bytes that the Rust writes for what it has read.
    pub written: Vec<u8>,
}

impl Answer {
    /// The control batch that the Rust accepts, if it does.
    pub fn control_batch(&self) -> Option<&Accepted> {
        match self {
            Answer::Accepted(accepted) if is_control(&accepted.batch) => Some(accepted),
            _ => None,
        }
    }
}

fn is_control(batch: &RecordBatch) -> bool {
    matches!(batch.records, ControlBatchOrRecords::ControlBatch(_))
}

impl Accepted {
    /// Whether the bytes, all of them, are one batch just as the Rust writes it.
    pub fn is_canonical(&self, bytes: &[u8]) -> bool {
        self.consumed == bytes.len() && self.written == bytes
    }
}

static READING: AtomicBool = AtomicBool::new(false);

/// Whether it is the Rust that panics.
pub fn is_reading() -> bool {
    READING.load(Relaxed)
}

pub fn read(bytes: &[u8]) -> Answer {
    READING.store(true, Relaxed);
    let accepted = catch_unwind(|| {
        let mut cursor = Cursor::new(bytes);
        let batch = RecordBatch::read(&mut cursor).ok()?;
        let written = written(&batch).expect("what was read can be written");
        Some(Accepted { batch, consumed: cursor.position() as usize, written })
    });
    READING.store(false, Relaxed);
    match accepted {
        Ok(Some(accepted)) => Answer::Accepted(accepted),
        Ok(None) => Answer::Refused,
        Err(_) => Answer::Panicked,
    }
}

/// The bytes that the Rust writes, or none where it refuses to.
pub fn written(batch: &RecordBatch) -> Option<Vec<u8>> {
    let mut bytes = Vec::new();
    batch.write(&mut bytes).ok().map(|()| bytes)
}

/// Whether the Rust can write the batch to an output of so many bytes.
pub fn fits(batch: &RecordBatch, bytes: usize) -> bool {
    let mut output = vec![0; bytes];
    batch.write(&mut output.as_mut_slice()).is_ok()
}

/// The records; a marker has none.
pub fn records(batch: &RecordBatch) -> &[Record] {
    match &batch.records {
        ControlBatchOrRecords::Records(records) => records,
        ControlBatchOrRecords::ControlBatch(_) => &[],
    }
}

/// The entries of the batch, so many bytes of which were read.
pub fn entries(batch: &RecordBatch, bytes: usize) -> Entries {
    let kind = match batch.records {
        ControlBatchOrRecords::Records(_) => 0,
        ControlBatchOrRecords::ControlBatch(ControlBatchRecord::Abort) => 1,
        ControlBatchOrRecords::ControlBatch(ControlBatchRecord::Commit) => 2,
    };
    let records = records(batch);
    let headers: usize = records.iter().map(|record| record.headers.len()).sum();
    [
        batch.base_offset,
        batch.partition_leader_epoch.into(),
        batch.last_offset_delta.into(),
        batch.first_timestamp,
        batch.max_timestamp,
        batch.producer_id,
        batch.producer_epoch.into(),
        batch.base_sequence.into(),
        (batch.timestamp_type == RecordBatchTimestampType::LogAppendTime).into(),
        batch.is_transactional.into(),
        kind,
        records.len() as i64,
        headers as i64,
        bytes as i64,
        0,
        0,
    ]
}

/// The value that rows ask for which the model accepts, but for the codec.
pub fn value(asked: &Asked) -> RecordBatch {
    let batch = asked.batch;
    let [epoch, last_delta, sequence] = [batch[1], batch[2], batch[7]].map(|entry| entry as i32);
    RecordBatch {
        base_offset: batch[0],
        partition_leader_epoch: epoch,
        last_offset_delta: last_delta,
        first_timestamp: batch[3],
        max_timestamp: batch[4],
        producer_id: batch[5],
        producer_epoch: batch[6] as i16,
        base_sequence: sequence,
        records: content(asked),
        compression: RecordBatchCompression::NoCompression,
        is_transactional: batch[9] == 1,
        timestamp_type: match batch[8] {
            0 => RecordBatchTimestampType::CreateTime,
            _ => RecordBatchTimestampType::LogAppendTime,
        },
    }
}

fn content(asked: &Asked) -> ControlBatchOrRecords {
    let rows = asked.records.chunks_exact(RECORD_ROW).take(asked.batch[RECORDS].max(0) as usize);
    match asked.batch[10] {
        0 => ControlBatchOrRecords::Records(rows.map(|row| record(asked, row)).collect()),
        1 => ControlBatchOrRecords::ControlBatch(ControlBatchRecord::Abort),
        _ => ControlBatchOrRecords::ControlBatch(ControlBatchRecord::Commit),
    }
}

fn record(asked: &Asked, row: &[i64]) -> Record {
    let shown =
        |start: i64, length: i64| asked.source[start as usize..][..length as usize].to_vec();
    let nullable = |start, length| (length >= 0).then(|| shown(start, length));
    let header = |row: &[i64]| RecordHeader {
        key: String::from_utf8(shown(row[0], row[1])).expect("the model accepts the key"),
        value: shown(row[2], row[3]),
    };
    let headers = asked.headers.chunks_exact(HEADER_ROW).skip(row[6] as usize);
    Record {
        timestamp_delta: row[0],
        offset_delta: row[1] as i32,
        key: nullable(row[2], row[3]),
        value: nullable(row[4], row[5]),
        headers: headers.take(row[7] as usize).map(header).collect(),
    }
}
