//! The Rust's batches to and from the value by which the sides are compared.

use driver::value::{Batch, Header, Record};
use rskafka::protocol::record::{
    self, ControlBatchOrRecords, RecordBatch, RecordBatchCompression, RecordBatchTimestampType,
};

pub fn value(batch: &RecordBatch) -> Batch {
    let ControlBatchOrRecords::Records(records) = &batch.records else {
        panic!("no case has a marker");
    };
    let fields = [
        batch.base_offset,
        batch.partition_leader_epoch.into(),
        batch.last_offset_delta.into(),
        batch.first_timestamp,
        batch.max_timestamp,
        batch.producer_id,
        batch.producer_epoch.into(),
        batch.base_sequence.into(),
        (batch.timestamp_type == RecordBatchTimestampType::LogAppendTime).into(),
        batch.is_transactional.into(),
        0,
    ];
    Batch { fields, records: records.iter().map(record_value).collect() }
}

fn record_value(record: &record::Record) -> Record {
    let headers = record.headers.iter();
    Record {
        timestamp_delta: record.timestamp_delta,
        offset_delta: record.offset_delta.into(),
        key: record.key.clone(),
        value: record.value.clone(),
        headers: headers
            .map(|header| Header {
                key: header.key.clone().into_bytes(),
                value: header.value.clone(),
            })
            .collect(),
    }
}

pub fn record_batch(batch: &Batch, codec: i64) -> RecordBatch {
    let field = |at: usize| batch.fields[at];
    let narrow = |at: usize| i32::try_from(field(at)).expect("32 bits");
    let records = batch.records.iter().map(record_of).collect();
    RecordBatch {
        base_offset: field(0),
        partition_leader_epoch: narrow(1),
        last_offset_delta: narrow(2),
        first_timestamp: field(3),
        max_timestamp: field(4),
        producer_id: field(5),
        producer_epoch: i16::try_from(field(6)).expect("16 bits"),
        base_sequence: narrow(7),
        timestamp_type: match field(8) {
            0 => RecordBatchTimestampType::CreateTime,
            _ => RecordBatchTimestampType::LogAppendTime,
        },
        is_transactional: field(9) == 1,
        records: ControlBatchOrRecords::Records(records),
        compression: match codec {
            0 => RecordBatchCompression::NoCompression,
            _ => RecordBatchCompression::Gzip,
        },
    }
}

fn record_of(record: &Record) -> record::Record {
    let headers = record.headers.iter();
    record::Record {
        timestamp_delta: record.timestamp_delta,
        offset_delta: i32::try_from(record.offset_delta).expect("32 bits"),
        key: record.key.clone(),
        value: record.value.clone(),
        headers: headers
            .map(|header| record::RecordHeader {
                key: String::from_utf8(header.key.clone()).expect("UTF-8"),
                value: header.value.clone(),
            })
            .collect(),
    }
}
