//! Writing: bytes, fields, markers, refusals, and that what is written reads back.

mod common;

use common::{batch_with_body, marker, one_record, repaired, ZERO};
use oddrafisk::{
    is_canonical, Batch, BatchBuilder, Fields, Kind, Log, Marker, NewRecord, PushRefusal,
    TimestampType, WriteRefusal,
};

/// Every field at an end of its range.
const EXTREME: Fields = Fields {
    base_offset: i64::MIN,
    partition_leader_epoch: i32::MAX,
    last_offset_delta: i32::MIN,
    first_timestamp: i64::MAX,
    max_timestamp: i64::MIN,
    producer_id: i64::MAX,
    producer_epoch: i16::MIN,
    base_sequence: i32::MIN,
    timestamp_type: TimestampType::LogAppendTime,
    is_transactional: true,
};

#[test]
fn bytes_are_those_of_the_table() {
    let record = NewRecord {
        value: Some(b"A"),
        ..NewRecord::default()
    };
    let mut builder = BatchBuilder::new(ZERO);
    assert_eq!(builder.to_vec().unwrap(), batch_with_body(0, 0, &[]));
    assert_eq!(builder.record(record).to_vec().unwrap(), one_record());
    for (kind, bytes) in [(Marker::Abort, marker(0)), (Marker::Commit, marker(1))] {
        let mut log = vec![0xAA];
        assert_eq!(kind.append_to(&ZERO, &mut log), 72);
        assert_eq!(log, [vec![0xAA], bytes].concat());
    }
}

#[test]
fn fields_are_written_as_they_stand() {
    for fields in [ZERO, EXTREME, Fields::default()] {
        let mut log = BatchBuilder::new(fields).to_vec().unwrap();
        Marker::Commit.append_to(&fields, &mut log);
        let batches: Vec<_> = Log::new(&log).map(Result::unwrap).collect();
        assert_eq!(batches.len(), 2);
        for batch in &batches {
            assert_eq!(*batch.fields(), fields);
            assert!(is_canonical(batch.bytes()));
        }
        assert_eq!(batches[0].kind(), Kind::Records);
        assert_eq!(batches[1].kind(), Kind::Marker(Marker::Commit));
    }
}

/// A record with these deltas, and what it makes of the fields that span the records.
fn spanned(builder: &mut BatchBuilder, timestamp_delta: i64, offset_delta: i32) -> (i32, i64) {
    let record = NewRecord {
        timestamp_delta,
        offset_delta,
        ..NewRecord::default()
    };
    builder.record(record);
    (
        builder.fields.last_offset_delta,
        builder.fields.max_timestamp,
    )
}

#[test]
fn records_raise_the_fields_that_span_them() {
    let mut builder = BatchBuilder::new(Fields {
        first_timestamp: 1000,
        ..Fields::default()
    });
    assert_eq!(spanned(&mut builder, 0, 0), (0, 1000));
    assert_eq!(spanned(&mut builder, 50, 1), (1, 1050));
    assert_eq!(spanned(&mut builder, -20, 4), (4, 1050));
    assert_eq!(spanned(&mut builder, i64::MAX, 2), (4, i64::MAX));
}

#[test]
fn records_lower_no_field_and_append_times_stay() {
    let mut builder = BatchBuilder::new(Fields {
        last_offset_delta: 9,
        first_timestamp: 1000,
        timestamp_type: TimestampType::LogAppendTime,
        ..Fields::default()
    });
    assert_eq!(spanned(&mut builder, 50, 1), (9, -1));
}

#[test]
fn records_read_back() {
    let records = [
        NewRecord {
            offset_delta: i32::MAX,
            timestamp_delta: i64::MIN,
            ..NewRecord::default()
        },
        NewRecord {
            key: Some(b"cookie"),
            value: Some(b""),
            headers: &[("zone", Some(b"north")), ("", Some(b""))],
            ..NewRecord::default()
        },
        NewRecord {
            offset_delta: i32::MIN,
            timestamp_delta: i64::MAX,
            key: Some(b""),
            value: Some(&[0xFF; 300]),
            headers: &[("zone", Some(b"south"))],
        },
    ];
    let mut builder = BatchBuilder::new(EXTREME);
    for record in records {
        builder.record(record);
    }
    let bytes = builder.to_vec().unwrap();
    assert!(is_canonical(&bytes));
    let batch = Batch::read(&bytes).unwrap();
    assert_eq!(*batch.fields(), builder.fields);
    assert_eq!(batch.records().len(), records.len());
    for (read, written) in batch.records().zip(records) {
        assert_eq!(read.timestamp_delta(), written.timestamp_delta);
        assert_eq!(read.offset_delta(), written.offset_delta);
        assert_eq!((read.key(), read.value()), (written.key, written.value));
        let headers: Vec<_> = read.headers().map(|h| (h.key(), Some(h.value()))).collect();
        assert_eq!(headers, written.headers);
    }
}

#[test]
fn measure_is_what_is_written() {
    let record = NewRecord {
        key: Some(&[7; 1000]),
        ..NewRecord::default()
    };
    let mut builder = BatchBuilder::default();
    builder.record(record).record(record);
    let bytes = builder.to_vec().unwrap();
    assert_eq!(builder.measure(), Ok(bytes.len()));
    let mut output = vec![0xAA; bytes.len() + 3];
    assert_eq!(builder.write(&mut output), Ok(bytes.len()));
    assert_eq!(output, [bytes, vec![0xAA; 3]].concat());
}

#[test]
fn short_output_stays_untouched() {
    let mut output = [0xAA; 60];
    let refusal = BatchBuilder::default().write(&mut output).unwrap_err();
    assert_eq!((refusal, refusal.number()), (WriteRefusal::ShortOutput, 24));
    assert_eq!(
        refusal.to_string(),
        "the output is shorter than the batch (number 24)"
    );
    assert_eq!(output, [0xAA; 60]);
}

/// What a batch says of the times and offsets of its records: first and greatest time, last offset
/// delta, and of each record offset and time.
fn counted(bytes: &[u8]) -> (i64, i64, i32, Vec<(i64, i64)>) {
    let batch = Batch::read(bytes).unwrap();
    let records = batch.records();
    let shown = records.map(|record| (record.offset().unwrap(), record.time().unwrap()));
    let fields = batch.fields();
    (
        fields.first_timestamp,
        fields.max_timestamp,
        fields.last_offset_delta,
        shown.collect(),
    )
}

#[test]
fn pushed_records_are_counted() {
    let mut builder = BatchBuilder::new(Fields {
        base_offset: 70,
        last_offset_delta: 9,
        first_timestamp: 8000,
        max_timestamp: 9000,
        ..Fields::default()
    });
    for time in [1000, 1050, 980, 1020] {
        builder.push(time, None, None, &[]).unwrap();
    }
    assert_eq!(builder.len(), 4);
    let records = vec![(70, 1000), (71, 1050), (72, 980), (73, 1020)];
    assert_eq!(
        counted(&builder.to_vec().unwrap()),
        (1000, 1050, 3, records)
    );
    assert_eq!(builder.fields.last_offset(), Some(73));
}

/// The fields at document 01's places, and both records byte by byte.
#[test]
fn pushed_records_have_the_bytes_of_the_table() {
    let body = [
        [0x0C, 0, 0, 0, 1, 1, 0],
        [0x0C, 0, 0x64, 2, 1, 1, 0],
        [0x0C, 0, 0x27, 4, 1, 1, 0],
    ];
    let mut bytes = batch_with_body(0, 3, body.as_flattened());
    bytes[..8].copy_from_slice(&70_i64.to_be_bytes());
    bytes[23..27].copy_from_slice(&2_i32.to_be_bytes());
    bytes[27..35].copy_from_slice(&1000_i64.to_be_bytes());
    bytes[35..43].copy_from_slice(&1050_i64.to_be_bytes());
    let mut builder = BatchBuilder::new(Fields {
        base_offset: 70,
        ..ZERO
    });
    for time in [1000, 1050, 980] {
        builder.push(time, None, None, &[]).unwrap();
    }
    assert_eq!(builder.to_vec().unwrap(), repaired(bytes));
}

/// Raw records may go back; what is pushed after them comes after all of them.
#[test]
fn pushed_records_come_after_raw_ones() {
    let mut builder = BatchBuilder::default();
    for offset_delta in [7, 3] {
        builder.record(NewRecord {
            offset_delta,
            ..NewRecord::default()
        });
    }
    builder.push(20, None, None, &[]).unwrap();
    builder.push(30, None, None, &[]).unwrap();
    let records = vec![(7, -1), (3, -1), (8, 20), (9, 30)];
    let bytes = builder.to_vec().unwrap();
    assert_eq!(counted(&bytes), (-1, 30, 9, records));
}

#[test]
fn pushed_times_may_lie_before_1970() {
    let mut builder = BatchBuilder::default();
    builder.push(-500, None, None, &[]).unwrap();
    builder.push(-700, None, None, &[]).unwrap();
    let records = vec![(0, -500), (1, -700)];
    assert_eq!(
        counted(&builder.to_vec().unwrap()),
        (-500, -500, 1, records)
    );
}

#[test]
fn pushed_keys_values_and_headers_read_back() {
    let headers: &[(&str, Option<&[u8]>)] = &[("zone", Some(b"north")), ("", Some(b""))];
    let mut builder = BatchBuilder::default();
    builder.push(1, Some(b"cookie"), None, headers).unwrap();
    builder.push(2, None, Some(b"server"), &[]).unwrap();
    let bytes = builder.to_vec().unwrap();
    assert!(is_canonical(&bytes));
    let batch = Batch::read(&bytes).unwrap();
    let shown: Vec<_> = batch.records().map(|r| (r.key(), r.value())).collect();
    assert_eq!(
        shown,
        [
            (Some(b"cookie".as_slice()), None),
            (None, Some(b"server".as_slice()))
        ]
    );
    let counts: Vec<_> = batch.records().map(|r| r.headers().len()).collect();
    assert_eq!(counts, [2, 0]);
    let first = batch.records().next().unwrap();
    let read: Vec<_> = first
        .headers()
        .map(|h| (h.key(), Some(h.value())))
        .collect();
    assert_eq!(read, headers);
}

#[test]
fn append_times_are_the_broker_s() {
    let mut builder = BatchBuilder::new(Fields {
        max_timestamp: 5000,
        timestamp_type: TimestampType::LogAppendTime,
        ..Fields::default()
    });
    builder.push(1000, None, None, &[]).unwrap();
    builder.push(9000, None, None, &[]).unwrap();
    let times = |fields: &Fields| (fields.first_timestamp, fields.max_timestamp);
    assert_eq!(times(&builder.fields), (1000, 5000));
    assert_eq!(times(&builder.next_batch().unwrap().fields), (-1, 5000));
    builder.push(2000, None, None, &[]).unwrap();
    assert_eq!(times(&builder.fields), (2000, 5000));
    builder.clear();
    assert_eq!(times(&builder.fields), (-1, 5000));
}

/// After each refusal the batch is written as it was before.
#[test]
fn what_cannot_come_next_changes_nothing() {
    let last = |fields: Fields, offset_delta| {
        let mut builder = BatchBuilder::new(fields);
        builder.record(NewRecord {
            offset_delta,
            ..NewRecord::default()
        });
        builder
    };
    let end = Fields {
        base_offset: i64::MAX,
        ..Fields::default()
    };
    let early = Fields {
        first_timestamp: -2,
        ..Fields::default()
    };
    let nothing: &[(&str, Option<&[u8]>)] = &[];
    let null = &[("zone", None)];
    let cases = [
        (
            last(Fields::default(), i32::MAX),
            0,
            nothing,
            PushRefusal::Offset,
        ),
        (last(end, 0), 0, nothing, PushRefusal::Offset),
        (last(early, 0), i64::MAX, nothing, PushRefusal::Timestamp),
        (
            last(Fields::default(), 0),
            0,
            null,
            PushRefusal::NullHeaderValue,
        ),
        (
            BatchBuilder::default(),
            0,
            null,
            PushRefusal::NullHeaderValue,
        ),
    ];
    for (mut builder, time, headers, refusal) in cases {
        let before = builder.to_vec().unwrap();
        let found = builder.push(time, Some(b"k"), None, headers).unwrap_err();
        assert_eq!(found, refusal);
        assert_eq!(builder.to_vec().unwrap(), before, "{refusal}");
    }
    let mut builder = last(early, 0);
    builder.push(i64::MAX - 2, None, None, &[]).unwrap();
    assert_eq!(builder.fields.max_timestamp, i64::MAX - 2);
}

#[test]
fn null_header_value_in_the_raw_form_is_refused_in_writing() {
    let mut builder = BatchBuilder::default();
    builder.record(NewRecord {
        headers: &[("zone", None)],
        ..NewRecord::default()
    });
    let mut output = [0xAA; 100];
    assert_eq!(builder.measure(), Err(WriteRefusal::WrongRow));
    let refusal = builder.write(&mut output).unwrap_err();
    assert_eq!((refusal, refusal.number()), (WriteRefusal::WrongRow, 21));
    assert_eq!(output, [0xAA; 100]);
}

#[test]
fn cleared_builder_starts_afresh() {
    let fields = Fields {
        base_offset: 70,
        producer_id: 4012,
        producer_epoch: 3,
        base_sequence: 5,
        is_transactional: true,
        ..Fields::default()
    };
    let mut builder = BatchBuilder::new(fields);
    builder
        .push(9000, None, None, &[("zone", Some(b"north"))])
        .unwrap();
    builder.push(9500, None, None, &[]).unwrap();
    builder.clear();
    assert_eq!(
        (builder.fields, builder.len(), builder.is_empty()),
        (fields, 0, true)
    );
    builder
        .push(1000, Some(b"k"), None, &[("zone", Some(b"south"))])
        .unwrap();
    let mut alone = BatchBuilder::new(fields);
    alone
        .push(1000, Some(b"k"), None, &[("zone", Some(b"south"))])
        .unwrap();
    assert_eq!(builder.to_vec().unwrap(), alone.to_vec().unwrap());
}

#[test]
fn next_batch_follows_in_the_log() {
    let mut builder = BatchBuilder::new(Fields {
        base_offset: 70,
        base_sequence: i32::MAX - 1,
        ..Fields::default()
    });
    let mut log = Vec::new();
    for times in [[1000, 1010], [1020, 1030]] {
        for time in times {
            builder.push(time, None, None, &[]).unwrap();
        }
        builder.append_to(&mut log).unwrap();
        builder.next_batch().unwrap();
    }
    let batches: Vec<_> = Log::new(&log).map(Result::unwrap).collect();
    let offsets: Vec<_> = batches
        .iter()
        .map(|b| (b.fields().base_offset, b.fields().last_offset()))
        .collect();
    assert_eq!(offsets, [(70, Some(71)), (72, Some(73))]);
    let sequences: Vec<_> = batches.iter().map(|b| b.fields().base_sequence).collect();
    assert_eq!(sequences, [i32::MAX - 1, 0]);
    let fields = Fields {
        base_offset: 74,
        base_sequence: 2,
        ..Fields::default()
    };
    assert_eq!(builder.fields, fields);
}

/// Compaction takes records away and leaves the offsets.
#[test]
fn next_batch_follows_one_with_offsets_left_out() {
    let mut builder = BatchBuilder::new(Fields {
        base_offset: 20,
        last_offset_delta: 9,
        base_sequence: 100,
        ..Fields::default()
    });
    let next = builder.next_batch().unwrap().fields;
    assert_eq!((next.base_offset, next.base_sequence), (30, 110));
    builder.record(NewRecord {
        offset_delta: 4,
        ..NewRecord::default()
    });
    let next = builder.next_batch().unwrap().fields;
    assert_eq!((next.base_offset, next.base_sequence), (35, 115));
    let next = builder.next_batch().unwrap().fields;
    assert_eq!((next.base_offset, next.base_sequence), (36, 116));
}

#[test]
fn no_batch_follows_the_last_offset() {
    let mut builder = BatchBuilder::new(Fields {
        base_offset: i64::MAX,
        ..Fields::default()
    });
    builder.push(1000, Some(b"k"), None, &[]).unwrap();
    let before = builder.to_vec().unwrap();
    assert_eq!(builder.next_batch().unwrap_err(), PushRefusal::Offset);
    assert_eq!(builder.to_vec().unwrap(), before);
    assert!(PushRefusal::Offset.to_string().contains("64 bits"));
}

#[test]
fn markers_are_written_as_batches_are() {
    for (kind, bytes) in [(Marker::Abort, marker(0)), (Marker::Commit, marker(1))] {
        assert_eq!(kind.measure(), 72);
        assert_eq!(kind.to_vec(&ZERO), bytes);
        let mut output = [0xAA; 75];
        assert_eq!(kind.write(&ZERO, &mut output), Ok(72));
        assert_eq!(output.to_vec(), [bytes, vec![0xAA; 3]].concat());
        let mut short = [0xAA; 71];
        let refusal = kind.write(&ZERO, &mut short).unwrap_err();
        assert_eq!((refusal, short), (WriteRefusal::ShortOutput, [0xAA; 71]));
    }
}
