//! Reading: document 01's sample, every refusal, views and logs.

mod common;

use std::collections::HashMap;

use common::{bare_marker, batch_with_body, marker, one_record, repaired};
use oddrafisk::{
    check, crc32c, framed, is_canonical, record_time, Batch, BatchBuilder, Fields, Kind, Log,
    LogError, Marker, NewRecord, ReadError, Reader, Refusal, TimestampType,
};

/// Two batches, base 0 without records and base 7 with the one record "A", as document 01 lists
/// them.
fn sample() -> Vec<u8> {
    let mut bytes = BatchBuilder::default().to_vec().unwrap();
    let fields = Fields {
        base_offset: 7,
        ..Fields::default()
    };
    let record = NewRecord {
        value: Some(b"A"),
        ..NewRecord::default()
    };
    BatchBuilder::new(fields)
        .record(record)
        .append_to(&mut bytes)
        .unwrap();
    bytes
}

#[test]
fn sample_is_read_batch_by_batch() {
    let bytes = sample();
    let mut log = Log::new(&bytes);
    let empty = log.next().unwrap().unwrap();
    assert_eq!(
        (empty.fields().base_offset, empty.kind()),
        (0, Kind::Records)
    );
    assert_eq!((empty.bytes(), empty.records().len()), (&bytes[..61], 0));
    assert_eq!(log.place(), 61);
    let batch = log.next().unwrap().unwrap();
    assert_eq!(
        (batch.fields().base_offset, batch.bytes()),
        (7, &bytes[61..])
    );
    let record = batch.records().next().unwrap();
    assert_eq!(
        (record.key(), record.value()),
        (None, Some(b"A".as_slice()))
    );
    assert_eq!((record.offset(), record.headers().len()), (Some(7), 0));
    assert!(log.next().is_none());
    assert_eq!(log.place(), 130);
}

#[test]
fn cut_off_log_names_the_bytes_needed() {
    let bytes = sample();
    for (length, place, needed) in [(3, 0, 12), (16, 0, 17), (60, 0, 61), (61 + 68, 61, 69)] {
        let error = Log::new(&bytes[..length]).find_map(Result::err).unwrap();
        assert_eq!(
            error,
            LogError {
                place,
                reason: ReadError::MoreBytes { needed }
            }
        );
        assert_eq!(
            error.to_string(),
            format!("at {place}: {needed} bytes are needed (number 1)")
        );
        assert_eq!(error.reason.number(), 1);
    }
}

#[test]
fn log_ends_with_the_first_error() {
    let mut bytes = sample();
    bytes[60] ^= 1;
    let mut log = Log::new(&bytes);
    let error = log.next().unwrap().unwrap_err();
    assert_eq!(
        error,
        LogError {
            place: 0,
            reason: Refusal::ChecksumDiffers.into()
        }
    );
    assert_eq!(error.to_string(), "at 0: the checksum differs (number 4)");
    assert!(log.next().is_none());
    assert_eq!(log.place(), 0);
    assert!(format!("{log:?}").contains("stopped: true"));
}

/// For each refusal a smallest batch that has this fault alone; the checksum is right but for 4.
fn refused() -> [(Refusal, u32, Vec<u8>); 13] {
    let edited = |place: usize, value: u8| {
        let mut bytes = one_record();
        bytes[place] = value;
        bytes
    };
    let with_body = |count, body: &[u8]| batch_with_body(0, count, body);
    let header_key_c0 = [0x14, 0, 0, 0, 1, 1, 2, 2, 0xC0, 0, 0];
    [
        (Refusal::LengthTooSmall, 2, edited(11, 8)),
        (Refusal::UnknownMagic, 3, edited(16, 1)),
        (Refusal::ChecksumDiffers, 4, edited(20, 0)),
        (Refusal::UnknownCodec, 5, repaired(edited(22, 5))),
        (Refusal::Compressed, 6, repaired(edited(22, 4))),
        (Refusal::WrongCount, 7, with_body(-2, &[])),
        (Refusal::PastEnd, 8, with_body(1, &[0x0C, 0, 0, 0, 1, 1])),
        (
            Refusal::BeyondLimits,
            9,
            with_body(1, &[0xFF, 0xFF, 0xFF, 0xFF, 0x10]),
        ),
        (
            Refusal::NegativeLength,
            10,
            with_body(1, &[0x0C, 0, 0, 0, 3, 1, 0]),
        ),
        (Refusal::KeyNotUtf8, 11, with_body(1, &header_key_c0)),
        (Refusal::UnknownControl, 12, marker(2)),
        (Refusal::BytesLeft, 13, with_body(0, &[0])),
        (Refusal::BareMarker, 41, bare_marker(1)),
    ]
}

#[test]
fn every_refusal_is_met() {
    for (refusal, number, bytes) in refused() {
        assert_eq!(refusal.number(), number);
        let error = ReadError::Refused(refusal);
        assert_eq!(check(&bytes), Err(error), "{refusal:?}");
        assert_eq!(Batch::read(&bytes).unwrap_err(), error);
        assert_eq!(Reader::new().read(&bytes).unwrap_err(), error);
        assert_eq!(error.number(), number);
        assert_eq!(error.to_string(), refusal.to_string());
        assert!(refusal.to_string().ends_with(&format!("(number {number})")));
        assert!(!is_canonical(&bytes));
    }
}

#[test]
fn refusals_have_words_of_their_own() {
    let mut words: Vec<String> = refused()
        .iter()
        .map(|(refusal, ..)| refusal.to_string())
        .collect();
    words.sort();
    words.dedup();
    assert_eq!(words.len(), 13);
}

#[test]
fn check_tells_all_but_the_records() {
    let bytes = one_record();
    let outline = check(&bytes).unwrap();
    assert_eq!(
        (outline.records, outline.headers, outline.bytes),
        (1, 0, bytes.len())
    );
    assert_eq!(outline.kind, Kind::Records);
    assert_eq!(outline.fields, *Batch::read(&bytes).unwrap().fields());
    let bytes = marker(1);
    let outline = check(&bytes).unwrap();
    assert_eq!(outline.kind, Kind::Marker(Marker::Commit));
    assert_eq!(
        (outline.records, outline.headers, outline.bytes),
        (0, 0, 72)
    );
    assert_eq!(check(&marker(0)).unwrap().kind, Kind::Marker(Marker::Abort));
}

#[test]
fn null_and_empty_differ() {
    let empty = NewRecord {
        key: Some(b""),
        value: Some(b""),
        ..NewRecord::default()
    };
    let mut builder = BatchBuilder::default();
    let bytes = builder
        .record(NewRecord::default())
        .record(empty)
        .to_vec()
        .unwrap();
    let batch = Batch::read(&bytes).unwrap();
    let shown: Vec<_> = batch.records().map(|r| (r.key(), r.value())).collect();
    assert_eq!(shown, [(None, None), (Some(&b""[..]), Some(&b""[..]))]);
}

#[test]
fn keys_and_values_outlive_batches() {
    let bytes = sample();
    let mut values: Vec<&[u8]> = Vec::new();
    for batch in Log::new(&bytes) {
        values.extend(batch.unwrap().records().filter_map(|record| record.value()));
    }
    assert_eq!(values, [b"A"]);
    assert!(std::ptr::eq(values[0], &bytes[128..129]));
}

/// A batch of one record, with this key and value.
fn pinning(base_offset: i64, key: &[u8], value: &[u8]) -> Vec<u8> {
    let fields = Fields {
        base_offset,
        ..Fields::default()
    };
    let mut builder = BatchBuilder::new(fields);
    builder.push(0, Some(key), Some(value), &[]).unwrap();
    builder.to_vec().unwrap()
}

#[test]
fn keys_and_values_outlive_reads_by_one_reader() {
    let first = pinning(0, b"cookie-1", b"server-3");
    let second = pinning(1, b"cookie-2", b"server-4");
    let third = pinning(2, b"cookie-1", b"server-5");
    let mut latest: HashMap<&[u8], &[u8]> = HashMap::new();
    let mut reader = Reader::new();
    for bytes in [&first, &second, &third] {
        let batch = reader.read(bytes).unwrap();
        for record in batch.records() {
            latest.insert(record.key().unwrap(), record.value().unwrap());
        }
    }
    drop(reader);
    assert_eq!(latest.len(), 2);
    assert_eq!(latest[b"cookie-1".as_slice()], b"server-5");
    assert_eq!(latest[b"cookie-2".as_slice()], b"server-4");
}

#[test]
fn batches_may_be_kept_while_their_reader_goes_on() {
    let (first, second) = (pinning(7, b"a", b"1"), pinning(9, b"b", b"2"));
    let mut reader = Reader::new();
    let kept = reader.read(&first).unwrap().into_owned();
    let next = reader.read(&second).unwrap();
    let shown = |batch: &Batch| batch.records().next().unwrap().value().map(<[u8]>::to_vec);
    assert_eq!(
        (kept.fields().base_offset, shown(&kept)),
        (7, Some(b"1".to_vec()))
    );
    assert_eq!(
        (next.fields().base_offset, shown(&next)),
        (9, Some(b"2".to_vec()))
    );
}

#[test]
fn batches_go_to_other_threads() {
    let bytes = [pinning(0, b"a", b"1"), pinning(1, b"b", b"2")].concat();
    let batches: Vec<_> = Log::new(&bytes).map(Result::unwrap).collect();
    let keys = std::thread::scope(|scope| {
        let reading = batches.iter().map(|batch| {
            scope.spawn(|| {
                batch
                    .records()
                    .map(|r| r.key().unwrap())
                    .collect::<Vec<_>>()
            })
        });
        let reading: Vec<_> = reading.collect();
        reading
            .into_iter()
            .flat_map(|thread| thread.join().unwrap())
            .collect::<Vec<_>>()
    });
    assert_eq!(keys, [b"a", b"b"]);
    let reader = std::thread::spawn(Reader::new).join().unwrap();
    assert_eq!(format!("{reader:?}"), "Reader { .. }");
}

/// By document 01's number 1: 12 bytes tell the length, 17 the magic byte.
#[test]
fn length_is_told_by_17_bytes() {
    for bytes in [
        one_record(),
        marker(1),
        bare_marker(1),
        batch_with_body(0, 0, &[]),
    ] {
        for count in 0..=bytes.len() {
            let expected = match count {
                0..12 => Err(ReadError::MoreBytes { needed: 12 }),
                12..17 => Err(ReadError::MoreBytes { needed: 17 }),
                _ => Ok(bytes.len()),
            };
            assert_eq!(framed(&bytes[..count]), expected, "{count} bytes");
        }
    }
}

#[test]
fn length_is_told_of_what_is_refused_but_not_of_what_has_none() {
    for (refusal, number, bytes) in refused() {
        let expected = match number {
            2 | 3 => Err(ReadError::Refused(refusal)),
            _ => Ok(bytes.len()),
        };
        assert_eq!(framed(&bytes), expected, "{refusal:?}");
    }
    let with_length = |length: i32| {
        let mut bytes = one_record();
        bytes[8..12].copy_from_slice(&length.to_be_bytes());
        framed(&bytes)
    };
    assert_eq!(with_length(9), Ok(21));
    assert_eq!(with_length(i32::MAX), Ok(2_147_483_659));
    assert_eq!(with_length(-1), Err(Refusal::LengthTooSmall.into()));
}

/// The middle one of three is damaged, and has a batch in its value: it is not taken for one of the
/// log's.
#[test]
fn log_goes_on_after_damage_by_the_length() {
    let inner = pinning(1 << 40, b"inner", b"5");
    let parts = [
        pinning(0, b"a", b"1"),
        pinning(1, b"b", &inner),
        pinning(2, b"c", b"3"),
    ];
    let (second, third) = (parts[0].len(), parts[0].len() + parts[1].len());
    let mut bytes = parts.concat();
    bytes[second + 30] ^= 1;
    let mut log = Log::new(&bytes);
    assert_eq!(log.next().unwrap().unwrap().fields().base_offset, 0);
    let error = LogError {
        place: second,
        reason: Refusal::ChecksumDiffers.into(),
    };
    assert_eq!(log.next().unwrap().unwrap_err(), error);
    assert!(log.next().is_none());
    assert_eq!(log.pass_over(), Ok(parts[1].len()));
    assert_eq!(log.place(), third);
    assert_eq!(log.next().unwrap().unwrap().fields().base_offset, 2);
    assert!(log.next().is_none());
}

#[test]
fn nothing_is_passed_over_without_a_length() {
    let whole = pinning(0, b"a", b"1");
    let stuck = |bytes: &[u8], reason: ReadError| {
        let mut log = Log::new(bytes);
        assert_eq!(
            log.next().unwrap().unwrap_err(),
            LogError { place: 0, reason }
        );
        assert_eq!(log.pass_over(), Err(LogError { place: 0, reason }));
        assert_eq!(log.place(), 0);
        assert!(log.next().is_none());
    };
    let needed = whole.len();
    stuck(&whole[..needed - 1], ReadError::MoreBytes { needed });
    let mut bytes = whole.clone();
    bytes[16] = 1;
    stuck(&bytes, Refusal::UnknownMagic.into());
    let end = LogError {
        place: needed,
        reason: ReadError::MoreBytes { needed: 12 },
    };
    let mut log = Log::new(&whole);
    assert!(log.next().unwrap().is_ok());
    assert_eq!(log.pass_over(), Err(end));
}

#[test]
fn reader_serves_batches_of_any_size() {
    let mut reader = Reader::new();
    for records in [0, 3, 1, 200, 2] {
        let mut builder = BatchBuilder::default();
        for i in 0..records {
            let value = i.to_string();
            builder.record(NewRecord {
                offset_delta: i,
                value: Some(value.as_bytes()),
                headers: &[("number", Some(value.as_bytes())), ("", Some(b""))],
                ..NewRecord::default()
            });
        }
        let bytes = builder.to_vec().unwrap();
        let batch = reader.read(&bytes).unwrap();
        assert_eq!(batch.records().len(), records as usize);
        for (i, record) in (0..records).zip(batch.records()) {
            let value = i.to_string();
            assert_eq!(record.value(), Some(value.as_bytes()));
            let headers: Vec<_> = record.headers().map(|h| (h.key(), h.value())).collect();
            assert_eq!(headers, [("number", value.as_bytes()), ("", b"")]);
        }
    }
    assert_eq!(format!("{reader:?}"), "Reader { .. }");
}

#[test]
fn headers_have_keys_as_text_and_as_bytes() {
    let record = NewRecord {
        headers: &[("zöne", Some(b"north"))],
        ..NewRecord::default()
    };
    let bytes = BatchBuilder::default().record(record).to_vec().unwrap();
    let batch = Batch::read(&bytes).unwrap();
    let header = batch.records().next().unwrap().headers().next().unwrap();
    assert_eq!(
        (header.key(), header.value()),
        ("zöne", b"north".as_slice())
    );
    assert_eq!(header.key_bytes(), "zöne".as_bytes());
}

#[test]
fn offsets_and_times_that_leave_64_bits_are_none() {
    let fields = Fields {
        base_offset: i64::MAX - 1,
        first_timestamp: i64::MIN + 1,
        ..Fields::default()
    };
    let mut builder = BatchBuilder::new(fields);
    for delta in [1, 2] {
        builder.record(NewRecord {
            offset_delta: delta,
            timestamp_delta: -i64::from(delta),
            ..NewRecord::default()
        });
    }
    let bytes = builder.to_vec().unwrap();
    let batch = Batch::read(&bytes).unwrap();
    let shown: Vec<_> = batch.records().map(|r| (r.offset(), r.time())).collect();
    assert_eq!(shown, [(Some(i64::MAX), Some(i64::MIN)), (None, None)]);
    let deltas: Vec<_> = batch
        .records()
        .map(|r| (r.offset_delta(), r.timestamp_delta()))
        .collect();
    assert_eq!(deltas, [(1, -1), (2, -2)]);
}

/// Where a time is told, first, greatest, delta and time all differ.
#[test]
fn record_times_are_the_library_s() {
    use TimestampType::{CreateTime, LogAppendTime};
    let times = [
        (CreateTime, 1000, 5000, -1, Some(999)),
        (CreateTime, 1000, 5000, 30, Some(1030)),
        (CreateTime, i64::MAX - 1, 5000, 1, Some(i64::MAX)),
        (CreateTime, i64::MAX, 5000, 1, None),
        (CreateTime, i64::MIN + 1, 5000, -1, Some(i64::MIN)),
        (CreateTime, i64::MIN, 5000, -1, None),
        (LogAppendTime, 1000, 5000, -1, Some(999)),
        (LogAppendTime, 1000, 5000, 30, Some(1030)),
        (LogAppendTime, i64::MAX, 5000, 2, None),
    ];
    for (timestamp_type, first, greatest, delta, time) in times {
        assert_eq!(
            record_time(timestamp_type, first, greatest, delta),
            time,
            "{timestamp_type:?} {first} {greatest} {delta}"
        );
    }
}

#[test]
fn debug_shows_records_and_no_tables() {
    let bytes = sample();
    let batch = Batch::read(&bytes[61..]).unwrap();
    assert!(format!("{batch:?}").ends_with("bytes: 69 }, .. }"));
    let record = batch.records().next().unwrap();
    assert!(format!("{record:?}").ends_with("key: None, value: Some([65]), headers: [] }"));
}

#[test]
fn empty_input_has_answers() {
    assert_eq!(check(&[]), Err(ReadError::MoreBytes { needed: 12 }));
    assert!(Log::new(&[]).next().is_none());
    assert!(!is_canonical(&[]));
    assert_eq!(crc32c(&[]), 0);
}
