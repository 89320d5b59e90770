//! Markers: what reads and writes them in which mode, by bytes that are put down here.

mod common;

use common::{bare_marker, batch_with_body, marker, one_record, repaired, ZERO};
use oddrafisk::{
    check, check_in, framed, is_canonical, is_canonical_in, Batch, BatchBuilder, ControlMode,
    Fields, Kind, Log, LogError, Marker, NewRecord, Outline, ReadError, Reader, Refusal,
    TimestampType, WriteRefusal,
};
use ControlMode::{Bare, Keyed};

const MODES: [ControlMode; 2] = [Bare, Keyed];

/// No two numbers of it are alike.
const FIELDS: Fields = Fields {
    base_offset: 0x1112_1314_1516_1718,
    partition_leader_epoch: 0x2122_2324,
    last_offset_delta: 0x3132_3334,
    first_timestamp: 0x4142_4344_4546_4748,
    max_timestamp: 0x5152_5354_5556_5758,
    producer_id: 0x6162_6364_6566_6768,
    producer_epoch: 0x7172,
    base_sequence: 0x0A0B_0C0D,
    timestamp_type: TimestampType::CreateTime,
    is_transactional: true,
};

/// A control batch with these fields, put together by document 01's table.
fn control(count: i32, body: &[u8]) -> Vec<u8> {
    let mut bytes = batch_with_body(0x30, count, body);
    bytes[..8].copy_from_slice(&FIELDS.base_offset.to_be_bytes());
    bytes[12..16].copy_from_slice(&FIELDS.partition_leader_epoch.to_be_bytes());
    bytes[23..27].copy_from_slice(&FIELDS.last_offset_delta.to_be_bytes());
    bytes[27..35].copy_from_slice(&FIELDS.first_timestamp.to_be_bytes());
    bytes[35..43].copy_from_slice(&FIELDS.max_timestamp.to_be_bytes());
    bytes[43..51].copy_from_slice(&FIELDS.producer_id.to_be_bytes());
    bytes[51..53].copy_from_slice(&FIELDS.producer_epoch.to_be_bytes());
    bytes[53..57].copy_from_slice(&FIELDS.base_sequence.to_be_bytes());
    repaired(bytes)
}

/// A marker and whether it is canonical, or the refusal.
type Due = Result<(Marker, bool), Refusal>;

const BARE: Due = Err(Refusal::BareMarker);
const ABORT: Due = Ok((Marker::Abort, true));
const COMMIT: Due = Ok((Marker::Commit, true));
const LONGER_ABORT: Due = Ok((Marker::Abort, false));
const LONGER_COMMIT: Due = Ok((Marker::Commit, false));
const UNKNOWN: Due = Err(Refusal::UnknownControl);

/// The count and the body of a control batch, and what it is in the bare mode and in the keyed one.
#[rustfmt::skip]
const CONTROLS: [(i32, &[u8], Due, Due); 24] = [
    (1, &[0x14, 0, 0, 0, 8, 0, 0, 0, 0, 1, 0], UNKNOWN, ABORT),
    (1, &[0x14, 0, 0, 0, 8, 0, 0, 0, 1, 1, 0], UNKNOWN, COMMIT),
    // Bare markers, and what is none for a byte too many, too few or wrong.
    (1, &[0, 0, 0, 0], BARE, BARE),
    (1, &[0, 0, 0, 1], BARE, BARE),
    (1, &[0, 0, 0, 0, 0], Err(Refusal::BytesLeft), Err(Refusal::PastEnd)),
    (1, &[0, 0, 0], Err(Refusal::PastEnd), Err(Refusal::PastEnd)),
    (1, &[0, 1, 0, 0], UNKNOWN, Err(Refusal::PastEnd)),
    (1, &[0, 0, 1, 0], UNKNOWN, Err(Refusal::PastEnd)),
    // As brokers write it, with a value of six bytes.
    (1, &[0x20, 0, 0, 0, 8, 0, 0, 0, 0, 12, 0, 0, 0, 0, 0, 5, 0], UNKNOWN, LONGER_ABORT),
    (1, &[0x20, 0, 0, 0, 8, 0, 0, 0, 1, 12, 0, 0, 0, 0, 0, 0, 0], UNKNOWN, LONGER_COMMIT),
    // A key of five bytes; attributes and deltas that are not 0; a header.
    (1, &[0x16, 0, 0, 0, 10, 0, 0, 0, 1, 0xFF, 1, 0], UNKNOWN, LONGER_COMMIT),
    (1, &[0x14, 9, 3, 5, 8, 0, 0, 0, 0, 1, 0], UNKNOWN, LONGER_ABORT),
    (1, &[0x1C, 0, 0, 0, 8, 0, 0, 0, 1, 1, 2, 2, b'a', 2, b'b'], UNKNOWN, LONGER_COMMIT),
    // A key that is null, of three bytes, or of an unknown version or type.
    (1, &[0x0C, 0, 0, 0, 1, 1, 0], UNKNOWN, UNKNOWN),
    (1, &[0x12, 0, 0, 0, 6, 0, 0, 0, 1, 0], UNKNOWN, UNKNOWN),
    (1, &[0x14, 0, 0, 0, 8, 0, 1, 0, 0, 1, 0], UNKNOWN, UNKNOWN),
    (1, &[0x14, 0, 0, 0, 8, 0, 0, 0, 2, 1, 0], UNKNOWN, UNKNOWN),
    (1, &[0, 0, 0, 2], UNKNOWN, Err(Refusal::PastEnd)),
    // Faults of the record come before those of its key.
    (1, &[0x0C, 0, 0, 0, 1, 1, 0, 0], UNKNOWN, Err(Refusal::BytesLeft)),
    (1, &[0x14, 0, 0, 0, 1, 1, 2, 2, 0xFF, 0, 0], UNKNOWN, Err(Refusal::KeyNotUtf8)),
    (1, &[0xFF, 0xFF, 0xFF, 0xFF, 0x10], UNKNOWN, Err(Refusal::BeyondLimits)),
    (1, &[0x14, 0, 0, 0, 8, 0, 0, 0, 0, 3, 0], UNKNOWN, Err(Refusal::NegativeLength)),
    // Other counts.
    (0, &[0, 0, 0, 0], Err(Refusal::WrongCount), Err(Refusal::WrongCount)),
    (2, &[0x14, 0, 0, 0, 8, 0, 0, 0, 1, 1, 0], Err(Refusal::WrongCount), Err(Refusal::WrongCount)),
];

/// Checks and reads the control batch in a mode, by everything that can.
fn hold(mode: ControlMode, bytes: &[u8], due: Due) {
    let outline = due.map_err(ReadError::from).map(|(marker, _)| Outline {
        fields: FIELDS,
        kind: Kind::Marker(marker),
        records: 0,
        headers: 0,
        bytes: bytes.len(),
    });
    assert_eq!(check_in(mode, bytes), outline, "{mode:?} {bytes:?}");
    let canonical = due.is_ok_and(|(_, canonical)| canonical);
    assert_eq!(
        is_canonical_in(mode, bytes),
        canonical,
        "{mode:?} {bytes:?}"
    );
    let told = |batch: &Batch| {
        assert_eq!((batch.bytes(), batch.records().len()), (bytes, 0));
        (*batch.fields(), batch.kind())
    };
    let due = outline.map(|outline| (outline.fields, outline.kind));
    let mut reader = Reader::new().in_mode(mode);
    assert_eq!(reader.read(bytes).map(|batch| told(&batch)), due);
    let mut log = Log::new(bytes).in_mode(mode);
    let read = log.next().unwrap().map(|batch| told(&batch));
    assert_eq!(read, due.map_err(|reason| LogError { place: 0, reason }));
    assert_eq!(log.place(), if due.is_ok() { bytes.len() } else { 0 });
}

#[test]
fn every_control_batch_has_its_answer_in_both_modes() {
    for (count, body, bare, keyed) in CONTROLS {
        let bytes = control(count, body);
        hold(Bare, &bytes, bare);
        hold(Keyed, &bytes, keyed);
        assert_eq!(check(&bytes), check_in(Keyed, &bytes));
        assert_eq!(is_canonical(&bytes), is_canonical_in(Keyed, &bytes));
        assert_eq!(framed(&bytes), Ok(bytes.len()));
        let read = Batch::read(&bytes).map(|batch| batch.kind());
        assert_eq!(read, check(&bytes).map(|outline| outline.kind));
    }
}

/// Whatever else is wrong with a bare marker has its own number, in either mode.
#[test]
fn faults_come_before_the_bare_marker() {
    let altered = |place: usize, byte: u8| {
        let mut bytes = control(1, &[0, 0, 0, 1]);
        bytes[place] = byte;
        bytes
    };
    let cases = [
        (Refusal::LengthTooSmall, altered(11, 8)),
        (Refusal::UnknownMagic, altered(16, 1)),
        (Refusal::ChecksumDiffers, altered(64, 0)),
        (Refusal::UnknownCodec, repaired(altered(22, 0x35))),
        (Refusal::Compressed, repaired(altered(22, 0x31))),
        (Refusal::WrongCount, repaired(altered(60, 2))),
    ];
    for (refusal, bytes) in cases {
        for mode in MODES {
            hold(mode, &bytes, Err(refusal));
        }
    }
    // Attributes without a meaning are no fault.
    for mode in MODES {
        hold(mode, &repaired(altered(21, 0x80)), BARE);
        hold(mode, &repaired(altered(22, 0xF0)), BARE);
    }
}

#[test]
fn keyed_is_the_default() {
    assert_eq!(ControlMode::default(), Keyed);
    let bytes = marker(1);
    let kind = Kind::Marker(Marker::Commit);
    assert_eq!(Reader::new().read(&bytes).unwrap().kind(), kind);
    assert_eq!(Reader::default().read(&bytes).unwrap().kind(), kind);
    assert_eq!(Batch::read(&bytes).unwrap().kind(), kind);
    assert_eq!(Log::new(&bytes).next().unwrap().unwrap().kind(), kind);
    let builder = BatchBuilder::default();
    assert_eq!(builder.marker(Marker::Abort).measure(), Ok(72));
    assert_eq!(
        BatchBuilder::new(ZERO).marker(Marker::Commit).to_vec(&ZERO),
        Ok(bytes)
    );
    assert_eq!(
        Marker::Abort.in_mode(Keyed).measure(),
        Ok(Marker::Abort.measure())
    );
}

#[test]
fn markers_have_the_bytes_of_the_table() {
    for (kind, control_type) in [(Marker::Abort, 0), (Marker::Commit, 1)] {
        let (written, bytes) = (kind.in_mode(Keyed), marker(control_type));
        assert_eq!(written.measure(), Ok(72));
        assert_eq!(written.to_vec(&ZERO).unwrap(), bytes);
        let mut log = vec![0xAA];
        assert_eq!(written.append_to(&ZERO, &mut log), Ok(72));
        assert_eq!(log, [&[0xAA], &bytes[..]].concat());
        let mut output = [0xAA; 75];
        assert_eq!(written.write(&ZERO, &mut output), Ok(72));
        assert_eq!(output[..72], bytes);
        assert_eq!(output[72..], [0xAA; 3]);
        let mut short = [0xAA; 71];
        assert_eq!(
            written.write(&ZERO, &mut short),
            Err(WriteRefusal::ShortOutput)
        );
        assert_eq!(short, [0xAA; 71]);
    }
    let checksum = &Marker::Abort.to_vec(&ZERO)[17..21];
    assert_eq!(checksum, [0xEC, 0xE5, 0x1F, 0xAE]);
}

#[test]
fn bare_mode_writes_no_marker() {
    for marker in [Marker::Abort, Marker::Commit] {
        let builder = BatchBuilder::default().in_mode(Bare);
        for written in [
            marker.in_mode(Bare),
            marker.in_mode(Keyed).in_mode(Bare),
            builder.marker(marker),
        ] {
            let refusal = WriteRefusal::BareMarker;
            assert_eq!(refusal.number(), 41);
            assert_eq!(written.measure(), Err(refusal));
            assert_eq!(written.to_vec(&FIELDS), Err(refusal));
            let mut log = vec![0xAA];
            assert_eq!(written.append_to(&FIELDS, &mut log), Err(refusal));
            let mut output = [0xAA; 75];
            assert_eq!(written.write(&FIELDS, &mut output), Err(refusal));
            assert_eq!(written.write(&FIELDS, &mut []), Err(refusal));
            assert_eq!((log, output), (vec![0xAA], [0xAA; 75]));
        }
    }
}

/// Who reads has a stored log, and who writes is to write otherwise.
#[test]
fn words_of_41_say_what_to_do() {
    let read = "bare markers are withdrawn; `oddrafisk convert IN OUT` converts a stored log";
    let write = "markers are not written in the bare mode; write them in the keyed mode";
    for (shown, words) in [
        (Refusal::BareMarker.to_string(), read),
        (WriteRefusal::BareMarker.to_string(), write),
    ] {
        assert_eq!(shown, format!("{words} (number 41)"));
    }
}

#[test]
fn markers_read_back_with_their_fields() {
    for marker in [Marker::Abort, Marker::Commit] {
        let bytes = marker.to_vec(&FIELDS);
        hold(Keyed, &bytes, Ok((marker, true)));
        hold(Bare, &bytes, UNKNOWN);
        let written = marker.in_mode(Bare).in_mode(Keyed);
        assert_eq!(written.to_vec(&FIELDS), Ok(bytes));
    }
}

#[test]
fn records_are_the_same_in_both_modes() {
    let mut builder = BatchBuilder::new(FIELDS);
    builder.record(NewRecord {
        timestamp_delta: -70_000,
        offset_delta: 300,
        key: Some(b"\0\0\0\x01"),
        value: Some(b"value"),
        headers: &[("zone", Some(b"norden"))],
    });
    let bytes = builder.to_vec().unwrap();
    let builder = builder.in_mode(Bare);
    assert_eq!(builder.len(), 1);
    assert_eq!(builder.to_vec().unwrap(), bytes);
    assert_eq!(builder.measure(), Ok(bytes.len()));
    for mode in MODES {
        assert_eq!(check_in(mode, &bytes), check(&bytes));
        assert!(is_canonical_in(mode, &bytes));
        assert_eq!(check_in(mode, &one_record()), check(&one_record()));
        let mut reader = Reader::new().in_mode(mode);
        let batch = reader.read(&bytes).unwrap();
        let record = batch.records().next().unwrap();
        assert_eq!(
            (record.key(), record.headers().len()),
            (Some(&b"\0\0\0\x01"[..]), 1)
        );
    }
}

/// A builder has one mode, also after the batches that it has written.
#[test]
fn builder_keeps_its_mode() {
    for (mode, due) in [(Bare, Err(WriteRefusal::BareMarker)), (Keyed, Ok(72))] {
        let mut builder = BatchBuilder::new(Fields {
            base_offset: 70,
            ..FIELDS
        })
        .in_mode(mode);
        let mut log = Vec::new();
        builder.push(1000, Some(b"a"), None, &[]).unwrap();
        builder.append_to(&mut log).unwrap();
        builder.next_batch().unwrap();
        let marker = builder.marker(Marker::Commit);
        assert_eq!(marker.append_to(&builder.fields, &mut log), due);
        builder.clear();
        assert_eq!(builder.marker(Marker::Abort).measure(), due);
        let batches: Vec<_> = Log::new(&log).in_mode(mode).map(Result::unwrap).collect();
        let told: Vec<_> = batches
            .iter()
            .map(|b| (b.fields().base_offset, b.kind()))
            .collect();
        let all = [(70, Kind::Records), (71, Kind::Marker(Marker::Commit))];
        assert_eq!(told, all[..1 + usize::from(due.is_ok())]);
    }
}

/// The mode counts from where the log is, and what has stopped stays so.
#[test]
fn log_goes_on_in_another_mode() {
    let bytes = [one_record(), marker(0), bare_marker(1)].concat();
    for mode in MODES {
        assert!(Log::new(&bytes).in_mode(mode).any(|batch| batch.is_err()));
    }
    let mut log = Log::new(&bytes).in_mode(Bare);
    assert_eq!(log.next().unwrap().unwrap().kind(), Kind::Records);
    let mut log = log.in_mode(Keyed);
    assert_eq!(
        (log.place(), log.next().unwrap().unwrap().kind()),
        (69, Kind::Marker(Marker::Abort))
    );
    let error = LogError {
        place: 141,
        reason: Refusal::BareMarker.into(),
    };
    assert_eq!(log.next().unwrap().unwrap_err(), error);
    let mut log = log.in_mode(Bare);
    assert!(log.next().is_none());
    assert_eq!((log.place(), log.pass_over()), (141, Ok(65)));
    assert_eq!(log.place(), bytes.len());
}

/// A control batch needs no rows: what the reader has shown before is not shown again.
#[test]
fn markers_after_records_have_none() {
    let mut builder = BatchBuilder::default();
    builder
        .push(0, Some(b"a"), Some(b"1"), &[("zone", Some(b"north"))])
        .unwrap();
    let records = builder.to_vec().unwrap();
    let mut reader = Reader::new();
    assert_eq!(reader.read(&records).unwrap().records().len(), 1);
    let bytes = marker(1);
    let batch = reader.read(&bytes).unwrap();
    assert_eq!(
        (batch.kind(), batch.records().len()),
        (Kind::Marker(Marker::Commit), 0)
    );
}
