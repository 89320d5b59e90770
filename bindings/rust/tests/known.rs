//! A batch in which no two fields are alike, no two numbers of a record and no two keys or values,
//! so that nothing can be taken for anything else. Its bytes are put down one by one, by document
//! 01's tables.

use oddrafisk::{
    check, crc32c, is_canonical, Batch, BatchBuilder, Fields, Kind, Log, NewRecord, Outline,
    Reader, TimestampType,
};

#[rustfmt::skip]
const KNOWN: [u8; 166] = [
    0x11, 0x12, 0x13, 0x14, 0x15, 0x16, 0x17, 0x18, // baseOffset
    0x00, 0x00, 0x00, 0x9A, // batchLength
    0x21, 0x22, 0x23, 0x24, // partitionLeaderEpoch
    0x02, // magic
    0x4F, 0xFC, 0x2A, 0x5C, // crc
    0x00, 0x08, // attributes
    0x31, 0x32, 0x33, 0x34, // lastOffsetDelta
    0x41, 0x42, 0x43, 0x44, 0x45, 0x46, 0x47, 0x48, // firstTimestamp
    0x51, 0x52, 0x53, 0x54, 0x55, 0x56, 0x57, 0x58, // maxTimestamp
    0x61, 0x62, 0x63, 0x64, 0x65, 0x66, 0x67, 0x68, // producerId
    0x71, 0x72, // producerEpoch
    0x0A, 0x0B, 0x0C, 0x0D, // baseSequence
    0x00, 0x00, 0x00, 0x02, // record count
    // a record of 29 bytes: attributes, timestampDelta -70000, offsetDelta 300
    0x3A, 0x00, 0xDF, 0xC5, 0x08, 0xD8, 0x04,
    // key "key", value "value"
    0x06, 0x6B, 0x65, 0x79, 0x0A, 0x76, 0x61, 0x6C, 0x75, 0x65,
    // one header: "zone" = "norden"
    0x02, 0x08, 0x7A, 0x6F, 0x6E, 0x65, 0x0C, 0x6E, 0x6F, 0x72, 0x64, 0x65, 0x6E,
    // a record of 73 bytes: attributes, timestampDelta 5000000000, offsetDelta 40000
    0x92, 0x01, 0x00, 0x80, 0xC8, 0xAF, 0xA0, 0x25, 0x80, 0xF1, 0x04,
    // key "cookie2", value "server-7"
    0x0E, 0x63, 0x6F, 0x6F, 0x6B, 0x69, 0x65, 0x32,
    0x10, 0x73, 0x65, 0x72, 0x76, 0x65, 0x72, 0x2D, 0x37,
    // two headers: "größer!" = "0123456789"
    0x04, 0x12, 0x67, 0x72, 0xC3, 0xB6, 0xC3, 0x9F, 0x65, 0x72, 0x21,
    0x14, 0x30, 0x31, 0x32, 0x33, 0x34, 0x35, 0x36, 0x37, 0x38, 0x39,
    // and "trace-label" = "ABCDEFGHIJKL"
    0x16, 0x74, 0x72, 0x61, 0x63, 0x65, 0x2D, 0x6C, 0x61, 0x62, 0x65, 0x6C,
    0x18, 0x41, 0x42, 0x43, 0x44, 0x45, 0x46, 0x47, 0x48, 0x49, 0x4A, 0x4B, 0x4C,
];

/// Timestamp type and transactional flag have two values only: the one is set and the other not,
/// then the other way round. Attributes and checksum follow them.
struct Way {
    attributes: u8,
    crc: u32,
    timestamp_type: TimestampType,
    is_transactional: bool,
    /// Of each record.
    times: [i64; 2],
}

const WAYS: [Way; 2] = [
    Way {
        attributes: 0x08,
        crc: 0x4FFC_2A5C,
        timestamp_type: TimestampType::LogAppendTime,
        is_transactional: false,
        times: [4_702_394_921_427_219_928, 4_702_394_926_427_289_928],
    },
    Way {
        attributes: 0x10,
        crc: 0x45C1_F758,
        timestamp_type: TimestampType::CreateTime,
        is_transactional: true,
        times: [4_702_394_921_427_219_928, 4_702_394_926_427_289_928],
    },
];

impl Way {
    fn bytes(&self) -> Vec<u8> {
        let mut bytes = KNOWN.to_vec();
        bytes[17..21].copy_from_slice(&self.crc.to_be_bytes());
        bytes[22] = self.attributes;
        bytes
    }

    fn fields(&self) -> Fields {
        Fields {
            base_offset: 0x1112_1314_1516_1718,
            partition_leader_epoch: 0x2122_2324,
            last_offset_delta: 0x3132_3334,
            first_timestamp: 0x4142_4344_4546_4748,
            max_timestamp: 0x5152_5354_5556_5758,
            producer_id: 0x6162_6364_6566_6768,
            producer_epoch: 0x7172,
            base_sequence: 0x0A0B_0C0D,
            timestamp_type: self.timestamp_type,
            is_transactional: self.is_transactional,
        }
    }
}

const RECORDS: [NewRecord; 2] = [
    NewRecord {
        timestamp_delta: -70_000,
        offset_delta: 300,
        key: Some(b"key"),
        value: Some(b"value"),
        headers: &[("zone", Some(b"norden"))],
    },
    NewRecord {
        timestamp_delta: 5_000_000_000,
        offset_delta: 40_000,
        key: Some(b"cookie2"),
        value: Some(b"server-7"),
        headers: &[
            ("größer!", Some(b"0123456789")),
            ("trace-label", Some(b"ABCDEFGHIJKL")),
        ],
    },
];

const OFFSETS: [i64; 2] = [1_230_066_625_199_609_924, 1_230_066_625_199_649_624];

/// Asks for each number, each key and each value by its own name.
fn hold_to_known(batch: &Batch, way: &Way) {
    assert_eq!(*batch.fields(), way.fields());
    assert_eq!(batch.kind(), Kind::Records);
    assert_eq!(batch.bytes(), way.bytes());
    assert_eq!(batch.records().len(), 2);
    for (i, (record, known)) in batch.records().zip(RECORDS).enumerate() {
        assert_eq!(record.timestamp_delta(), known.timestamp_delta);
        assert_eq!(record.offset_delta(), known.offset_delta);
        assert_eq!(record.offset(), Some(OFFSETS[i]));
        assert_eq!(record.time(), Some(way.times[i]));
        assert_eq!(record.key(), known.key);
        assert_eq!(record.value(), known.value);
        assert_eq!(record.headers().len(), known.headers.len());
        for (header, &(key, value)) in record.headers().zip(known.headers) {
            assert_eq!(header.key(), key);
            assert_eq!(header.key_bytes(), key.as_bytes());
            assert_eq!(Some(header.value()), value);
        }
    }
}

#[test]
fn known_batch_is_checked() {
    for way in &WAYS {
        let outline = Outline {
            fields: way.fields(),
            kind: Kind::Records,
            records: 2,
            headers: 3,
            bytes: 166,
        };
        assert_eq!(check(&way.bytes()), Ok(outline));
        assert!(is_canonical(&way.bytes()));
        assert_eq!(crc32c(&way.bytes()[21..]), way.crc);
    }
}

#[test]
fn known_batch_is_read() {
    for way in &WAYS {
        let bytes = way.bytes();
        hold_to_known(&Batch::read(&bytes).unwrap(), way);
        hold_to_known(&Reader::new().read(&bytes).unwrap(), way);
        hold_to_known(&Log::new(&bytes).next().unwrap().unwrap(), way);
    }
}

/// Where keys and values stand in the bytes, by document 01's tables.
#[test]
fn known_batch_shows_its_own_bytes() {
    let batch = Batch::read(&KNOWN).unwrap();
    let keys = [&KNOWN[69..72], &KNOWN[103..110]];
    let values = [&KNOWN[73..78], &KNOWN[111..119]];
    for (i, record) in batch.records().enumerate() {
        assert!(std::ptr::eq(record.key().unwrap(), keys[i]));
        assert!(std::ptr::eq(record.value().unwrap(), values[i]));
    }
    let keys = [&KNOWN[80..84], &KNOWN[121..130], &KNOWN[142..153]];
    let values = [&KNOWN[85..91], &KNOWN[131..141], &KNOWN[154..166]];
    let headers: Vec<_> = batch.records().flat_map(|r| r.headers()).collect();
    assert_eq!(headers.len(), 3);
    for (i, header) in headers.iter().enumerate() {
        assert!(std::ptr::eq(header.key_bytes(), keys[i]));
        assert!(std::ptr::eq(header.value(), values[i]));
    }
}

#[test]
fn known_batch_is_written() {
    for way in &WAYS {
        let mut builder = BatchBuilder::new(way.fields());
        for record in RECORDS {
            builder.record(record);
        }
        assert_eq!(builder.fields, way.fields());
        assert_eq!(builder.measure(), Ok(166));
        assert_eq!(builder.to_vec().unwrap(), way.bytes());
        let mut output = [0xAA; 166 + 5];
        assert_eq!(builder.write(&mut output), Ok(166));
        assert_eq!(output[..166], way.bytes());
        assert_eq!(output[166..], [0xAA; 5]);
    }
}
