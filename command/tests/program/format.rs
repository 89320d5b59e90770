//! Batches put together from bytes, by document 01's tables.

/// CRC-32C, bit by bit.
pub fn crc32c(bytes: &[u8]) -> u32 {
    !bytes.iter().fold(!0, |sum, &byte| {
        (0..8).fold(sum ^ u32::from(byte), |sum, _| {
            (sum >> 1) ^ (0x82F6_3B78 * (sum & 1))
        })
    })
}

/// The shortest form of a number of varying length.
pub fn varint(n: i64) -> Vec<u8> {
    let mut code = ((n as u64) << 1) ^ ((n >> 63) as u64);
    let mut bytes = Vec::new();
    while 128 <= code {
        bytes.push(code as u8 | 128);
        code >>= 7;
    }
    bytes.push(code as u8);
    bytes
}

fn sized(bytes: Option<&[u8]>) -> Vec<u8> {
    let Some(bytes) = bytes else {
        return varint(-1);
    };
    [varint(bytes.len() as i64).as_slice(), bytes].concat()
}

/// A record to be put together.
#[derive(Clone, Copy, Default)]
pub struct Record<'a> {
    pub timestamp_delta: i64,
    pub offset_delta: i64,
    pub key: Option<&'a [u8]>,
    pub value: Option<&'a [u8]>,
    pub headers: &'a [(&'a [u8], &'a [u8])],
}

impl Record<'_> {
    pub fn bytes(&self) -> Vec<u8> {
        let mut fields = vec![0];
        fields.extend(varint(self.timestamp_delta));
        fields.extend(varint(self.offset_delta));
        fields.extend(sized(self.key));
        fields.extend(sized(self.value));
        fields.extend(varint(self.headers.len() as i64));
        for (key, value) in self.headers {
            fields.extend(sized(Some(key)));
            fields.extend(sized(Some(value)));
        }
        [varint(fields.len() as i64), fields].concat()
    }
}

/// What a batch has besides its records. No two of the default's numbers are equal.
#[derive(Clone, Copy)]
pub struct Head {
    pub base_offset: i64,
    pub partition_leader_epoch: i32,
    pub magic: u8,
    pub attributes: u16,
    pub last_offset_delta: i32,
    pub first_timestamp: i64,
    pub max_timestamp: i64,
    pub producer_id: i64,
    pub producer_epoch: i16,
    pub base_sequence: i32,
}

impl Default for Head {
    fn default() -> Self {
        Head {
            base_offset: 7,
            partition_leader_epoch: 11,
            magic: 2,
            attributes: 0,
            last_offset_delta: 13,
            first_timestamp: 1_731_657_600_017,
            max_timestamp: 1_731_657_600_019,
            producer_id: 23,
            producer_epoch: 29,
            base_sequence: 31,
        }
    }
}

impl Head {
    pub fn at(base_offset: i64) -> Self {
        Head {
            base_offset,
            ..Head::default()
        }
    }

    pub fn with_attributes(attributes: u16) -> Self {
        Head {
            attributes,
            ..Head::default()
        }
    }

    /// A batch with a right length and a right checksum, whatever its count and its body are.
    pub fn with_body(&self, count: i32, body: &[u8]) -> Vec<u8> {
        let mut checked = self.attributes.to_be_bytes().to_vec();
        checked.extend(self.last_offset_delta.to_be_bytes());
        checked.extend(self.first_timestamp.to_be_bytes());
        checked.extend(self.max_timestamp.to_be_bytes());
        checked.extend(self.producer_id.to_be_bytes());
        checked.extend(self.producer_epoch.to_be_bytes());
        checked.extend(self.base_sequence.to_be_bytes());
        checked.extend(count.to_be_bytes());
        checked.extend(body);
        self.with_checked(&checked)
    }

    /// The same from the attributes on.
    pub fn with_checked(&self, checked: &[u8]) -> Vec<u8> {
        let mut bytes = self.base_offset.to_be_bytes().to_vec();
        bytes.extend((checked.len() as i32 + 9).to_be_bytes());
        bytes.extend(self.partition_leader_epoch.to_be_bytes());
        bytes.push(self.magic);
        bytes.extend(crc32c(checked).to_be_bytes());
        bytes.extend(checked);
        bytes
    }

    pub fn with_records(&self, records: &[Record]) -> Vec<u8> {
        let body: Vec<u8> = records.iter().flat_map(Record::bytes).collect();
        self.with_body(records.len() as i32, &body)
    }
}

/// The batch of 69 bytes with the one record that has no key and the value "A".
pub fn one_record() -> Vec<u8> {
    Head::default().with_body(1, &[0x0E, 0, 0, 0, 1, 2, 0x41, 0])
}

/// A control batch with the shortest marker: 0 is an abort, 1 a commit.
pub fn marker(base_offset: i64, control_type: u8) -> Vec<u8> {
    let head = Head {
        base_offset,
        attributes: 0x20,
        ..Head::default()
    };
    head.with_body(1, &[0x14, 0, 0, 0, 8, 0, 0, 0, control_type, 1, 0])
}

/// The same with document 01's bare marker, which is withdrawn.
pub fn bare_marker(base_offset: i64, control_type: u8) -> Vec<u8> {
    let head = Head {
        base_offset,
        attributes: 0x20,
        ..Head::default()
    };
    head.with_body(1, &[0, 0, 0, control_type])
}

/// The record of a keyed marker, as brokers write it: its value has a version and the coordinator's
/// epoch, of six bytes together.
pub fn broker_record(control_type: u8) -> Vec<u8> {
    Record {
        key: Some(&[0, 0, 0, control_type]),
        value: Some(&[0, 0, 0, 0, 0, 5]),
        ..Record::default()
    }
    .bytes()
}

/// A control batch with that record.
pub fn broker_marker(base_offset: i64, control_type: u8) -> Vec<u8> {
    let head = Head {
        base_offset,
        attributes: 0x30,
        ..Head::default()
    };
    head.with_body(1, &broker_record(control_type))
}

/// A batch of so many bytes, from ten thousand to a million: the lengths of its record and its
/// value then have three bytes each.
pub fn of_size(bytes: usize) -> Vec<u8> {
    let value = vec![0x5A; bytes - 61 - 11];
    let batch = Head::default().with_records(&[Record {
        value: Some(&value),
        ..Record::default()
    }]);
    assert_eq!(batch.len(), bytes);
    batch
}

/// The batch with another byte at a place and its checksum as it was.
pub fn altered(mut bytes: Vec<u8>, place: usize, byte: u8) -> Vec<u8> {
    assert_ne!(bytes[place], byte);
    bytes[place] = byte;
    bytes
}

/// A value that is a batch itself: a scan for batches would find it.
pub fn batch_inside_a_value() -> Vec<u8> {
    let inner = Head::at(1 << 40).with_records(&[Record {
        value: Some(b"inner"),
        ..Record::default()
    }]);
    Head::at(41).with_records(&[Record {
        value: Some(&inner),
        ..Record::default()
    }])
}

/// Bytes that begin with no batch: the number, what is wrong, and the bytes.
pub fn faults() -> Vec<(u32, &'static str, Vec<u8>)> {
    [cut_off(), fixed_fields(), records(), markers()].concat()
}

type Faults = Vec<(u32, &'static str, Vec<u8>)>;

fn cut_off() -> Faults {
    let cut = |length: usize| one_record()[..length].to_vec();
    vec![
        (1, "three bytes", cut(3)),
        (1, "eleven bytes", cut(11)),
        (1, "twelve bytes", cut(12)),
        (1, "sixteen bytes", cut(16)),
        (1, "seventeen bytes", cut(17)),
        (1, "the last byte missing", cut(68)),
    ]
}

fn fixed_fields() -> Faults {
    let head = Head::default();
    let magic = |magic| Head { magic, ..head }.with_body(0, &[]);
    let codec = |codec| Head::with_attributes(codec).with_body(0, &[]);
    let length = |last: [u8; 4]| [&[0; 8], last.as_slice(), &[0; 60]].concat();
    vec![
        (2, "a length of 8", length([0, 0, 0, 8])),
        (2, "a length of -1", length([255; 4])),
        (3, "magic 1", magic(1)),
        (3, "magic -1", magic(255)),
        (
            4,
            "another checksum",
            altered(one_record(), 20, !one_record()[20]),
        ),
        (4, "another value", altered(one_record(), 67, b'B')),
        (5, "codec 5", codec(5)),
        (5, "codec 7", codec(7)),
        (6, "codec 1", codec(1)),
        (6, "codec 4", codec(4)),
        (7, "a count of -2", head.with_body(-2, &[])),
        (8, "a length of 9", head.with_checked(&[])),
        (8, "a count of 1 and no record", head.with_body(1, &[])),
    ]
}

fn records() -> Faults {
    let one = |body: &[u8]| Head::default().with_body(1, body);
    let missing = Head::default().with_body(2, &[0x0C, 0, 0, 0, 1, 1, 0]);
    let headers: [(&[u8], &[u8]); 1] = [(&[0xED, 0xA0, 0x80], b"v")];
    let surrogate = Head::default().with_records(&[Record {
        headers: &headers,
        ..Record::default()
    }]);
    let past = one(&[0x0E, 0, 0, 0, 1, 4, 0x41, 0]);
    let beyond = one(&[0xFF, 0xFF, 0xFF, 0xFF, 0x10]);
    let left_over = one(&[0xC8, 1, 0, 0, 0, 1, 1, 0]);
    vec![
        (8, "a record missing", missing),
        (8, "a value past its record", past),
        (9, "a length beyond its limits", beyond),
        (10, "a key length of -2", one(&[0x0C, 0, 0, 0, 3, 1, 0])),
        (10, "a record length of -1", one(&[1])),
        (11, "a surrogate in a header's key", surrogate),
        (13, "a byte after it", one(&[0x0C, 0, 0, 0, 1, 1, 0, 0])),
        (13, "a length of 100 over six bytes", left_over),
    ]
}

fn markers() -> Faults {
    let control = Head::with_attributes(0x20);
    let keyed = |key: &[u8]| {
        let record = Record {
            key: Some(key),
            ..Record::default()
        };
        control.with_body(1, &record.bytes())
    };
    let after = [marker(7, 0)[61..].to_vec(), vec![0]].concat();
    vec![
        (7, "a marker's count of 2", control.with_body(2, &[0; 4])),
        (7, "a marker's count of -1", control.with_body(-1, &[0; 4])),
        (8, "a marker without a type", control.with_body(1, &[0; 2])),
        (12, "a marker's version 1", keyed(&[0, 1, 0, 0])),
        (12, "a marker's type 2", keyed(&[0, 0, 0, 2])),
        (12, "a marker's key of three bytes", keyed(&[0; 3])),
        (13, "a byte after the marker", control.with_body(1, &after)),
        (41, "a bare marker, an abort", bare_marker(7, 0)),
        (41, "a bare marker, a commit", bare_marker(7, 1)),
    ]
}
