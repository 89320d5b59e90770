//! What a batch is, and views of one that was read.

use alloc::borrow::Cow;
use alloc::vec::Vec;
use core::{fmt, str};

use oddrafisk_sys::{self as sys, Entries, HeaderRow, RecordRow};

/// What the timestamps of a batch are.
///
/// ```
/// use oddrafisk::{Fields, TimestampType};
///
/// assert_eq!(Fields::default().timestamp_type, TimestampType::CreateTime);
/// ```
#[derive(Debug, Clone, Copy, PartialEq, Eq, Hash, Default)]
pub enum TimestampType {
    /// When the records were made.
    #[default]
    CreateTime = 0,
    /// When the broker appended the batch to its log.
    LogAppendTime = 1,
}

/// Whether the markers that end transactions are read and written.
///
/// Whatever takes no mode has the default, which is [`Keyed`](ControlMode::Keyed): the form that
/// brokers write. Batches of records are the same in both modes. A marker in the form that gave
/// [`Bare`](ControlMode::Bare) its name is refused in either, by
/// [`BareMarker`](crate::Refusal::BareMarker), and [`convert`](crate::convert) makes a keyed one of
/// it.
///
/// ```
/// use oddrafisk::{check, check_in, ControlMode, Fields, Kind, Marker, Refusal};
///
/// let bytes = Marker::Commit.to_vec(&Fields::default());
/// let outline = check(&bytes)?;
/// assert_eq!((outline.kind, outline.bytes), (Kind::Marker(Marker::Commit), 72));
/// assert_eq!(check_in(ControlMode::Keyed, &bytes), Ok(outline));
/// assert_eq!(check_in(ControlMode::Bare, &bytes), Err(Refusal::UnknownControl.into()));
/// # Ok::<(), oddrafisk::ReadError>(())
/// ```
#[derive(Debug, Clone, Copy, PartialEq, Eq, Hash, Default)]
pub enum ControlMode {
    /// No marker at all: what is read and written is batches of records alone. Before version 0.4.0
    /// a marker was version and type alone here, four bytes after the fixed fields, as the Rust
    /// crate rskafka has it.
    Bare,
    /// A record whose key begins with version and type, as brokers write it. What else is in that
    /// record is ignored. It is written without anything else; the value of six bytes that brokers
    /// put after the key is read, and makes a marker that is not canonical.
    #[default]
    Keyed,
}

impl ControlMode {
    pub(crate) fn number(self) -> u32 {
        match self {
            ControlMode::Bare => sys::BARE,
            ControlMode::Keyed => sys::KEYED,
        }
    }
}

/// How a transaction ends.
///
/// ```
/// use oddrafisk::{Batch, Fields, Kind, Marker};
///
/// let bytes = Marker::Abort.to_vec(&Fields { producer_id: 4012, ..Fields::default() });
/// assert_eq!(Batch::read(&bytes)?.kind(), Kind::Marker(Marker::Abort));
/// # Ok::<(), oddrafisk::ReadError>(())
/// ```
#[derive(Debug, Clone, Copy, PartialEq, Eq, Hash)]
pub enum Marker {
    /// What the producer wrote in the transaction does not count.
    Abort,
    /// What the producer wrote in the transaction counts.
    Commit,
}

/// What a batch holds.
///
/// ```
/// use oddrafisk::{check, BatchBuilder, Kind};
///
/// let bytes = BatchBuilder::default().to_vec()?;
/// match check(&bytes)?.kind {
///     Kind::Records => println!("records"),
///     Kind::Marker(marker) => println!("the end of a transaction: {marker:?}"),
/// }
/// # Ok::<(), Box<dyn std::error::Error>>(())
/// ```
#[derive(Debug, Clone, Copy, PartialEq, Eq, Hash)]
pub enum Kind {
    /// Records, of which there may be none.
    Records,
    /// The marker that ends a transaction; such a batch has no records.
    Marker(Marker),
}

/// The fields of a batch, as the format has them.
///
/// The default is a batch at offset 0 with no leader epoch, no timestamps, no producer and no
/// transaction: each of those is -1, as Kafka has it.
///
/// ```
/// use oddrafisk::Fields;
///
/// let fields = Fields { base_offset: 7, producer_id: 4012, ..Fields::default() };
/// assert_eq!((fields.producer_epoch, fields.base_sequence), (-1, -1));
/// ```
#[derive(Debug, Clone, Copy, PartialEq, Eq, Hash)]
pub struct Fields {
    /// The offset from which those of the records count. No checksum covers it.
    pub base_offset: i64,
    /// The epoch of the partition's leader. Brokers set it, and no checksum covers it.
    pub partition_leader_epoch: i32,
    /// The offset of the last record, counted from `base_offset`. Compaction may take that record
    /// away and leaves this.
    pub last_offset_delta: i32,
    /// The time, in milliseconds since 1970, from which those of the records count.
    pub first_timestamp: i64,
    /// The greatest time of a record.
    pub max_timestamp: i64,
    /// Who produced the batch, or -1.
    pub producer_id: i64,
    /// The epoch of the producer, or -1.
    pub producer_epoch: i16,
    /// The producer's number for the first record, or -1.
    pub base_sequence: i32,
    /// What the timestamps are.
    pub timestamp_type: TimestampType,
    /// Whether the batch is part of a transaction.
    pub is_transactional: bool,
}

impl Default for Fields {
    fn default() -> Self {
        Fields {
            base_offset: 0,
            partition_leader_epoch: -1,
            last_offset_delta: 0,
            first_timestamp: -1,
            max_timestamp: -1,
            producer_id: -1,
            producer_epoch: -1,
            base_sequence: -1,
            timestamp_type: TimestampType::CreateTime,
            is_transactional: false,
        }
    }
}

impl Fields {
    /// The offset of the last record in the log; none where it leaves 64 bits. The batch that
    /// follows has a base offset above it.
    ///
    /// ```
    /// use oddrafisk::Fields;
    ///
    /// let mut fields = Fields { base_offset: 7, last_offset_delta: 4, ..Fields::default() };
    /// assert_eq!(fields.last_offset(), Some(11));
    /// fields.base_offset = i64::MAX;
    /// assert_eq!(fields.last_offset(), None);
    /// ```
    pub fn last_offset(&self) -> Option<i64> {
        self.base_offset.checked_add(self.last_offset_delta.into())
    }

    /// The reader gives each entry in the width that its field has.
    fn of_entries(entries: &Entries) -> Self {
        Fields {
            base_offset: entries[sys::BASE_OFFSET],
            partition_leader_epoch: entries[sys::PARTITION_LEADER_EPOCH] as i32,
            last_offset_delta: entries[sys::LAST_OFFSET_DELTA] as i32,
            first_timestamp: entries[sys::FIRST_TIMESTAMP],
            max_timestamp: entries[sys::MAX_TIMESTAMP],
            producer_id: entries[sys::PRODUCER_ID],
            producer_epoch: entries[sys::PRODUCER_EPOCH] as i16,
            base_sequence: entries[sys::BASE_SEQUENCE] as i32,
            timestamp_type: match entries[sys::TIMESTAMP_TYPE] {
                0 => TimestampType::CreateTime,
                _ => TimestampType::LogAppendTime,
            },
            is_transactional: entries[sys::IS_TRANSACTIONAL] != 0,
        }
    }

    pub(crate) fn to_entries(self, kind: Kind, records: usize) -> Entries {
        let mut entries = [0; sys::ENTRIES];
        entries[sys::BASE_OFFSET] = self.base_offset;
        entries[sys::PARTITION_LEADER_EPOCH] = self.partition_leader_epoch.into();
        entries[sys::LAST_OFFSET_DELTA] = self.last_offset_delta.into();
        entries[sys::FIRST_TIMESTAMP] = self.first_timestamp;
        entries[sys::MAX_TIMESTAMP] = self.max_timestamp;
        entries[sys::PRODUCER_ID] = self.producer_id;
        entries[sys::PRODUCER_EPOCH] = self.producer_epoch.into();
        entries[sys::BASE_SEQUENCE] = self.base_sequence.into();
        entries[sys::TIMESTAMP_TYPE] = self.timestamp_type as i64;
        entries[sys::IS_TRANSACTIONAL] = self.is_transactional.into();
        entries[sys::KIND] = match kind {
            Kind::Records => sys::KIND_RECORDS,
            Kind::Marker(Marker::Abort) => sys::KIND_ABORT,
            Kind::Marker(Marker::Commit) => sys::KIND_COMMIT,
        };
        entries[sys::RECORDS] = records as i64;
        entries
    }
}

/// What a batch is, without its records: what [`check`](crate::check) tells.
///
/// ```
/// let bytes = oddrafisk::BatchBuilder::default().to_vec()?;
/// let outline = oddrafisk::check(&bytes)?;
/// assert_eq!((outline.records, outline.headers, outline.bytes), (0, 0, 61));
/// # Ok::<(), Box<dyn std::error::Error>>(())
/// ```
#[derive(Debug, Clone, Copy, PartialEq, Eq, Hash)]
pub struct Outline {
    /// Its fields.
    pub fields: Fields,
    /// What it holds.
    pub kind: Kind,
    /// How many records it has.
    pub records: usize,
    /// How many headers all its records have together.
    pub headers: usize,
    /// How many bytes it has.
    pub bytes: usize,
}

impl Outline {
    pub(crate) fn of_entries(entries: &Entries) -> Self {
        Outline {
            fields: Fields::of_entries(entries),
            kind: match entries[sys::KIND] {
                sys::KIND_RECORDS => Kind::Records,
                sys::KIND_ABORT => Kind::Marker(Marker::Abort),
                _ => Kind::Marker(Marker::Commit),
            },
            records: entries[sys::RECORDS] as usize,
            headers: entries[sys::HEADERS] as usize,
            bytes: entries[sys::BYTES] as usize,
        }
    }
}

/// A batch that was read from bytes that live for `'a`.
///
/// Keys and values are parts of the bytes, and may be kept as long as these. The rows that say
/// where they lie live for `'r`: as long as the [`Reader`](crate::Reader) that has them is
/// borrowed, or, where the batch has them itself, as long as is wanted.
///
/// ```
/// # use oddrafisk::{Batch, BatchBuilder};
/// # let bytes = BatchBuilder::default().push(0, Some(b"cookie"), None, &[])?.to_vec()?;
/// let batch = Batch::read(&bytes)?;
/// let keys: Vec<Option<&[u8]>> = batch.records().map(|record| record.key()).collect();
/// drop(batch);
/// assert_eq!(keys, [Some(b"cookie".as_slice())]);
/// # Ok::<(), Box<dyn std::error::Error>>(())
/// ```
#[derive(Clone)]
pub struct Batch<'a, 'r> {
    pub(crate) outline: Outline,
    pub(crate) bytes: &'a [u8],
    pub(crate) records: Cow<'r, [RecordRow]>,
    pub(crate) headers: Cow<'r, [HeaderRow]>,
}

impl<'a> Batch<'a, '_> {
    /// Its fields.
    ///
    /// ```
    /// # let bytes = oddrafisk::BatchBuilder::default().to_vec()?;
    /// assert_eq!(oddrafisk::Batch::read(&bytes)?.fields().base_offset, 0);
    /// # Ok::<(), Box<dyn std::error::Error>>(())
    /// ```
    pub fn fields(&self) -> &Fields {
        &self.outline.fields
    }

    /// What it holds.
    ///
    /// ```
    /// # let bytes = oddrafisk::BatchBuilder::default().to_vec()?;
    /// assert_eq!(oddrafisk::Batch::read(&bytes)?.kind(), oddrafisk::Kind::Records);
    /// # Ok::<(), Box<dyn std::error::Error>>(())
    /// ```
    pub fn kind(&self) -> Kind {
        self.outline.kind
    }

    /// Its own bytes, all of them.
    ///
    /// ```
    /// # let mut bytes = oddrafisk::BatchBuilder::default().to_vec()?;
    /// bytes.extend(b"what follows");
    /// assert_eq!(oddrafisk::Batch::read(&bytes)?.bytes(), &bytes[..61]);
    /// # Ok::<(), Box<dyn std::error::Error>>(())
    /// ```
    pub fn bytes(&self) -> &'a [u8] {
        self.bytes
    }

    /// Its records, in the order of the bytes.
    ///
    /// ```
    /// # use oddrafisk::{Batch, BatchBuilder};
    /// # let bytes = BatchBuilder::default().push(0, None, Some(b"A"), &[])?.to_vec()?;
    /// for record in Batch::read(&bytes)?.records() {
    ///     assert_eq!((record.key(), record.value()), (None, Some(b"A".as_slice())));
    /// }
    /// # Ok::<(), Box<dyn std::error::Error>>(())
    /// ```
    pub fn records(
        &self,
    ) -> impl ExactSizeIterator<Item = Record<'a, '_>> + DoubleEndedIterator + Clone {
        let (bytes, fields, headers) = (self.bytes, &self.outline.fields, &*self.headers);
        self.records.iter().map(move |row| Record {
            bytes,
            fields,
            row,
            headers,
        })
    }

    /// The same batch with rows of its own, so that the [`Reader`](crate::Reader) that read it is
    /// free for the next.
    ///
    /// ```
    /// # use oddrafisk::{BatchBuilder, Reader};
    /// # let bytes = BatchBuilder::default().to_vec()?;
    /// let mut reader = Reader::new();
    /// let first = reader.read(&bytes)?.into_owned();
    /// let second = reader.read(&bytes)?;
    /// assert_eq!(first.fields(), second.fields());
    /// # Ok::<(), Box<dyn std::error::Error>>(())
    /// ```
    pub fn into_owned(self) -> Batch<'a, 'static> {
        Batch {
            outline: self.outline,
            bytes: self.bytes,
            records: Cow::Owned(self.records.into_owned()),
            headers: Cow::Owned(self.headers.into_owned()),
        }
    }
}

impl fmt::Debug for Batch<'_, '_> {
    fn fmt(&self, f: &mut fmt::Formatter<'_>) -> fmt::Result {
        f.debug_struct("Batch")
            .field("outline", &self.outline)
            .finish_non_exhaustive()
    }
}

/// A record of a [`Batch`], with key and value as parts of the bytes.
///
/// ```
/// # use oddrafisk::{Batch, BatchBuilder, Fields};
/// # let mut builder = BatchBuilder::new(Fields { base_offset: 7, ..Fields::default() });
/// # let bytes = builder.push(1000, Some(b"cookie"), None, &[])?.to_vec()?;
/// # let batch = Batch::read(&bytes)?;
/// let record = batch.records().next().unwrap();
/// assert_eq!((record.offset(), record.time()), (Some(7), Some(1000)));
/// assert_eq!((record.key(), record.value()), (Some(b"cookie".as_slice()), None));
/// # Ok::<(), Box<dyn std::error::Error>>(())
/// ```
#[derive(Clone, Copy)]
pub struct Record<'a, 'r> {
    bytes: &'a [u8],
    fields: &'r Fields,
    row: &'r RecordRow,
    headers: &'r [HeaderRow],
}

impl<'a, 'r> Record<'a, 'r> {
    /// Its time, counted from the batch's `first_timestamp`.
    ///
    /// ```
    /// # use oddrafisk::{Batch, BatchBuilder};
    /// # let mut builder = BatchBuilder::default();
    /// # let bytes = builder.push(1000, None, None, &[])?.push(1005, None, None, &[])?.to_vec()?;
    /// # let batch = Batch::read(&bytes)?;
    /// assert!(batch.records().map(|record| record.timestamp_delta()).eq([0, 5]));
    /// # Ok::<(), Box<dyn std::error::Error>>(())
    /// ```
    pub fn timestamp_delta(&self) -> i64 {
        self.row[sys::RECORD_TIMESTAMP_DELTA]
    }

    /// Its offset, counted from the batch's `base_offset`.
    ///
    /// ```
    /// # use oddrafisk::{Batch, BatchBuilder};
    /// # let mut builder = BatchBuilder::default();
    /// # let bytes = builder.push(0, None, None, &[])?.push(0, None, None, &[])?.to_vec()?;
    /// # let batch = Batch::read(&bytes)?;
    /// assert!(batch.records().map(|record| record.offset_delta()).eq([0, 1]));
    /// # Ok::<(), Box<dyn std::error::Error>>(())
    /// ```
    pub fn offset_delta(&self) -> i32 {
        self.row[sys::RECORD_OFFSET_DELTA] as i32
    }

    /// Its offset in the log; none where it leaves 64 bits.
    ///
    /// ```
    /// # use oddrafisk::{Batch, BatchBuilder, Fields};
    /// # let mut builder = BatchBuilder::new(Fields { base_offset: 7, ..Fields::default() });
    /// # let bytes = builder.push(0, None, None, &[])?.push(0, None, None, &[])?.to_vec()?;
    /// # let batch = Batch::read(&bytes)?;
    /// assert!(batch.records().map(|record| record.offset()).eq([Some(7), Some(8)]));
    /// # Ok::<(), Box<dyn std::error::Error>>(())
    /// ```
    pub fn offset(&self) -> Option<i64> {
        self.fields
            .base_offset
            .checked_add(self.row[sys::RECORD_OFFSET_DELTA])
    }

    /// Its time, in milliseconds since 1970; none where it leaves 64 bits. See [`record_time`],
    /// also for log append time.
    ///
    /// ```
    /// # use oddrafisk::{Batch, BatchBuilder};
    /// # let mut builder = BatchBuilder::default();
    /// # let bytes = builder.push(1000, None, None, &[])?.push(1005, None, None, &[])?.to_vec()?;
    /// # let batch = Batch::read(&bytes)?;
    /// assert!(batch.records().map(|record| record.time()).eq([Some(1000), Some(1005)]));
    /// # Ok::<(), Box<dyn std::error::Error>>(())
    /// ```
    pub fn time(&self) -> Option<i64> {
        record_time(
            self.fields.timestamp_type,
            self.fields.first_timestamp,
            self.fields.max_timestamp,
            self.timestamp_delta(),
        )
    }

    /// Its key; none is null, which an empty key is not.
    ///
    /// ```
    /// # use oddrafisk::{Batch, BatchBuilder};
    /// # let mut builder = BatchBuilder::default();
    /// # let bytes = builder.push(0, Some(b""), None, &[])?.push(0, None, None, &[])?.to_vec()?;
    /// # let batch = Batch::read(&bytes)?;
    /// assert!(batch.records().map(|record| record.key()).eq([Some(b"".as_slice()), None]));
    /// # Ok::<(), Box<dyn std::error::Error>>(())
    /// ```
    pub fn key(&self) -> Option<&'a [u8]> {
        nullable(
            self.bytes,
            self.row[sys::RECORD_KEY_START],
            self.row[sys::RECORD_KEY_LENGTH],
        )
    }

    /// Its value; none is null, which an empty value is not.
    ///
    /// ```
    /// # use oddrafisk::{Batch, BatchBuilder};
    /// # let mut builder = BatchBuilder::default();
    /// # let bytes = builder.push(0, None, Some(b"A"), &[])?.push(0, None, None, &[])?.to_vec()?;
    /// # let batch = Batch::read(&bytes)?;
    /// assert!(batch.records().map(|record| record.value()).eq([Some(b"A".as_slice()), None]));
    /// # Ok::<(), Box<dyn std::error::Error>>(())
    /// ```
    pub fn value(&self) -> Option<&'a [u8]> {
        nullable(
            self.bytes,
            self.row[sys::RECORD_VALUE_START],
            self.row[sys::RECORD_VALUE_LENGTH],
        )
    }

    /// Its headers, in the order of the bytes.
    ///
    /// ```
    /// # use oddrafisk::{Batch, BatchBuilder};
    /// # let headers = [("gate", Some(b"4".as_slice()))];
    /// # let bytes = BatchBuilder::default().push(0, None, None, &headers)?.to_vec()?;
    /// # let batch = Batch::read(&bytes)?;
    /// # let record = batch.records().next().unwrap();
    /// let gate = record.headers().find(|header| header.key() == "gate");
    /// assert_eq!(gate.unwrap().value(), b"4");
    /// # Ok::<(), Box<dyn std::error::Error>>(())
    /// ```
    pub fn headers(
        &self,
    ) -> impl ExactSizeIterator<Item = Header<'a>> + DoubleEndedIterator + Clone + use<'a, 'r> {
        let bytes = self.bytes;
        let first = self.row[sys::RECORD_FIRST_HEADER] as usize;
        let rows = &self.headers[first..][..self.row[sys::RECORD_HEADERS] as usize];
        rows.iter().map(move |row| Header {
            key: part(
                bytes,
                row[sys::HEADER_KEY_START],
                row[sys::HEADER_KEY_LENGTH],
            ),
            value: part(
                bytes,
                row[sys::HEADER_VALUE_START],
                row[sys::HEADER_VALUE_LENGTH],
            ),
        })
    }
}

impl fmt::Debug for Record<'_, '_> {
    fn fmt(&self, f: &mut fmt::Formatter<'_>) -> fmt::Result {
        f.debug_struct("Record")
            .field("timestamp_delta", &self.timestamp_delta())
            .field("offset_delta", &self.offset_delta())
            .field("key", &self.key())
            .field("value", &self.value())
            .field("headers", &self.headers().collect::<Vec<_>>())
            .finish()
    }
}

/// A header of a [`Record`], with key and value as parts of the bytes.
///
/// ```
/// # use oddrafisk::{Batch, BatchBuilder};
/// # let headers = [("gate", Some(b"4".as_slice())), ("gate", Some(b"5"))];
/// # let bytes = BatchBuilder::default().push(0, None, None, &headers)?.to_vec()?;
/// # let batch = Batch::read(&bytes)?;
/// # let record = batch.records().next().unwrap();
/// // Keys may stand more than once.
/// let gates = record.headers().filter(|header| header.key() == "gate");
/// assert!(gates.map(|header| header.value()).eq([b"4", b"5"]));
/// # Ok::<(), Box<dyn std::error::Error>>(())
/// ```
#[derive(Debug, Clone, Copy, PartialEq, Eq, Hash)]
pub struct Header<'a> {
    key: &'a [u8],
    value: &'a [u8],
}

impl<'a> Header<'a> {
    /// Its key. That it is UTF-8 was judged in reading; to have it as a `str` without `unsafe` it
    /// is looked at once more, in each call. [`key_bytes`](Header::key_bytes) costs nothing.
    ///
    /// ```
    /// # use oddrafisk::{Batch, BatchBuilder};
    /// # let headers = [("gate", Some(b"4".as_slice()))];
    /// # let bytes = BatchBuilder::default().push(0, None, None, &headers)?.to_vec()?;
    /// # let batch = Batch::read(&bytes)?;
    /// # let header = batch.records().next().unwrap().headers().next().unwrap();
    /// assert_eq!(header.key(), "gate");
    /// # Ok::<(), Box<dyn std::error::Error>>(())
    /// ```
    pub fn key(&self) -> &'a str {
        str::from_utf8(self.key).expect("the reader refuses keys that are not UTF-8")
    }

    /// The bytes of its key.
    ///
    /// ```
    /// # use oddrafisk::{Batch, BatchBuilder};
    /// # let headers = [("gate", Some(b"4".as_slice()))];
    /// # let bytes = BatchBuilder::default().push(0, None, None, &headers)?.to_vec()?;
    /// # let batch = Batch::read(&bytes)?;
    /// # let header = batch.records().next().unwrap().headers().next().unwrap();
    /// assert_eq!(header.key_bytes(), b"gate");
    /// # Ok::<(), Box<dyn std::error::Error>>(())
    /// ```
    pub fn key_bytes(&self) -> &'a [u8] {
        self.key
    }

    /// Its value.
    ///
    /// ```
    /// # use oddrafisk::{Batch, BatchBuilder};
    /// # let headers = [("gate", Some(b"4".as_slice()))];
    /// # let bytes = BatchBuilder::default().push(0, None, None, &headers)?.to_vec()?;
    /// # let batch = Batch::read(&bytes)?;
    /// # let header = batch.records().next().unwrap().headers().next().unwrap();
    /// assert_eq!(header.value(), b"4");
    /// # Ok::<(), Box<dyn std::error::Error>>(())
    /// ```
    pub fn value(&self) -> &'a [u8] {
        self.value
    }
}

/// The time of a record with this delta, in a batch with this timestamp type, first and greatest
/// timestamp; none where it leaves 64 bits.
///
/// Under log append Kafka takes the greatest timestamp for the time of every record. This does not
/// yet (request C-12): the first timestamp and the delta are added up, whichever the type.
///
/// ```
/// use oddrafisk::{record_time, TimestampType::CreateTime};
///
/// assert_eq!(record_time(CreateTime, 1000, 2000, -1), Some(999));
/// assert_eq!(record_time(CreateTime, i64::MAX, 2000, 1), None);
/// ```
pub fn record_time(
    timestamp_type: TimestampType,
    first_timestamp: i64,
    max_timestamp: i64,
    delta: i64,
) -> Option<i64> {
    let mut answer = [0];
    let known = sys::record_time(
        timestamp_type as i64,
        first_timestamp,
        max_timestamp,
        delta,
        &mut answer,
    );
    (known != 0).then_some(answer[0])
}

/// What a row's start and length show. They lie in the bytes by the reader's promise, and Rust
/// looks once more.
fn part(bytes: &[u8], start: i64, length: i64) -> &[u8] {
    &bytes[start as usize..][..length as usize]
}

/// The same, where a length of -1 is null.
fn nullable(bytes: &[u8], start: i64, length: i64) -> Option<&[u8]> {
    (length != -1).then(|| part(bytes, start, length))
}
