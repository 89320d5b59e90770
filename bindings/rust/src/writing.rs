//! Writing: batches of records, and markers.

use alloc::vec::Vec;

use oddrafisk_sys::{self as sys, Entries, HeaderRow, RecordRow};

use crate::{ControlMode, Fields, Kind, Marker, PushRefusal, TimestampType, WriteRefusal};

/// A record to be written, with both its deltas. The default has neither key nor value nor headers,
/// and both deltas 0: of several such records all would have the same offset.
/// [`BatchBuilder::push`] counts by itself.
///
/// ```
/// use oddrafisk::{Batch, BatchBuilder, NewRecord};
///
/// // A batch of which compaction has taken the records between.
/// let mut builder = BatchBuilder::default();
/// for offset_delta in [0, 7] {
///     builder.record(NewRecord { offset_delta, ..NewRecord::default() });
/// }
/// let bytes = builder.to_vec()?;
/// let offsets = Batch::read(&bytes)?.records().map(|record| record.offset()).collect::<Vec<_>>();
/// assert_eq!(offsets, [Some(0), Some(7)]);
/// # Ok::<(), Box<dyn std::error::Error>>(())
/// ```
#[derive(Debug, Clone, Copy, PartialEq, Eq, Hash, Default)]
pub struct NewRecord<'a> {
    /// Its time, counted from the batch's `first_timestamp`.
    pub timestamp_delta: i64,
    /// Its offset, counted from the batch's `base_offset`: 0, 1, 2 and so on where none is left
    /// out.
    pub offset_delta: i32,
    /// Its key; none is null.
    pub key: Option<&'a [u8]>,
    /// Its value; none is null.
    pub value: Option<&'a [u8]>,
    /// Keys and values of its headers. A value that is null is refused in writing, by
    /// [`WrongRow`](WriteRefusal::WrongRow), until request C-15 is there.
    pub headers: &'a [(&'a str, Option<&'a [u8]>)],
}

/// Puts a batch of records together and writes it. [`Marker`] writes the batches that end
/// transactions.
///
/// ```
/// use oddrafisk::{BatchBuilder, Fields, Log};
///
/// let mut log = Vec::new();
/// let mut builder = BatchBuilder::new(Fields { base_offset: 7, ..Fields::default() });
/// builder.push(1_731_657_600_000, Some(b"cookie-1"), Some(b"server-3"), &[])?;
/// builder.push(1_731_657_600_020, Some(b"cookie-2"), None, &[("gate", Some(b"4"))])?;
/// builder.append_to(&mut log)?;
/// builder.next_batch()?.push(1_731_657_600_050, Some(b"cookie-3"), Some(b"server-1"), &[])?;
/// builder.append_to(&mut log)?;
///
/// let batches = Log::new(&log).collect::<Result<Vec<_>, _>>()?;
/// let offsets = batches.iter().flat_map(|batch| batch.records().map(|record| record.offset()));
/// assert!(offsets.eq([Some(7), Some(8), Some(9)]));
/// # Ok::<(), Box<dyn std::error::Error>>(())
/// ```
#[derive(Debug, Clone, Default)]
pub struct BatchBuilder {
    /// The fields of the batch, written as they stand here.
    pub fields: Fields,
    mode: ControlMode,
    records: Vec<RecordRow>,
    headers: Vec<HeaderRow>,
    source: Vec<u8>,
}

impl BatchBuilder {
    /// A batch with these fields, and no records yet.
    ///
    /// ```
    /// use oddrafisk::{BatchBuilder, Fields};
    ///
    /// let builder = BatchBuilder::new(Fields { base_offset: 7, ..Fields::default() });
    /// assert_eq!(oddrafisk::check(&builder.to_vec()?)?.fields.base_offset, 7);
    /// # Ok::<(), Box<dyn std::error::Error>>(())
    /// ```
    pub fn new(fields: Fields) -> Self {
        BatchBuilder {
            fields,
            ..BatchBuilder::default()
        }
    }

    /// The same batch, records and all, in that mode.
    ///
    /// A batch of records has the same bytes in every mode. A builder has one mode, whichever batch
    /// it is at: [`clear`](BatchBuilder::clear) and [`next_batch`](BatchBuilder::next_batch) keep
    /// it, and [`marker`](BatchBuilder::marker) writes by it.
    ///
    /// ```
    /// use oddrafisk::{BatchBuilder, ControlMode};
    ///
    /// let mut builder = BatchBuilder::default();
    /// let bytes = builder.push(1000, Some(b"cookie-1"), None, &[])?.to_vec()?;
    /// assert_eq!(builder.in_mode(ControlMode::Bare).to_vec()?, bytes);
    /// # Ok::<(), Box<dyn std::error::Error>>(())
    /// ```
    pub fn in_mode(self, mode: ControlMode) -> Self {
        BatchBuilder { mode, ..self }
    }

    /// The marker in this builder's mode.
    ///
    /// ```
    /// use oddrafisk::{BatchBuilder, Fields, Log, Marker};
    ///
    /// let producer = Fields { producer_id: 4012, is_transactional: true, ..Fields::default() };
    /// let mut builder = BatchBuilder::new(producer);
    /// let mut log = Vec::new();
    /// builder.push(1000, Some(b"cookie-1"), Some(b"server-3"), &[])?.append_to(&mut log)?;
    /// builder.next_batch()?;
    /// builder.marker(Marker::Commit).append_to(&builder.fields, &mut log)?;
    /// assert!(Log::new(&log).all(|batch| batch.is_ok()));
    /// # Ok::<(), Box<dyn std::error::Error>>(())
    /// ```
    pub fn marker(&self, marker: Marker) -> MarkerBuilder {
        marker.in_mode(self.mode)
    }

    /// Adds a record, at the offset after the last and with this time, in milliseconds since 1970.
    ///
    /// The batch keeps its fields right: `first_timestamp` is the time of the first record,
    /// `last_offset_delta` counts the records, and under create time `max_timestamp` is the
    /// greatest of their times. Under log append `max_timestamp` is what the broker says, and stays
    /// as it is. What is refused changes nothing.
    ///
    /// ```
    /// use oddrafisk::BatchBuilder;
    ///
    /// let mut builder = BatchBuilder::default();
    /// builder.push(1000, Some(b"cookie-1"), Some(b"server-3"), &[])?;
    /// builder.push(1020, Some(b"cookie-2"), None, &[("gate", Some(b"4"))])?;
    /// builder.push(1010, None, None, &[])?;
    /// let fields = &builder.fields;
    /// assert_eq!((fields.first_timestamp, fields.max_timestamp), (1000, 1020));
    /// assert_eq!(fields.last_offset(), Some(2));
    /// # Ok::<(), oddrafisk::PushRefusal>(())
    /// ```
    pub fn push(
        &mut self,
        timestamp: i64,
        key: Option<&[u8]>,
        value: Option<&[u8]>,
        headers: &[(&str, Option<&[u8]>)],
    ) -> Result<&mut Self, PushRefusal> {
        if headers.iter().any(|(_, value)| value.is_none()) {
            return Err(PushRefusal::NullHeaderValue);
        }
        let timestamp_delta = match self.records.last() {
            None => 0,
            Some(_) => timestamp
                .checked_sub(self.fields.first_timestamp)
                .ok_or(PushRefusal::Timestamp)?,
        };
        let offset_delta = self.next_offset_delta()?;
        if self.records.is_empty() {
            self.start_counting(timestamp);
        }
        Ok(self.record(NewRecord {
            timestamp_delta,
            offset_delta,
            key,
            value,
            headers,
        }))
    }

    /// Adds a record with deltas of the caller's own after those that are there.
    ///
    /// `last_offset_delta`, and under create time `max_timestamp`, are raised where the record lies
    /// past them, so that they need not be worked out beforehand. They are never lowered: a batch
    /// may say more than its records need.
    ///
    /// ```
    /// use oddrafisk::{BatchBuilder, NewRecord};
    ///
    /// let mut builder = BatchBuilder::default();
    /// builder.record(NewRecord { offset_delta: 7, ..NewRecord::default() });
    /// assert_eq!(builder.fields.last_offset_delta, 7);
    /// ```
    pub fn record(&mut self, record: NewRecord<'_>) -> &mut Self {
        self.cover(&record);
        let first_header = self.headers.len() as i64;
        for &(key, value) in record.headers {
            let (key_start, key_length) = self.keep(key.as_bytes());
            let (value_start, value_length) = self.keep_nullable(value);
            self.headers
                .push([key_start, key_length, value_start, value_length]);
        }
        let (key_start, key_length) = self.keep_nullable(record.key);
        let (value_start, value_length) = self.keep_nullable(record.value);
        self.records.push([
            record.timestamp_delta,
            record.offset_delta.into(),
            key_start,
            key_length,
            value_start,
            value_length,
            first_header,
            record.headers.len() as i64,
        ]);
        self
    }

    /// Takes the records out, and what follows from them: `first_timestamp`, `last_offset_delta`
    /// and under create time `max_timestamp` are again as in a new batch. The other fields stay,
    /// and the memory is kept for the next batch. Who adds records by their deltas sets
    /// `first_timestamp` again.
    ///
    /// ```
    /// use oddrafisk::BatchBuilder;
    ///
    /// let mut builder = BatchBuilder::default();
    /// builder.push(1000, Some(b"cookie-1"), None, &[])?.push(1020, None, None, &[])?;
    /// builder.clear();
    /// assert_eq!(builder.to_vec()?, BatchBuilder::default().to_vec()?);
    /// # Ok::<(), Box<dyn std::error::Error>>(())
    /// ```
    pub fn clear(&mut self) {
        self.records.clear();
        self.headers.clear();
        self.source.clear();
        let empty = Fields::default();
        self.fields.first_timestamp = empty.first_timestamp;
        self.fields.last_offset_delta = empty.last_offset_delta;
        if self.fields.timestamp_type == TimestampType::CreateTime {
            self.fields.max_timestamp = empty.max_timestamp;
        }
    }

    /// Begins the batch that follows this one in a log: [`clear`](BatchBuilder::clear)s it, after
    /// `base_offset` was moved past its last offset, and `base_sequence`, where there is one, by as
    /// much (0 comes after the greatest). A batch without records has its offsets too.
    ///
    /// It is refused where the offset leaves 64 bits, and then changes nothing.
    ///
    /// ```
    /// use oddrafisk::{BatchBuilder, Fields};
    ///
    /// let mut builder = BatchBuilder::new(Fields { base_offset: 7, ..Fields::default() });
    /// builder.push(1000, None, None, &[])?.push(1020, None, None, &[])?.next_batch()?;
    /// assert_eq!(builder.fields, Fields { base_offset: 9, ..Fields::default() });
    /// # Ok::<(), oddrafisk::PushRefusal>(())
    /// ```
    pub fn next_batch(&mut self) -> Result<&mut Self, PushRefusal> {
        let last = self.fields.last_offset().ok_or(PushRefusal::Offset)?;
        self.fields.base_offset = last.checked_add(1).ok_or(PushRefusal::Offset)?;
        if 0 <= self.fields.base_sequence {
            let taken = i64::from(self.fields.last_offset_delta) + 1;
            let next = i64::from(self.fields.base_sequence) + taken;
            self.fields.base_sequence = next.rem_euclid(1 << 31) as i32;
        }
        self.clear();
        Ok(self)
    }

    /// How many records it has.
    ///
    /// ```
    /// let mut builder = oddrafisk::BatchBuilder::default();
    /// assert_eq!(builder.push(0, None, None, &[])?.len(), 1);
    /// # Ok::<(), oddrafisk::PushRefusal>(())
    /// ```
    pub fn len(&self) -> usize {
        self.records.len()
    }

    /// Whether it has no records.
    ///
    /// ```
    /// assert!(oddrafisk::BatchBuilder::default().is_empty());
    /// ```
    pub fn is_empty(&self) -> bool {
        self.records.is_empty()
    }

    /// How many bytes the batch has when it is written.
    ///
    /// ```
    /// assert_eq!(oddrafisk::BatchBuilder::default().measure(), Ok(61));
    /// ```
    pub fn measure(&self) -> Result<usize, WriteRefusal> {
        self.asked().measure()
    }

    /// Writes the batch to the start of the output and returns how many bytes it has. A refusal
    /// changes nothing. The records stay: [`next_batch`](BatchBuilder::next_batch) or
    /// [`clear`](BatchBuilder::clear) begins another batch.
    ///
    /// Nobody else may use the output meanwhile, as another process could that maps the same file:
    /// [what a caller owes](crate#what-a-caller-owes).
    ///
    /// ```
    /// let mut output = [0; 100];
    /// let length = oddrafisk::BatchBuilder::default().write(&mut output)?;
    /// assert!(oddrafisk::is_canonical(&output[..length]));
    /// # Ok::<(), oddrafisk::WriteRefusal>(())
    /// ```
    pub fn write(&self, output: &mut [u8]) -> Result<usize, WriteRefusal> {
        self.asked().write(output)
    }

    /// Writes the batch after what the log has and returns how many bytes it has. A refusal changes
    /// nothing. The records stay: [`next_batch`](BatchBuilder::next_batch) or
    /// [`clear`](BatchBuilder::clear) begins another batch.
    ///
    /// ```
    /// let mut log = Vec::new();
    /// oddrafisk::BatchBuilder::default().append_to(&mut log)?;
    /// assert_eq!(log.len(), 61);
    /// # Ok::<(), oddrafisk::WriteRefusal>(())
    /// ```
    pub fn append_to(&self, log: &mut Vec<u8>) -> Result<usize, WriteRefusal> {
        self.asked().append_to(log)
    }

    /// The batch as bytes of its own. The records stay.
    ///
    /// ```
    /// assert_eq!(oddrafisk::BatchBuilder::default().to_vec()?.len(), 61);
    /// # Ok::<(), oddrafisk::WriteRefusal>(())
    /// ```
    pub fn to_vec(&self) -> Result<Vec<u8>, WriteRefusal> {
        self.asked().to_vec()
    }

    fn asked(&self) -> Asked<'_> {
        Asked {
            mode: self.mode,
            entries: self.fields.to_entries(Kind::Records, self.records.len()),
            records: &self.records,
            headers: &self.headers,
            source: &self.source,
        }
    }

    /// The offset after the last, which no record lies past, counted from the base offset.
    fn next_offset_delta(&self) -> Result<i32, PushRefusal> {
        let delta = match self.records.last() {
            None => Some(0),
            Some(_) => self.fields.last_offset_delta.checked_add(1),
        };
        let fits = |delta: &i32| {
            self.fields
                .base_offset
                .checked_add((*delta).into())
                .is_some()
        };
        delta.filter(fits).ok_or(PushRefusal::Offset)
    }

    /// The fields of a batch whose first record has this time, as far as they count.
    fn start_counting(&mut self, timestamp: i64) {
        let fields = &mut self.fields;
        fields.first_timestamp = timestamp;
        fields.last_offset_delta = 0;
        if fields.timestamp_type == TimestampType::CreateTime {
            fields.max_timestamp = timestamp;
        }
    }

    fn cover(&mut self, record: &NewRecord<'_>) {
        let fields = &mut self.fields;
        fields.last_offset_delta = fields.last_offset_delta.max(record.offset_delta);
        if fields.timestamp_type == TimestampType::CreateTime {
            let time = fields
                .first_timestamp
                .saturating_add(record.timestamp_delta);
            fields.max_timestamp = fields.max_timestamp.max(time);
        }
    }

    /// Copies bytes to the source, and gives their start and length there.
    fn keep(&mut self, bytes: &[u8]) -> (i64, i64) {
        let start = self.source.len();
        self.source.extend_from_slice(bytes);
        (start as i64, bytes.len() as i64)
    }

    /// The same, where null is start 0 and length -1.
    fn keep_nullable(&mut self, bytes: Option<&[u8]>) -> (i64, i64) {
        bytes.map_or((0, -1), |bytes| self.keep(bytes))
    }
}

/// Writing the batch that ends a transaction: a keyed marker, as brokers write it but for the
/// value. [`in_mode`](Marker::in_mode) names a mode.
impl Marker {
    /// This marker in that mode. In the bare one it cannot be written.
    ///
    /// ```
    /// use oddrafisk::{ControlMode, Marker, WriteRefusal};
    ///
    /// let keyed = Marker::Commit.in_mode(ControlMode::Keyed);
    /// assert_eq!(keyed.measure(), Ok(Marker::Commit.measure()));
    /// let bare = Marker::Commit.in_mode(ControlMode::Bare);
    /// assert_eq!(bare.measure(), Err(WriteRefusal::BareMarker));
    /// ```
    pub fn in_mode(self, mode: ControlMode) -> MarkerBuilder {
        MarkerBuilder { marker: self, mode }
    }

    /// How many bytes the batch that ends a transaction with this marker has when it is written.
    ///
    /// ```
    /// assert_eq!(oddrafisk::Marker::Commit.measure(), 72);
    /// ```
    pub fn measure(self) -> usize {
        self.keyed().measure().expect(NEVER_REFUSED)
    }

    /// Writes that batch to the start of the output and returns how many bytes it has. A refusal,
    /// which is [`ShortOutput`](WriteRefusal::ShortOutput) alone, changes nothing.
    ///
    /// Nobody else may use the output meanwhile, as another process could that maps the same file:
    /// [what a caller owes](crate#what-a-caller-owes).
    ///
    /// ```
    /// use oddrafisk::{Fields, Marker, WriteRefusal};
    ///
    /// let fields = Fields { producer_id: 4012, is_transactional: true, ..Fields::default() };
    /// assert_eq!(Marker::Commit.write(&fields, &mut [0; 72]), Ok(72));
    /// assert_eq!(Marker::Commit.write(&fields, &mut [0; 71]), Err(WriteRefusal::ShortOutput));
    /// ```
    pub fn write(self, fields: &Fields, output: &mut [u8]) -> Result<usize, WriteRefusal> {
        self.keyed().write(fields, output)
    }

    /// Writes that batch after what the log has, and returns how many bytes it has.
    ///
    /// The transaction is the one of the producer that the fields name; `is_transactional` is to be
    /// set for it.
    ///
    /// ```
    /// use oddrafisk::{Batch, Fields, Kind, Marker};
    ///
    /// let fields = Fields { producer_id: 4012, is_transactional: true, ..Fields::default() };
    /// let mut log = Vec::new();
    /// Marker::Commit.append_to(&fields, &mut log);
    /// assert_eq!(Batch::read(&log)?.kind(), Kind::Marker(Marker::Commit));
    /// # Ok::<(), oddrafisk::ReadError>(())
    /// ```
    pub fn append_to(self, fields: &Fields, log: &mut Vec<u8>) -> usize {
        self.keyed().append_to(fields, log).expect(NEVER_REFUSED)
    }

    /// That batch as bytes of its own.
    ///
    /// ```
    /// use oddrafisk::{Fields, Marker};
    ///
    /// let fields = Fields { producer_id: 4012, is_transactional: true, ..Fields::default() };
    /// let bytes = Marker::Commit.to_vec(&fields);
    /// assert_eq!(bytes[61..], [0x14, 0, 0, 0, 8, 0, 0, 0, 1, 1, 0]);
    /// assert!(oddrafisk::is_canonical(&bytes));
    /// ```
    pub fn to_vec(self, fields: &Fields) -> Vec<u8> {
        self.keyed().to_vec(fields).expect(NEVER_REFUSED)
    }

    fn keyed(self) -> MarkerBuilder {
        self.in_mode(ControlMode::Keyed)
    }
}

const NEVER_REFUSED: &str = "a keyed marker is never refused";

/// Writes the batch that ends a transaction with a [`Marker`] in a mode. It is made by
/// [`Marker::in_mode`] or [`BatchBuilder::marker`]. In the bare mode everything is refused, by
/// [`BareMarker`](WriteRefusal::BareMarker).
///
/// ```
/// use oddrafisk::{is_canonical_in, ControlMode, Fields, Marker};
///
/// let fields = Fields { producer_id: 4012, is_transactional: true, ..Fields::default() };
/// let bytes = Marker::Commit.in_mode(ControlMode::Keyed).to_vec(&fields)?;
/// assert!(is_canonical_in(ControlMode::Keyed, &bytes));
/// # Ok::<(), oddrafisk::WriteRefusal>(())
/// ```
#[derive(Debug, Clone, Copy, PartialEq, Eq, Hash)]
pub struct MarkerBuilder {
    marker: Marker,
    mode: ControlMode,
}

impl MarkerBuilder {
    /// The same marker in another mode.
    ///
    /// ```
    /// use oddrafisk::{ControlMode, Marker};
    ///
    /// let marker = Marker::Abort.in_mode(ControlMode::Bare);
    /// assert_eq!(marker.in_mode(ControlMode::Keyed).measure(), Ok(72));
    /// ```
    pub fn in_mode(self, mode: ControlMode) -> Self {
        MarkerBuilder { mode, ..self }
    }

    /// As [`Marker::measure`], in its own mode.
    ///
    /// ```
    /// use oddrafisk::{ControlMode, Marker, WriteRefusal};
    ///
    /// assert_eq!(Marker::Commit.in_mode(ControlMode::Keyed).measure(), Ok(72));
    /// let bare = Marker::Commit.in_mode(ControlMode::Bare);
    /// assert_eq!(bare.measure(), Err(WriteRefusal::BareMarker));
    /// ```
    pub fn measure(self) -> Result<usize, WriteRefusal> {
        self.asked(&Fields::default()).measure()
    }

    /// As [`Marker::write`], in its own mode.
    ///
    /// ```
    /// use oddrafisk::{ControlMode, Fields, Marker, WriteRefusal};
    ///
    /// let fields = Fields { producer_id: 4012, is_transactional: true, ..Fields::default() };
    /// let marker = Marker::Commit.in_mode(ControlMode::Keyed);
    /// assert_eq!(marker.write(&fields, &mut [0; 72]), Ok(72));
    /// assert_eq!(marker.write(&fields, &mut [0; 71]), Err(WriteRefusal::ShortOutput));
    /// ```
    pub fn write(self, fields: &Fields, output: &mut [u8]) -> Result<usize, WriteRefusal> {
        self.asked(fields).write(output)
    }

    /// As [`Marker::append_to`], in its own mode. A refusal changes nothing.
    ///
    /// ```
    /// use oddrafisk::{ControlMode, Fields, Marker};
    ///
    /// let fields = Fields { producer_id: 4012, is_transactional: true, ..Fields::default() };
    /// let mut log = Vec::new();
    /// assert_eq!(Marker::Commit.in_mode(ControlMode::Keyed).append_to(&fields, &mut log), Ok(72));
    /// ```
    pub fn append_to(self, fields: &Fields, log: &mut Vec<u8>) -> Result<usize, WriteRefusal> {
        self.asked(fields).append_to(log)
    }

    /// As [`Marker::to_vec`], in its own mode.
    ///
    /// ```
    /// use oddrafisk::{ControlMode, Fields, Marker};
    ///
    /// let fields = Fields { producer_id: 4012, is_transactional: true, ..Fields::default() };
    /// let marker = Marker::Abort.in_mode(ControlMode::Keyed);
    /// assert_eq!(marker.to_vec(&fields), Ok(Marker::Abort.to_vec(&fields)));
    /// ```
    pub fn to_vec(self, fields: &Fields) -> Result<Vec<u8>, WriteRefusal> {
        self.asked(fields).to_vec()
    }

    fn asked(self, fields: &Fields) -> Asked<'static> {
        Asked {
            mode: self.mode,
            entries: fields.to_entries(Kind::Marker(self.marker), 0),
            records: &[],
            headers: &[],
            source: &[],
        }
    }
}

/// The one codec that is written.
const NO_CODEC: i64 = 0;

/// A batch to be written.
struct Asked<'a> {
    mode: ControlMode,
    entries: Entries,
    records: &'a [RecordRow],
    headers: &'a [HeaderRow],
    source: &'a [u8],
}

impl Asked<'_> {
    fn measure(&self) -> Result<usize, WriteRefusal> {
        let mut answer = [0];
        let number = sys::measure(
            self.mode.number(),
            &self.entries,
            NO_CODEC,
            self.records.as_flattened(),
            self.headers.as_flattened(),
            self.source,
            &mut answer,
        );
        length(number, answer)
    }

    fn write(&self, output: &mut [u8]) -> Result<usize, WriteRefusal> {
        let mut answer = [0];
        let number = sys::write(
            self.mode.number(),
            &self.entries,
            NO_CODEC,
            self.records.as_flattened(),
            self.headers.as_flattened(),
            self.source,
            output,
            &mut answer,
        );
        length(number, answer)
    }

    fn append_to(&self, log: &mut Vec<u8>) -> Result<usize, WriteRefusal> {
        let bytes = self.measure()?;
        let end = log.len();
        log.resize(end + bytes, 0);
        self.write(&mut log[end..])
    }

    fn to_vec(&self) -> Result<Vec<u8>, WriteRefusal> {
        let mut bytes = Vec::new();
        self.append_to(&mut bytes)?;
        Ok(bytes)
    }
}

fn length(number: u32, [bytes]: [i64; 1]) -> Result<usize, WriteRefusal> {
    match number {
        sys::ACCEPTED => Ok(bytes as usize),
        _ => Err(WriteRefusal::of_number(number).expect("what is asked here has no other fault")),
    }
}

#[cfg(test)]
mod tests {
    use super::*;
    use alloc::string::ToString;
    use alloc::vec;

    /// Rows may show the same bytes again and again, so that 2 GiB need not be at hand.
    #[test]
    fn too_long_a_batch_leaves_the_log_as_it_was() {
        let source = vec![0; 1 << 20];
        let records = [[0, 0, 0, -1, 0, 1 << 20, 0, 0]; 2048];
        let asked = |count: usize| Asked {
            mode: ControlMode::Keyed,
            entries: Fields::default().to_entries(Kind::Records, count),
            records: &records,
            headers: &[],
            source: &source,
        };
        assert!(asked(2047).measure().is_ok());
        let mut log = vec![0xAA];
        let refusal = asked(2048).append_to(&mut log).unwrap_err();
        assert_eq!((refusal, refusal.number()), (WriteRefusal::TooLong, 23));
        assert!(refusal.to_string().ends_with("(number 23)"));
        assert_eq!(log, [0xAA]);
    }
}
