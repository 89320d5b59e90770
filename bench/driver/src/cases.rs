//! The batches that are measured, each with what both libraries are given.

use crate::oddrafisk::{self, Tables, ENTRIES, RECORDS};
use crate::side::{Operation, Outcome};
use crate::value::Batch;

/// Places of a batch's bytes (document 01, Fixed fields), and the bytes before the records.
pub const BATCH_LENGTH: usize = 8;
const MAGIC: usize = 16;
pub const CRC: usize = 17;
pub const CHECKED: usize = 21;
pub const FIXED: usize = 61;

/// More bytes than a record of these cases has beside its key, its value and its headers.
const MOST_OVERHEAD: usize = 24;

/// The place of the header count in a record row.
const HEADER_COUNT: usize = 7;

/// What a record's key is: `session-` and sixteen digits.
const COOKIE: usize = 24;

/// About how many bytes a record with a value of sixteen bytes has.
const SMALL_RECORD: usize = 50;

/// The headers of a record, of which the first ones are taken.
const WORDS: [(&str, &str); 2] = [("reason", "moved"), ("zone", "north")];

/// How many records a batch has, and of what form they are.
#[derive(Clone, Copy)]
pub struct Form {
    pub records: usize,
    pub value: usize,
    pub headers: usize,
}

/// What a writer is asked for: entries and rows over a source, and a codec.
#[derive(Clone)]
pub struct Asked {
    pub entries: [i64; ENTRIES],
    pub codec: i64,
    pub tables: Tables,
    pub source: Vec<u8>,
}

pub struct Case {
    pub name: &'static str,
    /// What is read and what is checked.
    pub bytes: Vec<u8>,
    /// Oddrafisk's number for these bytes.
    pub reads_as: u32,
    /// What is written, and Oddrafisk's number for it.
    pub asked: Option<(Asked, u32)>,
    /// How many records and headers there are, before any damage.
    pub records: usize,
    pub headers: usize,
}

impl Asked {
    /// A pinning log: cookies as keys, servers as values, some milliseconds between two records.
    pub fn of(form: Form) -> Self {
        let mut source = Vec::new();
        let mut tables = Tables { records: Vec::new(), headers: Vec::new() };
        let mut random = Random(0x9E37_79B9_7F4A_7C15);
        let words: Vec<[i64; 4]> = WORDS
            .iter()
            .map(|(key, value)| {
                let [key, value] = [key, value].map(|word| put(&mut source, word.as_bytes()));
                [key[0], key[1], value[0], value[1]]
            })
            .collect();
        let mut time = 0;
        for at in 0..form.records {
            let key = put(&mut source, format!("session-{at:016}").as_bytes());
            let value = put(&mut source, &random.bytes(form.value));
            let first_header = (at * form.headers) as i64;
            tables.records.extend([time, at as i64, key[0], key[1], value[0], value[1]]);
            tables.records.extend([first_header, form.headers as i64]);
            tables.headers.extend(words[..form.headers].concat());
            time += (random.next() % 200) as i64;
        }
        Self { entries: entries(form.records, time), codec: 0, tables, source }
    }

    /// Whether its rows are those of a batch; one with a negative header count is not.
    pub fn has_value(&self) -> bool {
        let mut rows = self.tables.records.chunks_exact(oddrafisk::RECORD_ROW);
        rows.all(|row| row[HEADER_COUNT] >= 0)
    }

    pub fn value(&self) -> Batch {
        Batch::from_rows(&self.entries, self.entries[RECORDS] as usize, &self.tables, &self.source)
    }

    /// The bytes that Oddrafisk writes.
    pub fn written(&self, form: Form) -> Vec<u8> {
        let words: usize = WORDS[..form.headers].iter().map(|(k, v)| k.len() + v.len() + 2).sum();
        let most = FIXED + form.records * (MOST_OVERHEAD + COOKIE + form.value + words);
        let mut output = vec![0; most];
        let mut answer = [0];
        let Self { entries, codec, tables, source } = self;
        let mode = oddrafisk::KEYED;
        let number =
            oddrafisk::write(mode, entries, *codec, tables, source, &mut output, &mut answer);
        assert_eq!(number, oddrafisk::ACCEPTED, "a case cannot be written");
        output.truncate(answer[0] as usize);
        output
    }
}

impl Case {
    pub fn accepted(name: &'static str, form: Form) -> Self {
        let asked = Asked::of(form);
        Self {
            name,
            bytes: asked.written(form),
            reads_as: oddrafisk::ACCEPTED,
            asked: Some((asked, oddrafisk::ACCEPTED)),
            records: form.records,
            headers: form.records * form.headers,
        }
    }

    pub fn is_accepted(&self) -> bool {
        self.reads_as == oddrafisk::ACCEPTED
    }

    /// What each side is to give, from what the case was made of.
    pub fn expected(&self, operation: Operation) -> Outcome {
        let value = || self.asked.as_ref().map(|(asked, _)| asked.value());
        let accepted = self.is_accepted();
        match operation {
            Operation::Check | Operation::Read => Outcome::Read(accepted.then(value).flatten()),
            Operation::Write => Outcome::Written(accepted.then(|| self.bytes.clone())),
            Operation::Canonical => Outcome::Verdict(accepted),
        }
    }

    /// Tables with just the rows that these records need.
    pub fn tables(&self) -> Tables {
        Tables {
            records: vec![0; self.records * oddrafisk::RECORD_ROW],
            headers: vec![0; self.headers * oddrafisk::HEADER_ROW],
        }
    }

    /// The magic of an older format; and in writing a codec, which is looked at first.
    fn refused_early(mut self) -> Self {
        self.bytes[MAGIC] = 1;
        self.reads_as = 3;
        if let Some((asked, number)) = &mut self.asked {
            asked.codec = 1;
            *number = 20;
        }
        self
    }

    /// One bit of the checksum. No writer is asked for a checksum.
    fn refused_by_checksum(mut self) -> Self {
        self.bytes[CRC] ^= 1;
        self.reads_as = 4;
        self.asked = None;
        self
    }

    /// A header count of -1 as the last byte of the last record, the checksum being right; and in writing in its row.
    fn refused_late(mut self) -> Self {
        *self.bytes.last_mut().expect("a batch has bytes") = 1;
        let crc = oddrafisk::crc32c(&self.bytes[CHECKED..]);
        self.bytes[CRC..CHECKED].copy_from_slice(&crc.to_be_bytes());
        self.reads_as = 10;
        if let Some((asked, number)) = &mut self.asked {
            let last = (self.records - 1) * oddrafisk::RECORD_ROW;
            asked.tables.records[last + HEADER_COUNT] = -1;
            *number = 21;
        }
        self
    }
}

const HUNDRED: Form = Form { records: 100, value: 16, headers: 0 };

/// Makes each case, in the order in which they are shown.
pub const MAKERS: [fn() -> Case; 7] = [
    || Case::accepted("100 small records", HUNDRED),
    || Case::accepted("one record", Form { records: 1, ..HUNDRED }),
    || {
        let form = Form { records: 1000, headers: 2, ..HUNDRED };
        Case::accepted("1,000 records, two headers each", form)
    },
    || Case::accepted("four values of 1 MiB", Form { records: 4, value: 1 << 20, headers: 0 }),
    || Case::accepted("refused early", HUNDRED).refused_early(),
    || Case::accepted("wrong checksum", HUNDRED).refused_by_checksum(),
    || Case::accepted("refused late", HUNDRED).refused_late(),
];

/// A batch of about so many bytes, of small records.
pub fn many_small(bytes: usize) -> Case {
    let records = (bytes - FIXED) / SMALL_RECORD;
    Case::accepted("many small records", Form { records, ..HUNDRED })
}

/// A batch of about so many bytes, of one record.
pub fn one_large(bytes: usize) -> Case {
    let value = bytes - FIXED - COOKIE - MOST_OVERHEAD;
    Case::accepted("one large value", Form { records: 1, value, headers: 0 })
}

fn entries(records: usize, last_time: i64) -> [i64; ENTRIES] {
    const FIRST_TIMESTAMP: i64 = 1_700_000_000_000;
    let last = records as i64 - 1;
    let mut entries = [0; ENTRIES];
    let fields = [0, 0, last, FIRST_TIMESTAMP, FIRST_TIMESTAMP + last_time, -1, -1, -1];
    entries[..fields.len()].copy_from_slice(&fields);
    entries[RECORDS] = records as i64;
    entries
}

/// The start and the length of the bytes in the source that they are put to.
fn put(source: &mut Vec<u8>, bytes: &[u8]) -> [i64; 2] {
    let start = source.len() as i64;
    source.extend_from_slice(bytes);
    [start, bytes.len() as i64]
}

/// Xorshift: the same in each run, and no code finds a rule in it.
struct Random(u64);

impl Random {
    fn next(&mut self) -> u64 {
        self.0 ^= self.0 << 13;
        self.0 ^= self.0 >> 7;
        self.0 ^= self.0 << 17;
        self.0 >> 8
    }

    fn bytes(&mut self, count: usize) -> Vec<u8> {
        (0..count).map(|_| self.next() as u8).collect()
    }
}
