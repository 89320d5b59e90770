//! A batch as a value of neither library, by which their answers are compared.

use crate::oddrafisk::{Tables, ENTRIES, HEADER_ROW, KIND, RECORD_ROW};

/// How many entries say what is neither a count nor a record: the fields and the kind.
pub const FIELDS: usize = KIND + 1;

#[derive(Debug, PartialEq)]
pub struct Header {
    pub key: Vec<u8>,
    pub value: Vec<u8>,
}

#[derive(Debug, PartialEq)]
pub struct Record {
    pub timestamp_delta: i64,
    pub offset_delta: i64,
    pub key: Option<Vec<u8>>,
    pub value: Option<Vec<u8>>,
    pub headers: Vec<Header>,
}

#[derive(Debug, PartialEq)]
pub struct Batch {
    pub fields: [i64; FIELDS],
    pub records: Vec<Record>,
}

impl Batch {
    /// What the entries say, and as many rows as there are records.
    pub fn from_rows(
        entries: &[i64; ENTRIES],
        count: usize,
        tables: &Tables,
        source: &[u8],
    ) -> Self {
        let rows = tables.records.chunks_exact(RECORD_ROW).take(count);
        Self {
            fields: std::array::from_fn(|at| entries[at]),
            records: rows.map(|row| record(row, tables, source)).collect(),
        }
    }
}

fn record(row: &[i64], tables: &Tables, source: &[u8]) -> Record {
    let headers = tables.headers.chunks_exact(HEADER_ROW);
    let own = headers.skip(row[6] as usize).take(row[7] as usize);
    Record {
        timestamp_delta: row[0],
        offset_delta: row[1],
        key: span(row[2], row[3], source),
        value: span(row[4], row[5], source),
        headers: own.map(|header| read_header(header, source)).collect(),
    }
}

fn read_header(row: &[i64], source: &[u8]) -> Header {
    let shown = |start, length| span(start, length, source).expect("a header has no null");
    Header { key: shown(row[0], row[1]), value: shown(row[2], row[3]) }
}

fn span(start: i64, length: i64, source: &[u8]) -> Option<Vec<u8>> {
    let length = usize::try_from(length).ok()?;
    let start = start as usize;
    Some(source[start..start + length].to_vec())
}
