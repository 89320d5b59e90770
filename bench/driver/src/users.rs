//! What users wait for beside the C functions: a log read by the safe crate's iterator, a file verified by the program
//! `oddrafisk`, and a log converted, in memory and by the program.

use std::fs::{self, File};
use std::hint::black_box;
use std::path::Path;
use std::process::Command;

use oddrafisk_sys as sys;

use crate::cases::{BATCH_LENGTH, CHECKED, CRC, FIXED};
use crate::oddrafisk::{Tables, BYTES, ENTRIES, HEADER_ROW, RECORDS, RECORD_ROW};
use crate::side::{repeat, Runner};

const BATCHES: i64 = 10_000;
const RECORDS_IN_A_BATCH: i64 = 100;
/// How many batches a transaction has, after which a marker ends it.
const BATCHES_IN_A_TRANSACTION: usize = 10;

/// The number of what is refused as a bare marker, how many bytes that has, and how many it has once it is converted.
const BARE_MARKER: u32 = 41;
const BARE_BYTES: usize = 65;
const KEYED_BYTES: usize = 72;
/// Where the four bytes of a bare marker stand in the converted one.
const KEY: usize = 66;

/// Two ways to the same with a log, of which the first is the measure of the second.
pub struct Pair<'a> {
    pub operation: &'static str,
    pub log: &'a [u8],
    pub runners: Vec<(&'static str, Runner<'a>)>,
}

/// A log with bare markers, and what it becomes by the conversion.
pub struct Marked {
    bare: Vec<u8>,
    keyed: Vec<u8>,
}

/// A pinning log: a million records, each with a cookie of 24 bytes and a server of 12.
pub fn pinnings() -> Vec<u8> {
    let mut builder = safe::BatchBuilder::default();
    let mut log = Vec::new();
    for batch in 0..BATCHES {
        for number in batch * RECORDS_IN_A_BATCH..(batch + 1) * RECORDS_IN_A_BATCH {
            let cookie = format!("session-{number:016}");
            let server = format!("rail-node-{:02}", number % 6 + 1);
            let [cookie, server] = [&cookie, &server].map(|word| Some(word.as_bytes()));
            builder.push(1_731_657_600_000 + number, cookie, server, &[]).expect("a time fits");
        }
        builder.append_to(&mut log).expect("a batch is not too long");
        builder.next_batch().expect("an offset fits");
    }
    log
}

/// The log as the iterator of the safe crate reads it, and as the C functions do with tables that are lent again.
pub fn reading(log: &[u8]) -> Pair<'_> {
    assert_eq!(by_iterator(log), by_functions(log), "the log is read in two ways");
    let runners: Vec<(_, Runner)> = vec![
        ("C functions", repeat(move || by_functions(black_box(log)))),
        ("safe crate", repeat(move || by_iterator(black_box(log)))),
    ];
    Pair { operation: "read a log", log, runners }
}

/// The log in a file of the folder as the program verifies it, and as `check` does in memory.
pub fn verifying<'a>(log: &'a [u8], program: &'a str, folder: &Path) -> Pair<'a> {
    let file = folder.join("pinnings.log");
    fs::write(&file, log).expect("the log can be written");
    let runners: Vec<(_, Runner)> = vec![
        ("check", repeat(move || check(black_box(log)))),
        ("program", repeat(move || run(program, "verify", &[&file]))),
    ];
    Pair { operation: "verify a log", log, runners }
}

/// The log with a marker after each transaction.
pub fn with_markers(log: &[u8]) -> Marked {
    let mut marked = Marked { bare: Vec::new(), keyed: Vec::new() };
    let mut answer = [0; ENTRIES];
    let (mut rest, mut batches) = (log, 0);
    while !rest.is_empty() {
        assert_eq!(
            sys::check(sys::KEYED, rest, &mut answer),
            sys::ACCEPTED,
            "the log is all right"
        );
        let (batch, next) = rest.split_at(answer[BYTES] as usize);
        marked.bare.extend(batch);
        marked.keyed.extend(batch);
        batches += 1;
        if batches % BATCHES_IN_A_TRANSACTION == 0 {
            let keyed = marker(&answer);
            marked.bare.extend(bare(&keyed));
            marked.keyed.extend(keyed);
        }
        rest = next;
    }
    marked
}

/// The marker that commits what ends with this batch.
fn marker(last: &[i64; ENTRIES]) -> [u8; KEYED_BYTES] {
    let mut entries = [0; ENTRIES];
    entries[sys::BASE_OFFSET] = last[sys::BASE_OFFSET] + last[sys::LAST_OFFSET_DELTA] + 1;
    entries[sys::FIRST_TIMESTAMP] = last[sys::MAX_TIMESTAMP];
    entries[sys::MAX_TIMESTAMP] = last[sys::MAX_TIMESTAMP];
    entries[sys::BASE_SEQUENCE] = -1;
    entries[sys::IS_TRANSACTIONAL] = 1;
    entries[sys::KIND] = sys::KIND_COMMIT;
    let mut keyed = [0; KEYED_BYTES];
    let number = sys::write(sys::KEYED, &entries, 0, &[], &[], &[], &mut keyed, &mut [0]);
    assert_eq!(number, sys::ACCEPTED, "a marker cannot be written");
    keyed
}

/// The marker in the form that is no longer written.
fn bare(keyed: &[u8; KEYED_BYTES]) -> [u8; BARE_BYTES] {
    let mut bare = [0; BARE_BYTES];
    bare[..FIXED].copy_from_slice(&keyed[..FIXED]);
    bare[FIXED..].copy_from_slice(&keyed[KEY..][..BARE_BYTES - FIXED]);
    let length = (BARE_BYTES - BATCH_LENGTH - 4) as u32;
    bare[BATCH_LENGTH..][..4].copy_from_slice(&length.to_be_bytes());
    let crc = sys::crc32c(&bare[CHECKED..]);
    bare[CRC..CHECKED].copy_from_slice(&crc.to_be_bytes());
    bare
}

/// The log with markers as the conversion takes it, batch by batch, and as it is checked and copied.
pub fn converting(marked: &Marked) -> Pair<'_> {
    let Marked { bare: log, keyed } = marked;
    let mut converted = vec![0; keyed.len()];
    assert_eq!(convert(log, &mut converted), keyed.len(), "all of the log is converted");
    assert!(converted == *keyed, "the log becomes what it should");
    let mut copy = vec![0; log.len()];
    let runners: Vec<(_, Runner)> = vec![
        ("check and copy", repeat(move || check_and_copy(black_box(log), &mut copy))),
        ("convert", repeat(move || convert(black_box(log), &mut converted))),
    ];
    Pair { operation: "convert a log", log, runners }
}

/// The log with markers in a file of the folder as the program converts it, and as that file is read, checked and
/// copied. The copy is synced, as what the program writes is.
pub fn converting_file<'a>(marked: &'a Marked, program: &'a str, folder: &Path) -> Pair<'a> {
    let Marked { bare: log, keyed } = marked;
    let [file, converted, copy] =
        ["marked.log", "converted.log", "copy.log"].map(|name| folder.join(name));
    fs::write(&file, log).expect("the log can be written");
    run(program, "convert", &[&file, &converted]);
    let given = fs::read(&converted).expect("the converted log can be read");
    assert!(given == *keyed, "the log becomes what it should");
    let input = file.clone();
    let runners: Vec<(_, Runner)> = vec![
        ("check and copy", repeat(move || check_and_copy_file(&file, &copy))),
        ("program", repeat(move || run(program, "convert", &[&input, &converted]))),
    ];
    Pair { operation: "convert a file", log, runners }
}

fn run(program: &str, verb: &str, files: &[&Path]) {
    let said = Command::new(program).arg(verb).args(files).output().expect("it can be run");
    assert!(said.status.success(), "the log is all right");
}

/// How many bytes are given.
fn convert(log: &[u8], output: &mut [u8]) -> usize {
    let mut answer = [0; 2];
    let (mut place, mut end) = (0, 0);
    while place < log.len() {
        let number = sys::convert(&log[place..], &mut output[end..], &mut answer);
        assert_eq!(number, sys::ACCEPTED, "the log is all right");
        place += answer[0] as usize;
        end += answer[1] as usize;
    }
    end
}

fn check_and_copy(log: &[u8], output: &mut [u8]) -> usize {
    let batches = check(log);
    black_box(output).copy_from_slice(log);
    batches
}

fn check_and_copy_file(file: &Path, copy: &Path) -> usize {
    let batches = check(&fs::read(file).expect("the log can be read"));
    fs::copy(file, copy).expect("the log can be copied");
    File::open(copy).and_then(|copy| copy.sync_all()).expect("the copy can be synced");
    batches
}

/// How many bytes the keys and the values have, so that each is looked up.
fn by_iterator(log: &[u8]) -> usize {
    let mut bytes = 0;
    for batch in safe::Log::new(log) {
        for record in batch.expect("the log is all right").records() {
            bytes += black_box(record.key()).map_or(0, <[u8]>::len);
            bytes += black_box(record.value()).map_or(0, <[u8]>::len);
        }
    }
    bytes
}

fn by_functions(log: &[u8]) -> usize {
    let rows = RECORDS_IN_A_BATCH as usize;
    let mut tables =
        Tables { records: vec![0; rows * RECORD_ROW], headers: vec![0; rows * HEADER_ROW] };
    let mut answer = [0; ENTRIES];
    let (mut place, mut bytes) = (0, 0);
    while place < log.len() {
        let batch = &log[place..];
        let number =
            sys::read(sys::KEYED, batch, &mut tables.records, &mut tables.headers, &mut answer);
        assert_eq!(number, sys::ACCEPTED, "the log is all right");
        for row in tables.records.chunks_exact(RECORD_ROW).take(answer[RECORDS] as usize) {
            bytes +=
                black_box(span(batch, row[sys::RECORD_KEY_START], row[sys::RECORD_KEY_LENGTH]));
            bytes +=
                black_box(span(batch, row[sys::RECORD_VALUE_START], row[sys::RECORD_VALUE_LENGTH]));
        }
        place += answer[BYTES] as usize;
    }
    bytes
}

/// The length of the part that a row shows, which is looked up as the safe crate does.
fn span(batch: &[u8], start: i64, length: i64) -> usize {
    match length {
        -1 => 0,
        _ => batch[start as usize..][..length as usize].len(),
    }
}

/// How many batches there are. A bare marker is judged as the others are, and 41 is the answer.
fn check(log: &[u8]) -> usize {
    let mut answer = [0; ENTRIES];
    let (mut place, mut batches) = (0, 0);
    while place < log.len() {
        place += match sys::check(sys::KEYED, &log[place..], &mut answer) {
            BARE_MARKER => BARE_BYTES,
            number => {
                assert_eq!(number, sys::ACCEPTED, "the log is all right");
                answer[BYTES] as usize
            }
        };
        batches += 1;
    }
    batches
}
