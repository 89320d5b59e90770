//! `oddrafisk dump` as text. JSON is compared by a script (`with_python`).

use crate::format::{marker, one_record, Head, Record};
use crate::model::{read_log, Bytes};
use crate::run::{file, run, samples};

fn record<'a>(deltas: [i64; 2], key: Option<&'a [u8]>, value: Option<&'a [u8]>) -> Record<'a> {
    let [timestamp_delta, offset_delta] = deltas;
    Record {
        timestamp_delta,
        offset_delta,
        key,
        value,
        headers: &[],
    }
}

/// A log in which bytes of every kind and every limit of a number stands.
pub fn every_kind() -> Vec<u8> {
    let headers: [(&[u8], &[u8]); 3] = [
        (b"zone", b"north"),
        (b"zone", b"\xFE\xFF"),
        ("\u{FC}\t\"".as_bytes(), b""),
    ];
    let text = "caf\u{E9} \u{1F682}".as_bytes();
    let escapes = b"\"\\/\n\r\t\x08\x0C\x00\x1B[31m\x7F\xC2\x9B\xE2\x80\xA8";
    let with_headers = Record {
        headers: &headers,
        ..record([-18, 2], Some(b"session-17"), Some(text))
    };
    let first = Head::at(48210).with_records(&[
        with_headers,
        record([5, 3], None, Some(b"")),
        record([6, -4], Some(escapes), Some(b"\xC0\x80\x0A")),
    ]);
    let at_limits = Head {
        base_offset: i64::MAX,
        first_timestamp: i64::MIN,
        attributes: 0x18,
        ..Head::default()
    };
    let last = at_limits.with_records(&[
        record([-1, 1], None, None),
        record([9, -1], Some(b"null"), None),
    ]);
    [first, marker(48214, 0), marker(48215, 1), last].concat()
}

/// Its lines, written by hand.
const EVERY_KIND: &str = "\
48212\t1731657599999\t\"session-17\"\t\"caf\u{E9} \u{1F682}\"\
\t\"zone\"=\"north\"\t\"zone\"=0xFEFF\t\"\u{FC}\\t\\\"\"=\"\"
48213\t1731657600022\tnull\t\"\"
48206\t1731657600023\
\t\"\\\"\\\\/\\n\\r\\t\\u0008\\u000c\\u0000\\u001b[31m\\u007f\\u009b\\u2028\"\t0xC0800A
-\t-\tnull\tnull
9223372036854775806\t-9223372036854775799\t\"null\"\tnull
";

#[test]
fn bytes_of_every_kind() {
    let path = file("dump", "every_kind.log", &every_kind());
    let ended = run(["dump".as_ref(), path.as_os_str()]);
    assert_eq!(ended.output, EVERY_KIND);
    assert_eq!((ended.status, ended.errors.as_str()), (0, ""));
}

fn shown(bytes: &Bytes) -> String {
    let Some(bytes) = bytes else {
        return "null".to_string();
    };
    match std::str::from_utf8(bytes) {
        Ok(text) => format!("\"{}\"", text.chars().map(escaped).collect::<String>()),
        Err(_) => bytes
            .iter()
            .fold("0x".to_string(), |text, byte| text + &format!("{byte:02X}")),
    }
}

fn escaped(c: char) -> String {
    match c {
        '"' => "\\\"".to_string(),
        '\\' => "\\\\".to_string(),
        '\n' => "\\n".to_string(),
        '\r' => "\\r".to_string(),
        '\t' => "\\t".to_string(),
        '\0'..='\x1F' | '\x7F'..='\u{9F}' | '\u{2028}' | '\u{2029}' => {
            format!("\\u{:04x}", c as u32)
        }
        _ => c.to_string(),
    }
}

fn lines_of(bytes: &[u8]) -> String {
    let mut text = String::new();
    for batch in read_log(bytes).0 {
        for record in &batch.records {
            let offset = batch.base_offset + record.offset_delta;
            let time = batch.first_timestamp + record.timestamp_delta;
            text += &format!(
                "{offset}\t{time}\t{}\t{}",
                shown(&record.key),
                shown(&record.value)
            );
            for (key, value) in &record.headers {
                text += &format!(
                    "\t{}={}",
                    shown(&Some(key.clone())),
                    shown(&Some(value.clone()))
                );
            }
            text += "\n";
        }
    }
    text
}

#[test]
fn samples_are_dumped() {
    for (path, bytes) in samples() {
        let ended = run(["dump".as_ref(), path.as_os_str()]);
        assert_eq!(ended.output, lines_of(&bytes), "{path:?}");
        assert!(!ended.output.is_empty());
        assert_eq!((ended.status, ended.errors.as_str()), (0, ""));
    }
}

/// By hand, from the numbers that `format` gives to a batch.
fn fields_line(place: usize, base_offset: i64, rest: &str) -> String {
    format!(
        "# place {place}: base_offset {base_offset}, partition_leader_epoch 11, \
         last_offset_delta 13, first_timestamp 1731657600017, max_timestamp 1731657600019, \
         producer_id 23, producer_epoch 29, base_sequence 31, timestamp_type {rest}\n"
    )
}

#[test]
fn fields_come_before_the_records() {
    let append = Head {
        base_offset: -5,
        attributes: 0x18,
        ..Head::default()
    };
    let empty = append.with_body(0, &[]);
    let path = file(
        "dump",
        "fields.log",
        &[one_record(), empty, marker(8, 0), marker(9, 1)].concat(),
    );
    let ended = run(["dump".as_ref(), "--fields".as_ref(), path.as_os_str()]);
    let create = "CreateTime, is_transactional false, kind";
    let append = "LogAppendTime, is_transactional true, kind";
    let counts = "records 0, headers 0, bytes";
    let due = [
        fields_line(
            0,
            7,
            &format!("{create} records, records 1, headers 0, bytes 69"),
        ),
        "7\t1731657600017\tnull\t\"A\"\n".to_string(),
        fields_line(69, -5, &format!("{append} records, {counts} 61")),
        fields_line(130, 8, &format!("{create} abort, {counts} 72")),
        fields_line(202, 9, &format!("{create} commit, {counts} 72")),
    ];
    assert_eq!(ended.output, due.concat());
    assert_eq!((ended.status, ended.errors.as_str()), (0, ""));
}

#[test]
fn fields_count_the_headers() {
    let path = file("dump", "headers.log", &every_kind());
    let ended = run(["dump".as_ref(), path.as_os_str(), "--fields".as_ref()]);
    let counts: Vec<&str> = ended
        .output
        .lines()
        .filter(|line| line.starts_with("# "))
        .map(|line| line.split_once(", kind ").unwrap().1)
        .collect();
    let due = [
        "records, records 3, headers 3, bytes 150",
        "abort, records 0, headers 0, bytes 72",
        "commit, records 0, headers 0, bytes 72",
        "records, records 2, headers 0, bytes 79",
    ];
    assert_eq!(counts, due);
}

#[test]
fn records_before_a_stop_are_dumped() {
    let bytes = [one_record(), vec![0; 12]].concat();
    let path = file("dump", "stop.log", &bytes);
    let ended = run(["dump".as_ref(), path.as_os_str()]);
    assert_eq!(ended.output, "7\t1731657600017\tnull\t\"A\"\n");
    assert_eq!(ended.status, 1);
    let due = format!(
        "oddrafisk: {}: stopped at 69: the length of the batch is too small (number 2)\n",
        path.display()
    );
    assert_eq!(ended.errors, due);
}

#[test]
fn several_files_have_their_names() {
    let first = file("dump", "first.log", &one_record());
    let second = file("dump", "second.log", &marker(5, 0));
    let ended = run(["dump".as_ref(), first.as_os_str(), second.as_os_str()]);
    let (first, second) = (first.display(), second.display());
    let due = format!("# file {first}\n7\t1731657600017\tnull\t\"A\"\n# file {second}\n");
    assert_eq!((ended.status, ended.output), (0, due));
}
