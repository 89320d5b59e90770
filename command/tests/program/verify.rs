//! `oddrafisk verify`: its lines, and which bytes it marks.

use std::fs;
use std::ops::Range;

use crate::format::{
    altered, bare_marker, batch_inside_a_value, crc32c, faults, marker, of_size, one_record, Head,
};
use crate::model::{end_of, read_log};
use crate::run::{file, program, run, run_on, sample, samples, scratch, Ended};

/// What is said of a file, without its name. Tests run at the same time: each has its own.
fn verify(bytes: &[u8], name: &str) -> Ended {
    let path = file("verify", name, bytes);
    let ended = run(["verify".as_ref(), path.as_os_str()]);
    assert_eq!(ended.errors, "");
    let prefix = format!("{}: ", path.display());
    Ended {
        output: ended
            .output
            .strip_prefix(&prefix)
            .expect(&ended.output)
            .to_string(),
        ..ended
    }
}

#[test]
fn samples_are_all_right() {
    for (path, bytes) in samples() {
        let (batches, _) = read_log(&bytes);
        let records: usize = batches.iter().map(|batch| batch.records.len()).sum();
        let ended = verify(&bytes, path.file_name().unwrap().to_str().unwrap());
        let due = format!(
            "all right, {} batches, {records} records, {} bytes\n",
            batches.len(),
            bytes.len()
        );
        assert_eq!((ended.status, ended.output), (0, due));
    }
}

/// The picture in the README: a sample, and the same with a byte changed inside a value of the
/// batch at place 763.
#[test]
fn readme_shows_what_is_printed() {
    const COMMAND: &str = "$ oddrafisk verify samples/pinning.log damaged.log\n";
    let (_, shown) = include_str!("../../../README.md")
        .split_once(COMMAND)
        .unwrap();
    let (shown, _) = shown.split_once("```").unwrap();
    let (_, whole) = sample("pinning.log");
    let mut bytes = whole.clone();
    let value = bytes[763..]
        .windows(10)
        .position(|part| part == b"rail-node-");
    bytes[763 + value.unwrap() + 10] ^= 2;
    let folder = scratch("readme");
    fs::create_dir_all(folder.join("samples")).unwrap();
    fs::write(folder.join("samples/pinning.log"), whole).unwrap();
    fs::write(folder.join("damaged.log"), bytes).unwrap();
    let words = ["verify", "samples/pinning.log", "damaged.log"];
    let ended: Ended = program()
        .args(words)
        .current_dir(folder)
        .output()
        .unwrap()
        .into();
    assert_eq!((ended.status, ended.output.as_str()), (1, shown));
}

#[test]
fn empty_file_is_all_right() {
    let ended = verify(&[], "empty.log");
    assert_eq!(
        (ended.status, ended.output.as_str()),
        (0, "all right, 0 batches, 0 records, 0 bytes\n")
    );
}

#[test]
fn standard_input_has_its_name() {
    let ended = run_on(&["verify", "-"], &one_record());
    let due = "standard input: all right, 1 batch, 1 record, 69 bytes\n";
    assert_eq!((ended.status, ended.output.as_str()), (0, due));
}

/// Written by hand, but for the checksums: the value "A" at place 136 has become "B".
#[test]
fn fault_is_shown_with_its_bytes() {
    let second = altered(one_record(), 67, b'B');
    let ended = verify(&[one_record(), second.clone()].concat(), "value.log");
    let stored = u32::from_be_bytes(one_record()[17..21].try_into().unwrap());
    let computed = crc32c(&second[21..]);
    assert_ne!(stored, computed);
    let [a, b, c, d] = stored.to_be_bytes();
    let digits = format!("{a:02X} {b:02X}  {c:02X} {d:02X}");
    let shown = |byte: u8| {
        if (32..127).contains(&byte) {
            byte as char
        } else {
            '.'
        }
    };
    let text: String = [a, b, c, d].map(shown).iter().collect();
    let due = format!(
        "stop 4 at 69: the checksum differs
  1 batch, 1 record before it
  checksum stored 0x{stored:08X}, computed 0x{computed:08X}
  00000030: 00 00 17 00 1D 00 00 00  1F 00 00 00 01 0E 00 00  ................
  00000040: 00 01 02 41 00 00 00 00  00 00 00 00 07 00 00 00  ...A............
  00000050: 39 00 00 00 0B 02 {digits} 00 00 00 00 00 0D  9.....{text}......
                              ^^ ^^  ^^ ^^
  00000060: 00 00 01 93 2E D6 0C 11  00 00 01 93 2E D6 0C 13  ................
"
    );
    assert_eq!((ended.status, ended.output), (1, due));
}

/// Written by hand: the second batch has 16 bytes of 69, one too few to tell.
#[test]
fn torn_tail_is_shown_with_what_is_missing() {
    let bytes = [marker(513, 1), one_record()[..16].to_vec()].concat();
    let ended = verify(&bytes, "torn.log");
    let due = "\
stop 1 at 72: the log is torn: 16 bytes are there, 17 are needed
  1 batch, 0 records before it
  the file ends inside the batch, or the length of the batch is damaged
  00000030: 00 00 17 00 1D 00 00 00  1F 00 00 00 01 14 00 00  ................
  00000040: 00 08 00 00 00 01 01 00  00 00 00 00 00 00 00 07  ................
  00000050: 00 00 00 39 00 00 00 0B                           ...9....
            ^^ ^^ ^^ ^^
";
    assert_eq!((ended.status, ended.output.as_str()), (2, due));
    let bytes = one_record()[..68].to_vec();
    let ended = verify(&bytes, "torn.log");
    let due = "stop 1 at 0: the log is torn: 68 bytes are there, 69 are needed\n";
    assert!(ended.output.starts_with(due), "{}", ended.output);
}

/// The bytes above the carets.
fn marked(output: &str) -> Vec<u8> {
    let lines: Vec<&str> = output.lines().collect();
    let mut bytes = Vec::new();
    for pair in lines.windows(2).filter(|pair| pair[1].contains('^')) {
        let carets = pair[1].match_indices("^^");
        bytes.extend(carets.map(|(at, _)| u8::from_str_radix(&pair[0][at..at + 2], 16).unwrap()));
    }
    bytes
}

/// Written by hand, but for the checksum: the second batch is a commit in the bare form.
#[test]
fn bare_marker_is_shown_with_how_to_convert_it() {
    let bare = bare_marker(513, 1);
    let ended = verify(&[one_record(), bare.clone()].concat(), "bare.log");
    let checksum = u32::from_be_bytes(bare[17..21].try_into().unwrap());
    assert_eq!(checksum, crc32c(&bare[21..]));
    let [a, b, c, d] = checksum.to_be_bytes();
    let due = format!(
        "stop 41 at 69: bare markers are withdrawn; `oddrafisk convert IN OUT` converts a stored log
  1 batch, 1 record before it
  checksum stored 0x{checksum:08X}, computed 0x{checksum:08X}
  00000030: 00 00 17 00 1D 00 00 00  1F 00 00 00 01 0E 00 00  ................
  00000040: 00 01 02 41 00 00 00 00  00 00 00 02 01 00 00 00  ...A............
  00000050: 35 00 00 00 0B 02 {a:02X} {b:02X}  {c:02X} {d:02X} 00 20 00 00 00 0D  5.......... ....
  00000060: 00 00 01 93 2E D6 0C 11  00 00 01 93 2E D6 0C 13  ................
  00000070: 00 00 00 00 00 00 00 17  00 1D 00 00 00 1F 00 00  ................
  00000080: 00 01 00 00 00 01                                 ......
                  ^^ ^^ ^^ ^^
"
    );
    assert_eq!((ended.status, ended.output), (1, due));
}

/// What document 01's table has at fault, or the base offset where it could be anything.
fn due_marks(number: u32) -> Range<usize> {
    match number {
        2 => 8..12,
        3 => 16..17,
        4 => 17..21,
        5 | 6 => 21..23,
        7 => 57..61,
        41 => 61..65,
        _ => 0..8,
    }
}

fn due_part(number: u32, what: &str) -> Option<&'static str> {
    match number {
        8..=13 if what.contains("marker") => Some("marker"),
        8 if what == "a length of 9" => Some("fixed fields"),
        8..=13 => Some("records"),
        _ => None,
    }
}

/// Both checksums, where the batch is there in full.
fn due_checksums(number: u32, batch: &[u8]) -> Option<String> {
    (4 <= number).then(|| {
        let stored = u32::from_be_bytes(batch[17..21].try_into().unwrap());
        let computed = crc32c(&batch[21..]);
        assert_eq!(stored == computed, number != 4);
        format!("  checksum stored 0x{stored:08X}, computed 0x{computed:08X}")
    })
}

/// The bytes of all lines, and the place of the first.
fn shown(output: &str) -> (usize, Vec<u8>) {
    let parts = output.lines().filter_map(|line| line.split_once(": "));
    let lines: Vec<_> = parts
        .filter(|(place, _)| place.starts_with("  0"))
        .collect();
    let first = usize::from_str_radix(lines[0].0.trim(), 16).unwrap();
    let digits = lines
        .iter()
        .flat_map(|(_, line)| line[..48].split_whitespace());
    let bytes = digits.map(|byte| u8::from_str_radix(byte, 16).unwrap());
    (first, bytes.collect())
}

/// The line before the batch, and the line after what is marked.
fn assert_lines(output: &str, bytes: &[u8], place: usize, marks: Range<usize>) {
    let first = (place / 16 * 16).saturating_sub(16);
    let end = (place + marks.end - 1) / 16 * 16 + 32;
    let due = &bytes[first..end.min(bytes.len())];
    assert_eq!(shown(output), (first, due.to_vec()), "{output}");
    assert_eq!(
        marked(output),
        bytes[place + marks.start..place + marks.end],
        "{output}"
    );
}

fn plural(count: usize) -> &'static str {
    match count {
        1 => "",
        _ => "es",
    }
}

fn assert_shown(before: &[u8], number: u32, what: &str, batch: &[u8]) {
    let bytes = [before, batch, &one_record()].concat();
    let ended = verify(&bytes, "fault.log");
    let (batches, output) = (read_log(before).0, ended.output);
    let lines: Vec<&str> = output.lines().collect();
    let (place, count) = (end_of(&batches), batches.len());
    let start = format!("stop {number} at {place}: ");
    assert_eq!(ended.status, 1, "{what}");
    assert!(lines[0].starts_with(&start), "{what}: {output}");
    assert_eq!(
        lines[1],
        format!("  {count} batch{}, 0 records before it", plural(count)),
        "{what}"
    );
    let part = due_part(number, what).map(|part| {
        format!("  the reader names the batch and not the byte: the fault is in its {part}")
    });
    let due: Vec<String> = due_checksums(number, batch)
        .into_iter()
        .chain(part)
        .collect();
    let hex = lines
        .iter()
        .position(|line| line.starts_with("  0000"))
        .unwrap();
    assert_eq!(lines[2..hex], due, "{what}: {output}");
    assert_lines(&output, &bytes, place, due_marks(number));
}

/// Batches of 61 bytes before it bring the fault to every place of a line.
#[test]
fn every_number_marks_its_bytes() {
    for (number, what, batch) in faults().into_iter().filter(|(number, ..)| *number != 1) {
        assert_shown(&[], number, what, &batch);
        let mut before = Vec::new();
        for turn in 0..16 {
            before.extend(Head::at(turn).with_body(0, &[]));
            assert_shown(&before, number, what, &batch);
        }
    }
}

/// The program reads 262,144 bytes at a time: so many bytes of the batch at fault have come.
fn assert_shown_in_full(come: usize, number: u32, batch: &[u8]) {
    let place = 262_144 - come;
    let bytes = [&of_size(place), batch, &one_record(), &one_record()].concat();
    let Ended { output, .. } = verify(&bytes, "come.log");
    assert!(
        output.starts_with(&format!("stop {number} at {place}: ")),
        "{output}"
    );
    assert_lines(&output, &bytes, place, due_marks(number));
}

#[test]
fn bytes_that_have_not_come_are_shown_too() {
    let head = Head {
        magic: 3,
        ..Head::default()
    };
    for come in [17, 18, 31, 47, 48, 60] {
        assert_shown_in_full(come, 3, &head.with_body(0, &[]));
    }
    for come in 61..93 {
        assert_shown_in_full(come, 7, &Head::default().with_body(-2, &[]));
    }
}

#[test]
fn torn_tails_mark_what_there_is() {
    for (_, what, bytes) in faults().into_iter().filter(|(number, ..)| *number == 1) {
        let ended = verify(&[one_record(), bytes.clone()].concat(), "tail.log");
        assert_eq!(ended.status, 2, "{what}");
        let due = format!(
            "stop 1 at 69: the log is torn: {} bytes are there, ",
            bytes.len()
        );
        assert!(ended.output.starts_with(&due), "{what}: {}", ended.output);
        // Its length, where that is there.
        let marks = match bytes.len() {
            0..12 => 0..bytes.len().min(8),
            _ => 8..12,
        };
        assert_eq!(marked(&ended.output), bytes[marks], "{what}");
    }
}

#[test]
fn batch_inside_a_value_is_not_counted() {
    let bytes = [batch_inside_a_value(), one_record()].concat();
    let due = format!("all right, 2 batches, 2 records, {} bytes\n", bytes.len());
    assert_eq!(verify(&bytes, "inside.log").output, due);
    let damaged = altered(bytes.clone(), 30, !bytes[30]);
    let ended = verify(&damaged, "inside.log");
    assert!(
        ended.output.starts_with("stop 4 at 0: "),
        "{}",
        ended.output
    );
}

/// A byte of a value in a sample, as line noise would change it.
#[test]
fn damaged_sample_is_found() {
    let (_, bytes) = sample("pinning.log");
    let (batches, _) = read_log(&bytes);
    let batch = &batches[2];
    let place = batch.place + batch.bytes - 2;
    let damaged = altered(bytes.clone(), place, bytes[place] ^ 4);
    let ended = verify(&damaged, "damaged.log");
    let due = format!(
        "stop 4 at {}: the checksum differs\n  2 batches, 7 records",
        batch.place
    );
    assert!(ended.output.starts_with(&due), "{}", ended.output);
}
