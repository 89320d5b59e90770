//! `oddrafisk list` against document 01's listing.

use crate::format::{altered, batch_inside_a_value, faults, marker, one_record, Head, Record};
use crate::model::{end_of, read_log};
use crate::run::{file, run, run_on, samples, Ended};

const HEADING: &str = "base bytes kind records headers\n";

/// The listing of these bytes, worked out here.
fn listing(bytes: &[u8]) -> String {
    let (batches, stop) = read_log(bytes);
    let mut text = HEADING.to_string();
    for batch in &batches {
        text += &format!(
            "{} {} {} {} {}\n",
            batch.base_offset,
            batch.bytes,
            batch.kind,
            batch.records.len(),
            batch.headers()
        );
    }
    match (stop, end_of(&batches)) {
        (None, end) => text + &format!("end at {end}\n"),
        (Some(number), place) => text + &format!("stop {number} at {place}\n"),
    }
}

fn status_of(number: Option<u32>) -> i32 {
    match number {
        None => 0,
        Some(1) => 2,
        Some(_) => 1,
    }
}

/// From a file and from standard input, which has no length.
fn assert_listed(bytes: &[u8], due: &str, what: &str) {
    let path = file("list", format!("{what}.log"), bytes);
    let stop = read_log(bytes).1;
    let from_file = run(["list".as_ref(), path.as_os_str()]);
    let from_input = run_on(&["list", "-"], bytes);
    for (ended, name) in [
        (from_file, path.display().to_string()),
        (from_input, "standard input".to_string()),
    ] {
        assert_eq!(ended.output, due, "{what}");
        assert_eq!(ended.status, status_of(stop), "{what}");
        assert_complaint(&ended, &name, stop);
    }
}

/// A stop is said in words too, on one line.
fn assert_complaint(ended: &Ended, name: &str, stop: Option<u32>) {
    let Some(number) = stop else {
        return assert_eq!(ended.errors, "");
    };
    let place = ended.output.trim_end().rsplit(' ').next().unwrap();
    let (start, end) = (
        format!("oddrafisk: {name}: stopped at {place}: "),
        format!(" (number {number})\n"),
    );
    assert!(ended.errors.starts_with(&start), "{}", ended.errors);
    assert!(ended.errors.ends_with(&end), "{}", ended.errors);
    assert_eq!(ended.errors.lines().count(), 1);
}

/// Document 01's own example.
#[test]
fn example_of_the_document() {
    let bytes = [Head::at(0).with_body(0, &[]), one_record(), vec![0; 3]].concat();
    let due =
        "base bytes kind records headers\n0 61 records 0 0\n7 69 records 1 0\nstop 1 at 130\n";
    assert_listed(&bytes, due, "document");
}

#[test]
fn every_kind_and_every_width_of_an_offset() {
    let headers: [(&[u8], &[u8]); 2] = [(b"a", b""), (b"b", b"c")];
    let record = Record {
        headers: &headers,
        ..Record::default()
    };
    let bytes = [
        marker(-1, 0),
        marker(i64::MIN, 1),
        Head::at(i64::MAX).with_body(-1, &[]),
        Head::at(10).with_records(&[record, Record::default()]),
    ]
    .concat();
    let due = "-1 72 abort 0 0\n-9223372036854775808 72 commit 0 0\n\
               9223372036854775807 61 records 0 0\n10 82 records 2 2\nend at 287\n";
    assert_listed(&bytes, &(HEADING.to_string() + due), "kinds");
}

#[test]
fn empty_file_ends_at_0() {
    assert_listed(&[], &format!("{HEADING}end at 0\n"), "empty");
}

#[test]
fn every_number_alone_after_a_batch_and_between_batches() {
    for (number, what, bytes) in faults() {
        let stop = |place| format!("stop {number} at {place}\n");
        assert_eq!(read_log(&bytes).1, Some(number), "{what}");
        assert_listed(&bytes, &format!("{HEADING}{}", stop(0)), what);
        let line = "7 69 records 1 0\n";
        let second = [one_record(), bytes].concat();
        let due = format!("{HEADING}{line}{}", stop(69));
        assert_listed(&second, &due, what);
        if number != 1 {
            assert_listed(&[second, one_record()].concat(), &due, what);
        }
    }
}

#[test]
fn faults_have_every_number() {
    let mut numbers: Vec<u32> = faults().iter().map(|(number, ..)| *number).collect();
    numbers.sort();
    numbers.dedup();
    assert!(numbers.into_iter().eq((1..=13).chain([41])));
}

#[test]
fn samples_are_listed() {
    for (path, bytes) in samples() {
        let ended = run(["list".as_ref(), path.as_os_str()]);
        assert_eq!(ended.output, listing(&bytes), "{path:?}");
        assert_eq!((ended.status, ended.errors.as_str()), (0, ""));
        assert!(ended.output.ends_with(&format!("end at {}\n", bytes.len())));
    }
}

#[test]
fn samples_that_are_cut_or_altered_are_listed() {
    for (_, bytes) in samples() {
        for place in (1..bytes.len()).step_by(bytes.len() / 13) {
            let cut = &bytes[..place];
            assert_listed(cut, &listing(cut), "cut");
            let altered = altered(bytes.clone(), place, bytes[place] ^ 0x10);
            assert_listed(&altered, &listing(&altered), "altered");
        }
    }
}

/// What the program `list` of the Rattle tree has no room for.
#[test]
fn larger_than_document_01_s_program() {
    let records = vec![Record::default(); 5000];
    let mut bytes = Head::at(3).with_records(&records);
    let value = vec![0x5A; 3_000_000];
    let large = Record {
        value: Some(&value),
        ..Record::default()
    };
    bytes.extend(Head::at(4).with_records(&[large]));
    bytes.extend(one_record());
    let due = "3 35061 records 5000 0\n4 3000074 records 1 0\n7 69 records 1 0\nend at 3035204\n";
    assert_listed(&bytes, &(HEADING.to_string() + due), "large");
}

#[test]
fn batch_inside_a_value_is_not_listed() {
    let bytes = batch_inside_a_value();
    let due = format!("{HEADING}41 {0} records 1 0\nend at {0}\n", bytes.len());
    assert_listed(&bytes, &due, "inside");
    let mut damaged = bytes;
    damaged[30] ^= 1;
    assert_listed(
        &damaged,
        &format!("{HEADING}stop 4 at 0\n"),
        "inside, damaged",
    );
}

#[test]
fn several_files_have_their_names() {
    let first = file("several", "first.log", &one_record());
    let second = file("several", "second.log", &marker(5, 0));
    let missing = first.with_file_name("missing.log");
    let ended = run([
        "list".as_ref(),
        missing.as_os_str(),
        first.as_ref(),
        second.as_ref(),
    ]);
    let due = format!(
        "{}:\n{HEADING}7 69 records 1 0\nend at 69\n\n{}:\n{HEADING}5 72 abort 0 0\nend at 72\n",
        first.display(),
        second.display()
    );
    assert_eq!((ended.status, ended.output), (3, due));
    assert!(ended
        .errors
        .starts_with(&format!("oddrafisk: {}: ", missing.display())));
}
