//! `--control`: both modes, with every verb that reads in one.

use crate::format::{bare_marker, broker_marker, broker_record, one_record, Head};
use crate::run::{file, run, run_on, Ended};

const HEADING: &str = "base bytes kind records headers\n";

fn on(arguments: &[&str], bytes: &[u8]) -> Ended {
    run_on(&[arguments, &["-"]].concat(), bytes)
}

/// Records, a broker's abort and commit, and a commit in its shortest form.
fn broker_log() -> Vec<u8> {
    let shortest = [0x14, 0, 0, 0, 8, 0, 0, 0, 1, 1, 0];
    [
        one_record(),
        broker_marker(9, 0),
        broker_marker(10, 1),
        Head {
            base_offset: 12,
            attributes: 0x20,
            ..Head::default()
        }
        .with_body(1, &shortest),
    ]
    .concat()
}

/// Records alone, which both modes read.
fn records_log() -> Vec<u8> {
    [one_record(), Head::at(8).with_body(0, &[])].concat()
}

/// The same log with bare markers.
fn bare_log() -> Vec<u8> {
    [one_record(), bare_marker(9, 0), bare_marker(10, 1)].concat()
}

const BROKER_LISTING: &str = "7 69 records 1 0\n9 78 abort 0 0\n10 78 commit 0 0\n\
                              12 72 commit 0 0\nend at 297\n";
const RECORDS_LISTING: &str = "7 69 records 1 0\n8 61 records 0 0\nend at 130\n";

#[test]
fn markers_are_listed_in_keyed_mode_and_records_in_both() {
    for (bytes, mode, due) in [
        (broker_log(), "keyed", BROKER_LISTING),
        (records_log(), "keyed", RECORDS_LISTING),
        (records_log(), "bare", RECORDS_LISTING),
    ] {
        let ended = on(&["list", "--control", mode], &bytes);
        assert_eq!(ended.output, format!("{HEADING}{due}"));
        assert_eq!((ended.status, ended.errors.as_str()), (0, ""));
    }
}

#[test]
fn keyed_is_the_default_and_the_last_counts() {
    let bytes = broker_log();
    let listed: &[&[&str]] = &[
        &["list"],
        &["list", "--control=keyed"],
        &["list", "--control", "keyed", "--control", "keyed"],
        &["list", "--control", "bare", "--control=keyed"],
    ];
    for arguments in listed {
        let ended = on(arguments, &bytes);
        assert_eq!(ended.output, format!("{HEADING}{BROKER_LISTING}"));
        assert_eq!((ended.status, ended.errors.as_str()), (0, ""));
    }
    let stopped: &[&[&str]] = &[
        &["list", "--control=bare"],
        &["list", "--control=keyed", "--control", "bare"],
    ];
    for arguments in stopped {
        let ended = on(arguments, &bytes);
        let due = format!("{HEADING}7 69 records 1 0\nstop 12 at 69\n");
        assert_eq!((ended.status, ended.output), (1, due));
    }
}

/// A file before the option, and one that has the option's name.
#[test]
fn option_may_come_after_files_and_ends_at_two_dashes() {
    let path = file("control", "broker.log", &broker_log());
    let path = path.to_str().unwrap();
    let due = run(["list", "--control", "bare", path]);
    assert_eq!(due.status, 1);
    assert_eq!(run(["list", path, "--control", "bare"]), due);
    let ended = run(["list", "--", "--control", path]);
    assert!(
        ended.errors.contains("--control: No such file"),
        "{}",
        ended.errors
    );
    assert_eq!(ended.status, 3);
}

/// The bytes of sarama's control batches, as its log has them, with the checksums that stand there.
#[test]
fn sarama_s_log_is_listed_whole() {
    let batch = |base_offset, control_type| {
        let head = Head {
            base_offset,
            partition_leader_epoch: 0,
            magic: 2,
            attributes: 0x30,
            last_offset_delta: 0,
            first_timestamp: 0x18B_CFE5_6800,
            max_timestamp: 0x18B_CFE5_6801,
            producer_id: 9001,
            producer_epoch: 0,
            base_sequence: -1,
        };
        head.with_body(1, &broker_record(control_type))
    };
    let bytes = [batch(0, 0), batch(1, 1)].concat();
    assert_eq!(bytes[17..21], [0x37, 0x47, 0x31, 0x12]);
    assert_eq!(bytes[78 + 17..78 + 21], [0xC3, 0x79, 0xE7, 0x5A]);
    let ended = on(&["list"], &bytes);
    let due = format!("{HEADING}0 78 abort 0 0\n1 78 commit 0 0\nend at 156\n");
    assert_eq!((ended.status, ended.output), (0, due));
    let ended = on(&["list", "--control", "bare"], &bytes);
    assert_eq!(
        (ended.status, ended.output),
        (1, format!("{HEADING}stop 12 at 0\n"))
    );
}

#[test]
fn dump_shows_markers() {
    let ended = on(&["dump", "--fields"], &broker_log());
    assert_eq!((ended.status, ended.errors.as_str()), (0, ""));
    let lines = ended.output.lines();
    let parts = lines.filter_map(|line| line.split_once(", is_trans"));
    let ends: Vec<&str> = parts.map(|(_, end)| end).collect();
    let counts = "records 0, headers 0, bytes";
    assert_eq!(
        ends[1..],
        [
            format!("actional true, kind abort, {counts} 78"),
            format!("actional true, kind commit, {counts} 78"),
            format!("actional false, kind commit, {counts} 72"),
        ]
    );
    // The record of a marker is none of the log's.
    let line = "7\t1731657600017\tnull\t\"A\"\n";
    assert_eq!(on(&["dump"], &broker_log()).output, line);
    let json = on(&["dump", "--json", "--fields"], &broker_log()).output;
    assert_eq!(json.matches("\"kind\":\"commit\"").count(), 2, "{json}");
    assert_eq!(json.matches("\"kind\":\"abort\"").count(), 1, "{json}");
    assert_eq!(json.lines().count(), 5, "{json}");
}

#[test]
fn verify_counts_markers() {
    let ended = on(&["verify"], &broker_log());
    let due = "standard input: all right, 4 batches, 1 record, 297 bytes\n";
    assert_eq!((ended.status, ended.output.as_str()), (0, due));
}

/// By verify with its fault, by the others with their complaint.
fn assert_stopped(mode: &str, bytes: &[u8], number: u32, words: &str) {
    let ended = on(&["verify", "--control", mode], bytes);
    let due =
        format!("standard input: stop {number} at 69: {words}\n  1 batch, 1 record before it\n");
    assert!(ended.output.starts_with(&due), "{}", ended.output);
    assert_eq!(ended.status, 1);
    for verb in ["list", "dump"] {
        let ended = on(&[verb, "--control", mode], bytes);
        let due = format!("oddrafisk: standard input: stopped at 69: {words} (number {number})\n");
        assert_eq!((ended.status, ended.errors), (1, due));
    }
}

#[test]
fn keyed_marker_in_bare_mode_is_pointed_to_its_mode() {
    let words = "the control marker is unknown; --control keyed reads it";
    assert_stopped("bare", &broker_log(), 12, words);
}

#[test]
fn bare_marker_is_pointed_to_the_conversion_in_either_mode() {
    let words = "bare markers are withdrawn; `oddrafisk convert IN OUT` converts a stored log";
    for mode in ["bare", "keyed"] {
        assert_stopped(mode, &bare_log(), 41, words);
    }
}

/// Bodies of control batches with the number in each mode, and no mode that reads them.
const FAULTS: [(i32, &[u8], u32, u32); 10] = [
    (1, &[0x0C, 0, 0, 0, 1, 1, 0], 12, 12),
    (1, &[0x12, 0, 0, 0, 6, 0, 0, 0, 1, 0], 12, 12),
    (1, &[0x14, 0, 0, 0, 8, 0, 1, 0, 0, 1, 0], 12, 12),
    (1, &[0x14, 0, 0, 0, 8, 0, 0, 0, 2, 1, 0], 12, 12),
    (1, &[0x0C, 0, 0, 0, 1, 1, 0, 0], 12, 13),
    (1, &[0x14, 0, 0, 0, 1, 1, 2, 2, 0xFF, 0, 0], 12, 11),
    (1, &[0, 0, 0, 2], 12, 8),
    (1, &[0, 1, 0, 0], 12, 8),
    (1, &[0, 0, 0, 0, 0], 13, 8),
    (2, &[0x14, 0, 0, 0, 8, 0, 0, 0, 1, 1, 0], 7, 7),
];

#[test]
fn faults_have_the_number_of_their_mode_and_no_hint() {
    for (count, body, bare, keyed) in FAULTS {
        let bytes = Head::with_attributes(0x20).with_body(count, body);
        for (mode, number) in [("bare", bare), ("keyed", keyed)] {
            let ended = on(&["verify", "--control", mode], &bytes);
            let start = format!("standard input: stop {number} at 0: ");
            assert!(
                ended.output.starts_with(&start),
                "{mode} {body:?} {}",
                ended.output
            );
            assert!(!ended.output.contains("--control"), "{}", ended.output);
            let ended = on(&["list", "--control", mode], &bytes);
            assert_eq!(ended.output, format!("{HEADING}stop {number} at 0\n"));
        }
    }
}
