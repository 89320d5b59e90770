//! The example programs: what `write_log` writes, `balancer` sums up as expected. `cargo test`
//! builds both programs beside the tests.

use std::path::{Path, PathBuf};
use std::process::{Command, Output};
use std::{env, fs};

use oddrafisk::{BatchBuilder, Fields, Kind, Log, Marker, NewRecord};

fn program(name: &str) -> Command {
    let test = env::current_exe().unwrap();
    let programs = test.parent().unwrap().parent().unwrap().join("examples");
    Command::new(programs.join(name))
}

fn scratch(name: &str) -> PathBuf {
    Path::new(env!("CARGO_TARGET_TMPDIR")).join(name)
}

fn write_log(file: &Path, cookies: usize) {
    let status = program("write_log")
        .arg(file)
        .arg(cookies.to_string())
        .status()
        .unwrap();
    assert!(status.success());
}

/// What `balancer` prints, and whether it succeeds.
fn balancer(file: &Path) -> (String, bool) {
    let Output { status, stdout, .. } = program("balancer").arg(file).output().unwrap();
    (String::from_utf8(stdout).unwrap(), status.success())
}

fn balancer_on(bytes: &[u8], name: &str) -> (String, bool) {
    let file = scratch(name);
    fs::write(&file, bytes).unwrap();
    balancer(&file)
}

/// What the documentation of `write_log` says of so many cookies, cookie by cookie.
fn expected(cookies: usize, bytes: usize) -> String {
    let every = |n: usize| cookies.div_ceil(n);
    let batches = |n: usize| every(n).div_ceil(100);
    let mut servers = [0; 6];
    for cookie in (0..cookies).filter(|cookie| cookie % 10 != 0) {
        let moved = usize::from(cookie % 4 == 0);
        servers[(cookie + moved) % 6] += 1;
    }
    let mut text = format!(
        "batches {}\nrecords {}\nrecords without a cookie 0\nrecords aborted {}\n\
         records undecided 0\ncookies pinned {}\ncookies withdrawn {}\n",
        batches(1) + batches(4) + 1 + batches(5) + 1 + batches(10),
        every(1) + every(4) + every(5) + every(10),
        every(5),
        cookies - every(10),
        every(10),
    );
    for (server, cookies) in servers
        .into_iter()
        .enumerate()
        .filter(|(_, cookies)| 0 < *cookies)
    {
        text += &format!("rail-node-{:02} {cookies}\n", server + 1);
    }
    text + &format!("end at {bytes}\n")
}

#[test]
fn written_logs_are_summed_up() {
    for cookies in [0, 1, 99, 100, 101, 12345] {
        let file = scratch("written.log");
        write_log(&file, cookies);
        let bytes = fs::metadata(&file).unwrap().len() as usize;
        assert_eq!(
            balancer(&file),
            (expected(cookies, bytes), true),
            "{cookies} cookies"
        );
    }
}

#[test]
fn written_offsets_and_times_run_on() {
    let file = scratch("offsets.log");
    write_log(&file, 250);
    let bytes = fs::read(&file).unwrap();
    let (mut next_offset, mut last_time) = (0, 0);
    for batch in Log::new(&bytes).map(Result::unwrap) {
        let fields = batch.fields();
        assert_eq!(fields.base_offset, next_offset);
        next_offset += i64::from(fields.last_offset_delta) + 1;
        assert!(last_time < fields.first_timestamp);
        last_time = fields.max_timestamp;
        let last = batch.records().next_back().map(|r| (r.offset(), r.time()));
        if let Some(last) = last {
            assert_eq!(last, (Some(next_offset - 1), Some(last_time)));
        }
        assert!(oddrafisk::is_canonical(batch.bytes()));
    }
}

/// Worked out by hand from the records of crates/pinning.
#[test]
fn sample_is_summed_up() {
    let sample = Path::new(env!("CARGO_MANIFEST_DIR")).join("../../samples/pinning.log");
    let summary = "batches 12\nrecords 24\nrecords without a cookie 0\nrecords aborted 2\n\
                   records undecided 0\ncookies pinned 8\ncookies withdrawn 2\n\
                   rail-node-01 2\nrail-node-02 1\nrail-node-04 1\nrail-node-05 2\nrail-node-06 2\n\
                   end at 1902\n";
    assert_eq!(balancer(&sample), (summary.to_string(), true));
}

#[test]
fn transaction_without_a_marker_is_undecided() {
    let file = scratch("undecided.log");
    write_log(&file, 30);
    let bytes = fs::read(&file).unwrap();
    let mut log = Log::new(&bytes);
    let before_marker = log
        .by_ref()
        .map(Result::unwrap)
        .take_while(|batch| batch.kind() == Kind::Records)
        .map(|batch| batch.bytes().len())
        .sum();
    let (summary, success) = balancer_on(&bytes[..before_marker], "undecided.log");
    assert!(success);
    assert!(
        summary.contains("records undecided 8\ncookies pinned 30\n"),
        "{summary}"
    );
    assert!(summary.contains("rail-node-01 5\n"), "{summary}");
}

#[test]
fn log_that_stops_says_where_and_why() {
    let file = scratch("stopped.log");
    write_log(&file, 150);
    let mut bytes = fs::read(&file).unwrap();
    let second = Log::new(&bytes).next().unwrap().unwrap().bytes().len();
    let (summary, success) = balancer_on(&bytes[..second + 5], "stopped.log");
    assert!(!success);
    assert!(summary.ends_with(&format!(
        "stop at {second}: 12 bytes are needed (number 1)\n"
    )));
    assert!(summary.contains("cookies pinned 100\n"), "{summary}");
    bytes[second + 100] ^= 1;
    let (summary, success) = balancer_on(&bytes, "stopped.log");
    assert!(!success);
    assert!(summary.ends_with(&format!(
        "stop at {second}: the checksum differs (number 4)\n"
    )));
}

fn skipping(bytes: &[u8], name: &str) -> (String, String, bool) {
    let file = scratch(name);
    fs::write(&file, bytes).unwrap();
    let Output {
        status,
        stdout,
        stderr,
    } = program("balancer")
        .arg(file)
        .arg("--skip")
        .output()
        .unwrap();
    let [said, warned] = [stdout, stderr].map(|bytes| String::from_utf8(bytes).unwrap());
    (said, warned, status.success())
}

/// Where the batches of a log start, with its end.
fn places(bytes: &[u8]) -> Vec<usize> {
    let mut log = Log::new(bytes);
    let mut places = vec![0];
    while log.next().is_some() {
        places.push(log.place());
    }
    places
}

/// Of cookies 100 to 199 are lost those that are neither moved, each fourth, nor withdrawn, each
/// tenth: 70 of the 315 that are pinned in the whole log.
#[test]
fn skipping_goes_on_after_one_damaged_batch() {
    let file = scratch("skipped.log");
    write_log(&file, 350);
    let mut bytes = fs::read(&file).unwrap();
    let places = places(&bytes);
    bytes[places[1] + 100] ^= 1;
    let (said, warned, success) = skipping(&bytes, "skipped.log");
    assert!(
        success && said.contains("batches passed over 1\n"),
        "{said}"
    );
    assert!(said.contains("cookies pinned 245\n"), "{said}");
    let length = places[2] - places[1];
    let expected = format!(
        "{length} bytes are passed over at {}: the checksum differs (number 4)\n",
        places[1]
    );
    assert_eq!(warned, expected);
}

#[test]
fn skipping_stops_where_the_length_is_damaged() {
    let file = scratch("lost.log");
    write_log(&file, 350);
    let whole = fs::read(&file).unwrap();
    let places = places(&whole);
    let mut bytes = whole.clone();
    bytes[places[1] + 11] ^= 1;
    let (said, _, success) = skipping(&bytes, "lost.log");
    assert!(
        !success && said.contains("batches passed over 1\n"),
        "{said}"
    );
    let mut bytes = whole.clone();
    bytes[places[1] + 8] ^= 0x40;
    let (said, warned, success) = skipping(&bytes, "lost.log");
    assert!(
        !success && said.contains(&format!("stop at {}: ", places[1])),
        "{said}"
    );
    assert_eq!(warned, "");
}

/// Two transactions of one producer, of which the first is aborted. Where the marker is lost that
/// aborts it, the second's must not commit it.
#[test]
fn skipping_drops_what_is_undecided() {
    let at = |base_offset| Fields {
        base_offset,
        producer_id: 7,
        is_transactional: true,
        ..Fields::default()
    };
    let pinned = |base_offset, cookie: &[u8], server: &[u8]| {
        let mut builder = BatchBuilder::new(at(base_offset));
        builder.push(0, Some(cookie), Some(server), &[]).unwrap();
        builder.to_vec().unwrap()
    };
    let mut bytes = pinned(0, b"cookie-1", b"aborted");
    let marker = bytes.len();
    Marker::Abort.append_to(&at(1), &mut bytes);
    bytes.extend(pinned(2, b"cookie-2", b"committed"));
    Marker::Commit.append_to(&at(3), &mut bytes);
    let (said, _, success) = skipping(&bytes, "transactions.log");
    assert!(success && said.contains("records aborted 1\n"), "{said}");
    bytes[marker + 30] ^= 1;
    let (said, _, success) = skipping(&bytes, "transactions.log");
    let lost = "batches passed over 1\nrecords lost in open transactions 1\n";
    assert!(success && said.contains(lost), "{said}");
    let end = "cookies pinned 1\ncookies withdrawn 0\ncommitted 1\nend at ";
    assert!(said.contains(end), "{said}");
}

/// The length that is damaged leads to an older batch, as one inside a value may be.
#[test]
fn skipping_stops_at_a_batch_out_of_order() {
    let file = scratch("older.log");
    write_log(&file, 350);
    let whole = fs::read(&file).unwrap();
    let places = places(&whole);
    let mut bytes = whole[..places[2]].to_vec();
    bytes[places[1] + 100] ^= 1;
    bytes.extend(&whole[..places[1]]);
    let (said, _, success) = skipping(&bytes, "older.log");
    assert!(
        !success && said.contains("stop at a batch out of order"),
        "{said}"
    );
}

/// A cookie is moved in a transaction, then by another producer, and then the transaction is
/// committed.
#[test]
fn place_in_the_log_decides_and_not_the_commit() {
    let producer = Fields {
        producer_id: 7,
        is_transactional: true,
        ..Fields::default()
    };
    let pinned = |fields, key: Option<&[u8]>, server: &str| {
        let record = NewRecord {
            key,
            value: Some(server.as_bytes()),
            ..NewRecord::default()
        };
        BatchBuilder::new(fields).record(record).to_vec().unwrap()
    };
    let cookie = Some(b"cookie".as_slice());
    let mut bytes = pinned(producer, cookie, "first");
    bytes.extend(pinned(Fields::default(), cookie, "second"));
    bytes.extend(pinned(Fields::default(), None, "nobody's"));
    Marker::Commit.append_to(&producer, &mut bytes);
    let (summary, _) = balancer_on(&bytes, "order.log");
    assert!(
        summary.contains("records without a cookie 1\n"),
        "{summary}"
    );
    assert!(
        summary.contains("cookies pinned 1\ncookies withdrawn 0\nsecond 1\nend"),
        "{summary}"
    );
}

/// A commit and an abort as brokers write them, with a value of six bytes after the key: their
/// checksums were worked out apart from the library.
fn broker_marker(base_offset: u8, checksum: [u8; 4], control_type: u8) -> Vec<u8> {
    let mut bytes = vec![0; 78];
    bytes[7] = base_offset;
    bytes[11] = 66; // the length
    bytes[16] = 2; // the magic byte
    bytes[17..21].copy_from_slice(&checksum);
    bytes[22] = 0x30; // a control batch of a transaction
    bytes[50] = 7; // the producer
    bytes[60] = 1; // the count
    bytes[61] = 0x20; // the length of its record
    bytes[65] = 8; // that of its key
    bytes[69] = control_type;
    bytes[70] = 12; // that of its value
    bytes[76] = 5;
    bytes
}

/// A log of a broker: what its markers commit is taken.
#[test]
fn markers_of_brokers_are_taken() {
    let mut bytes = Vec::new();
    for (offset, server, checksum, control_type) in [
        (0, &b"aborted"[..], [0x34, 0xB8, 0x47, 0x5B], 0),
        (2, b"committed", [0xC0, 0x86, 0x91, 0x13], 1),
    ] {
        let mut builder = BatchBuilder::new(Fields {
            base_offset: offset.into(),
            producer_id: 7,
            is_transactional: true,
            ..Fields::default()
        });
        builder.push(0, Some(b"cookie"), Some(server), &[]).unwrap();
        builder.append_to(&mut bytes).unwrap();
        bytes.extend(broker_marker(offset + 1, checksum, control_type));
    }
    let (said, success) = balancer_on(&bytes, "broker.log");
    let due = "records aborted 1\nrecords undecided 0\ncookies pinned 1\ncookies withdrawn 0\n\
               committed 1\nend at ";
    assert!(success && said.contains(due), "{said}");
}

/// The bytes of document 01's bare commit, all other fields 0, after a batch of a transaction.
#[test]
fn balancer_stops_at_a_bare_marker() {
    let mut bytes = BatchBuilder::default().to_vec().unwrap();
    let mut marker = vec![0; 65];
    marker[11] = 53;
    marker[16] = 2;
    marker[17..21].copy_from_slice(&[0xBC, 0x2B, 0x21, 0x21]);
    marker[22] = 0x20;
    marker[60] = 1;
    marker[64] = 1;
    bytes.extend(marker);
    let (said, success) = balancer_on(&bytes, "bare.log");
    assert!(!success && said.ends_with(" (number 41)\n"), "{said}");
    let stop = "\nstop at 61: bare markers are withdrawn; `oddrafisk convert IN OUT` ";
    assert!(said.contains(stop), "{said}");
}

#[test]
fn balancer_needs_a_file() {
    for mut command in [program("balancer"), program("write_log")] {
        assert_eq!(command.output().unwrap().status.code(), Some(2));
    }
    for options in [&["--keyed"][..], &["--skip", "--skip"]] {
        let mut command = program("balancer");
        let ended = command.arg(scratch("any.log")).args(options).output();
        assert_eq!(ended.unwrap().status.code(), Some(2), "{options:?}");
    }
    let missing = program("balancer")
        .arg(scratch("missing.log"))
        .output()
        .unwrap();
    assert_eq!(missing.status.code(), Some(2));
    assert!(String::from_utf8(missing.stderr)
        .unwrap()
        .contains("missing.log"));
}
