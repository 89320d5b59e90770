//! Standard input and output in all their states, and how much memory is taken.

use std::fs::{self, File};
use std::io::{BufRead, BufReader, Read, Write};
use std::path::{Path, PathBuf};
use std::process::{ChildStdin, Command, Stdio};
use std::thread;
use std::time::{Duration, Instant};

use crate::format::{one_record, Head};
use crate::manners::{files, VERBS};
use crate::run::{file, program, run_on, scratch, Ended};

fn run_with_input(arguments: &[&str], input: impl Into<Stdio>) -> Ended {
    let mut command = program();
    command.args(arguments).stdin(input);
    command.output().unwrap().into()
}

#[test]
fn input_that_cannot_be_read_is_said() {
    let folder = File::open(scratch("input")).unwrap();
    let write_only = File::create(scratch("input").join("write_only")).unwrap();
    for (input, words) in [
        (folder, "Is a directory"),
        (write_only, "Bad file descriptor"),
    ] {
        for verb in VERBS {
            let ended = run_with_input(&[verb, "-"], input.try_clone().unwrap());
            assert_eq!((ended.status, ended.output.as_str()), (3, ""));
            let start = format!("oddrafisk: standard input: {words}");
            assert!(ended.errors.starts_with(&start), "{}", ended.errors);
        }
    }
}

/// The beginning of a batch that names 2 GiB.
fn long_batch() -> Vec<u8> {
    let mut bytes = Head::default().with_body(0, &[]);
    bytes[8..12].copy_from_slice(&i32::MAX.to_be_bytes());
    bytes
}

/// A file that another program has read to some place begins there, and has as much less.
#[test]
fn input_begins_where_it_stands() {
    let path = file("begun", "begun.log", &[one_record(), long_batch()].concat());
    let mut input = File::open(path).unwrap();
    input.read_exact(&mut [0; 69]).unwrap();
    let ended = run_with_input(&["verify", "-"], input);
    let due = "stop 1 at 0: the log is torn: 61 bytes are there, 2147483659 are needed\n";
    let due = format!("standard input: {due}");
    assert!(ended.output.starts_with(&due), "{}", ended.output);
}

#[test]
fn input_beside_files() {
    let [(_, whole), ..] = files("beside");
    let arguments = ["list", "-", whole.to_str().unwrap()];
    let ended = run_on(&arguments, &one_record().repeat(2));
    let ends: Vec<&str> = ended
        .output
        .lines()
        .filter(|line| line.starts_with("end "))
        .collect();
    assert_eq!(ends, ["end at 138", "end at 69"]);
    assert_eq!(ended.status, 0);
}

/// A shell closes it; the null device is an empty log only where somebody has opened it to be read.
#[test]
fn closed_input_is_no_empty_log() {
    for verb in VERBS {
        let closing = |input: &str| -> Ended {
            let words = format!("\"$0\" {verb} - {input}");
            let mut shell = Command::new("sh");
            shell.args(["-c", &words, env!("CARGO_BIN_EXE_oddrafisk")]);
            shell.output().unwrap().into()
        };
        let ended = closing("<&-");
        assert_eq!((ended.status, ended.output.as_str()), (3, ""));
        assert_eq!(ended.errors, "oddrafisk: standard input: it is closed\n");
        let ended = closing("</dev/null");
        assert_eq!((ended.status, ended.errors.as_str()), (0, ""));
    }
}

/// More lines than a pipe and a buffer hold.
fn large_log(test: &str) -> PathBuf {
    file(test, "large.log", &one_record().repeat(60_000))
}

#[test]
fn closed_pipe_ends_quietly() {
    let path = large_log("head");
    for arguments in [&["list"][..], &["dump"], &["dump", "--json", "--fields"]] {
        let mut child = program()
            .args(arguments)
            .arg(&path)
            .stdout(Stdio::piped())
            .stderr(Stdio::piped())
            .spawn()
            .unwrap();
        let mut output = BufReader::new(child.stdout.take().unwrap());
        let mut line = String::new();
        output.read_line(&mut line).unwrap();
        assert!(!line.is_empty());
        drop(output);
        let ended: Ended = child.wait_with_output().unwrap().into();
        assert_eq!(
            (ended.status, ended.errors.as_str()),
            (0, ""),
            "{arguments:?}"
        );
    }
}

/// A pipe whose reader has gone. What another test starts at the same time has the reader's end too,
/// until it begins to run.
fn closed_pipe() -> ChildStdin {
    let mut reader = Command::new("true").stdin(Stdio::piped()).spawn().unwrap();
    let mut pipe = reader.stdin.take().unwrap();
    reader.wait().unwrap();
    while pipe.write(b" ").is_ok() {
        thread::sleep(Duration::from_millis(1));
    }
    pipe
}

/// Of a folder there is nothing to write, so that it is said on standard error as ever.
#[test]
fn closed_pipe_keeps_the_status_so_far() {
    for (status, path) in files("closed") {
        for verb in VERBS {
            let mut command = program();
            command.arg(verb).arg(&path).stdout(closed_pipe());
            let ended: Ended = command.output().unwrap().into();
            assert_eq!(ended.status, status, "{verb}");
            let lines = ended.errors.lines().count();
            assert_eq!(lines, usize::from(status == 3), "{verb}: {}", ended.errors);
        }
    }
}

fn assert_unwritable(arguments: &[&str], output: File, words: &str) {
    let mut command = program();
    command.args(arguments).stdout(output);
    let ended: Ended = command.output().unwrap().into();
    assert_eq!(ended.status, 3, "{arguments:?}");
    let start = format!("oddrafisk: standard output: {words}");
    assert!(ended.errors.starts_with(&start), "{}", ended.errors);
    assert_eq!(ended.errors.lines().count(), 1);
}

#[test]
fn output_that_cannot_be_written_is_said() {
    let path = large_log("full");
    let path = path.to_str().unwrap();
    for arguments in [
        &["list", path][..],
        &["dump", path],
        &["verify", path],
        &["--help"],
        &["-V"],
    ] {
        let full = File::options().write(true).open("/dev/full").unwrap();
        assert_unwritable(arguments, full, "No space left on device");
        let read_only = File::open("/dev/null").unwrap();
        assert_unwritable(arguments, read_only, "Bad file descriptor");
    }
}

/// A verb on a file whose length names 2 GiB, with 200 MB of memory and in far less time than 2 GiB
/// take. A pipe has no length.
fn assert_torn(verb: &str, path: &Path, piped: bool, there: u64) {
    let began = Instant::now();
    let (piped_file, given) = match piped {
        true => (path, Path::new("-")),
        false => (Path::new("/dev/null"), path),
    };
    let mut cat = Command::new("cat");
    let mut cat = cat.arg(piped_file).stdout(Stdio::piped()).spawn().unwrap();
    let ended: Ended = Command::new("bash")
        .args(["-c", "ulimit -v 200000 && exec \"$@\"", "bash"])
        .args([env!("CARGO_BIN_EXE_oddrafisk"), verb])
        .arg(given)
        .stdin(cat.stdout.take().unwrap())
        .output()
        .unwrap()
        .into();
    cat.wait().unwrap();
    assert_eq!(ended.status, 2, "{}", ended.errors);
    let words = format!("the log is torn: {there} bytes are there, 2147483659 are needed");
    assert!((ended.output + &ended.errors).contains(&words));
    assert!(began.elapsed() < Duration::from_secs(10));
}

/// The second file has a hole of 400 MB after the same bytes: more than the memory that is allowed.
#[test]
fn length_of_2_gib_costs_nothing() {
    let bytes = [long_batch(), vec![0; 1000]].concat();
    let short = file("long", "short.log", &bytes);
    let hole = file("long", "hole.log", &bytes);
    let grown = fs::OpenOptions::new().write(true).open(&hole).unwrap();
    grown.set_len(400_000_000).unwrap();
    for verb in VERBS {
        assert_torn(verb, &short, true, 1061);
        assert_torn(verb, &short, false, 1061);
        assert_torn(verb, &hole, false, 400_000_000);
    }
}

#[test]
fn no_escape_codes_without_a_terminal() {
    let [_, (_, damaged), ..] = files("codes");
    for verb in VERBS {
        let mut command = program();
        command.env("TERM", "xterm-256color").env_remove("NO_COLOR");
        let output = command.arg(verb).arg(&damaged).output().unwrap();
        let said = [output.stdout, output.stderr].concat();
        assert!(!said.is_empty());
        assert!(!said.contains(&0x1B) && !said.contains(&b'\r'));
    }
}
