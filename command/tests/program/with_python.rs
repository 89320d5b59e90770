//! What Python's library tells: whether JSON is JSON, and what is seen on a terminal.
//!
//! command/test leaves these out where there is no Python.

use std::ffi::OsStr;
use std::fs;
use std::os::unix::ffi::OsStrExt;
use std::path::{Path, PathBuf};
use std::process::{Command, Stdio};
use std::slice::from_ref;

use crate::dump::every_kind;
use crate::format::{altered, one_record};
use crate::run::{file, program, samples, scratch};

fn script(name: &str) -> Command {
    let folder = Path::new(env!("CARGO_MANIFEST_DIR")).join("tests/program");
    let mut command = Command::new("python3");
    command.arg("-B").arg(folder.join(name));
    command
}

/// Holds the lines of `dump --json` to the script's reading of the files, and returns how many
/// there were.
fn compare(fields: bool, files: &[PathBuf]) -> usize {
    let options = if fields { &["--fields"][..] } else { &[] };
    let mut dump = program()
        .args(["dump", "--json"])
        .args(options)
        .args(files)
        .stdout(Stdio::piped())
        .spawn()
        .unwrap();
    let mut command = script("records.py");
    command
        .args(options)
        .args(files)
        .stdin(dump.stdout.take().unwrap());
    let compared = command.output().unwrap();
    assert!(dump.wait().unwrap().success());
    let errors = String::from_utf8_lossy(&compared.stderr);
    assert!(compared.status.success(), "{files:?}: {errors}");
    String::from_utf8(compared.stdout)
        .unwrap()
        .trim()
        .parse()
        .unwrap()
}

#[test]
fn json_of_bytes_of_every_kind() {
    let path = file("json", "every_kind.log", &every_kind());
    assert_eq!(compare(false, from_ref(&path)), 5);
    assert_eq!(compare(true, &[path]), 9);
}

#[test]
fn json_of_the_samples() {
    let paths: Vec<PathBuf> = samples().into_iter().map(|(path, _)| path).collect();
    let alone: usize = paths.iter().map(|path| compare(true, from_ref(path))).sum();
    assert!(400 < alone);
    assert_eq!(compare(true, &paths), alone);
}

#[test]
fn json_has_names_that_are_no_text() {
    let odd = file(
        "json",
        OsStr::from_bytes(b"odd \xFF\n\".log"),
        &one_record(),
    );
    let plain = file("json", "gr\u{FC}n.log", &one_record());
    assert_eq!(compare(true, &[odd, plain]), 4);
}

/// How a run with a terminal has ended.
struct Seen {
    status: i32,
    /// What was on the terminal before the second half of slow input.
    early: String,
    terminal: String,
    output: String,
    errors: String,
}

fn run_at_terminal(test: &str, streams: &str, input: &[&str], arguments: &[&str]) -> Seen {
    run_with(script("terminal.py"), test, streams, input, arguments)
}

fn run_with(
    mut command: Command,
    test: &str,
    streams: &str,
    input: &[&str],
    arguments: &[&str],
) -> Seen {
    let folder = scratch(&format!("terminal/{test}"));
    command.arg(&folder).arg(streams).args(input);
    command.arg(env!("CARGO_BIN_EXE_oddrafisk")).args(arguments);
    let ended = command.output().unwrap();
    let errors = String::from_utf8_lossy(&ended.stderr);
    assert!(errors.is_empty(), "{errors}");
    let read = |name| fs::read_to_string(folder.join(name)).unwrap();
    Seen {
        status: ended.status.code().unwrap(),
        early: read("early"),
        terminal: read("terminal"),
        output: read("output"),
        errors: read("errors"),
    }
}

/// The lines that a user sees at the end, without the blanks after them.
fn screen(terminal: &str) -> Vec<String> {
    let mut lines = vec![Vec::new()];
    let mut column = 0;
    for c in terminal.chars() {
        match c {
            '\r' => column = 0,
            '\n' => {
                lines.push(Vec::new());
                column = 0;
            }
            _ => {
                let line = lines.last_mut().unwrap();
                line.resize(line.len().max(column + 1), ' ');
                line[column] = c;
                column += 1;
            }
        }
    }
    let text = |line: Vec<char>| line.into_iter().collect::<String>().trim_end().to_string();
    lines.into_iter().map(text).collect()
}

fn damaged(test: &str) -> String {
    let path = file(test, "damaged.log", &altered(one_record(), 67, b'B'));
    path.to_str().unwrap().to_string()
}

#[test]
fn marks_are_red_on_a_terminal() {
    let path = damaged("colour");
    let plain = program().args(["verify", &path]).output().unwrap().stdout;
    let plain = String::from_utf8(plain).unwrap();
    let mut command = script("terminal.py");
    command.env("TERM", "xterm").env_remove("NO_COLOR");
    let seen = run_with(command, "colour", "oe", &["none"], &["verify", &path]);
    assert_eq!(seen.status, 1);
    let (red, end) = ("\x1B[31m", "\x1B[0m");
    assert_eq!(seen.terminal.matches(&format!("{red}^^{end}")).count(), 4);
    assert_eq!(seen.terminal.matches(red).count(), 8);
    let stripped = seen.terminal.replace(red, "").replace(end, "");
    assert_eq!(stripped, plain);
}

#[test]
fn colour_can_be_forbidden() {
    let path = damaged("plain");
    for (name, value, coloured) in [
        ("NO_COLOR", "1", false),
        ("NO_COLOR", "", true),
        ("TERM", "dumb", false),
    ] {
        let mut command = script("terminal.py");
        command
            .env("TERM", "xterm")
            .env_remove("NO_COLOR")
            .env(name, value);
        let seen = run_with(command, "plain", "oe", &["none"], &["verify", &path]);
        assert_eq!(seen.terminal.contains('\x1B'), coloured, "{name}={value}");
        assert!(seen.terminal.contains("^^ ") || coloured);
    }
}

#[test]
fn quick_files_have_no_bar() {
    let path = damaged("quick");
    for verb in ["list", "dump", "verify"] {
        let seen = run_at_terminal("quick", "e", &["none"], &[verb, &path]);
        assert!(!seen.terminal.contains('\r'), "{verb}: {}", seen.terminal);
        assert_eq!(seen.status, 1);
    }
}

fn slow_file(test: &str) -> String {
    let path = file(test, "slow.log", &one_record().repeat(1000));
    path.to_str().unwrap().to_string()
}

/// 69,000 bytes, in halves.
#[test]
fn slow_input_has_a_bar_that_goes_away() {
    let path = slow_file("bar");
    let seen = run_at_terminal("bar", "e", &["slow", &path], &["list", "-"]);
    assert!(
        seen.terminal.contains("\rstandard input 0.0 MB"),
        "{:?}",
        seen.terminal
    );
    assert!(
        seen.terminal.contains("\rstandard input 0.1 MB"),
        "{:?}",
        seen.terminal
    );
    assert_eq!(screen(&seen.terminal), [""]);
    assert!(seen.terminal.ends_with('\r'));
    assert!(seen.output.ends_with("\nend at 69000\n"));
    assert_eq!((seen.status, seen.errors.as_str()), (0, ""));
}

#[test]
fn bar_leaves_the_answer_of_verify_alone() {
    let path = slow_file("answer");
    let seen = run_at_terminal("answer", "oe", &["slow", &path], &["verify", "-"]);
    assert!(
        seen.terminal.contains("\rstandard input 0.0 MB"),
        "{:?}",
        seen.terminal
    );
    let due = "standard input: all right, 1000 batches, 1000 records, 69000 bytes";
    assert_eq!(screen(&seen.terminal), [due, ""]);
}

/// A bar would come between the lines, each of which is there as soon as its batch is.
#[test]
fn list_on_a_terminal_has_no_bar() {
    let path = slow_file("lines");
    let seen = run_at_terminal("lines", "oe", &["slow", &path], &["list", "-"]);
    assert!(!seen.terminal.contains('\r') && !seen.terminal.contains(" MB"));
    assert_eq!(seen.terminal.lines().count(), 1002);
    assert_eq!(seen.early.lines().count(), 501);
}

#[test]
fn standard_error_that_is_no_terminal_has_no_bar() {
    let path = slow_file("errors");
    let seen = run_at_terminal("errors", "o", &["slow", &path], &["verify", "-"]);
    assert!(!seen.terminal.contains('\r'));
    assert_eq!((seen.status, seen.errors.as_str()), (0, ""));
}

/// The first batch never comes in full.
#[test]
fn bar_leaves_the_complaint_alone() {
    let path = file("complaint", "slow.log", &one_record()[..60]);
    let input = ["slow-broken", path.to_str().unwrap()];
    let seen = run_at_terminal("complaint", "e", &input, &["verify", "-"]);
    assert!(
        seen.terminal.contains("\rstandard input 0.0 MB"),
        "{:?}",
        seen.terminal
    );
    let lines = screen(&seen.terminal);
    assert_eq!(lines.len(), 2, "{lines:?}");
    assert!(lines[0].starts_with("oddrafisk: standard input: Input/output error"));
}

/// The lines before it are printed, and neither an end nor a stop.
#[test]
fn read_error_halfway_is_said() {
    let path = file("broken", "broken.log", &one_record().repeat(3));
    let path = path.to_str().unwrap();
    for verb in ["list", "dump", "verify"] {
        let seen = run_at_terminal("broken", "", &["broken", path], &[verb, "-"]);
        assert_eq!(seen.status, 3, "{verb}");
        assert!(seen
            .errors
            .starts_with("oddrafisk: standard input: Input/output error"));
        let lines: Vec<&str> = seen.output.lines().collect();
        match verb {
            "list" => assert_eq!(lines[1..], ["7 69 records 1 0"; 3]),
            "dump" => assert_eq!(lines, ["7\t1731657600017\tnull\t\"A\""; 3]),
            _ => assert!(lines.is_empty()),
        }
    }
}

#[test]
fn conversion_that_cannot_be_read_on_leaves_nothing() {
    let path = file("half", "half.log", &one_record().repeat(3));
    let output = path.with_file_name("out.log");
    let arguments = ["convert", "-", output.to_str().unwrap()];
    let input = ["broken", path.to_str().unwrap()];
    let seen = run_at_terminal("half", "", &input, &arguments);
    assert_eq!((seen.status, seen.output.as_str()), (3, ""));
    assert!(seen
        .errors
        .starts_with("oddrafisk: standard input: Input/output error"));
    let names = fs::read_dir(path.parent().unwrap()).unwrap();
    let names: Vec<_> = names.map(|entry| entry.unwrap().file_name()).collect();
    assert_eq!(names, ["half.log"]);
}
