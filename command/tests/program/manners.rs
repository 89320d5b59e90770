//! What all verbs do alike: statuses, help and wrong command lines.

use std::fs::{self, File};
use std::path::PathBuf;

use crate::format::{altered, one_record};
use crate::run::{file, program, run, scratch, Ended};

/// Those that read files and write none.
pub const VERBS: [&str; 3] = ["list", "dump", "verify"];

/// A file for each status.
pub fn files(test: &str) -> [(i32, PathBuf); 4] {
    let two = one_record().repeat(2);
    let damaged = altered(two.clone(), 69 + 67, b'B');
    [
        (0, file(test, "whole.log", &one_record())),
        (1, file(test, "damaged.log", &damaged)),
        (2, file(test, "torn.log", &two[..137])),
        (3, scratch(&format!("{test}/folder"))),
    ]
}

#[test]
fn status_is_the_greatest() {
    let files = files("status");
    for verb in VERBS {
        for (first_status, first) in &files {
            let alone = run([verb.as_ref(), first.as_os_str()]);
            assert_eq!(alone.status, *first_status, "{verb}");
            for (second_status, second) in &files {
                let ended = run([verb.as_ref(), first.as_os_str(), second.as_os_str()]);
                assert_eq!(ended.status, *first_status.max(second_status), "{verb}");
            }
        }
    }
}

/// Nothing is printed of a file that cannot be read, and the others are done.
#[test]
fn what_cannot_be_read_is_said() {
    let [(_, whole), _, _, (_, folder)] = files("unreadable");
    for verb in VERBS {
        let due = run([verb.as_ref(), whole.as_os_str()]);
        assert_eq!((due.status, due.errors.as_str()), (0, ""));
        for (path, words) in [
            (
                whole.with_file_name("missing.log"),
                "No such file or directory",
            ),
            (folder.clone(), "Is a directory"),
            (PathBuf::from("/proc/self/mem"), "Input/output error"),
        ] {
            let alone = run([verb.as_ref(), path.as_os_str()]);
            assert_eq!((alone.status, alone.output.as_str()), (3, ""), "{verb}");
            let start = format!("oddrafisk: {}: {words}", path.display());
            assert!(alone.errors.starts_with(&start), "{}", alone.errors);
            let both = run([verb.as_ref(), path.as_os_str(), whole.as_os_str()]);
            assert_eq!((both.status, both.errors), (3, alone.errors));
            assert!(both.output.ends_with(&due.output), "{}", both.output);
        }
    }
}

/// The system's file with the program's own name and an end of line is one of them.
#[test]
fn file_that_says_it_is_empty_is_read() {
    let path = "/proc/self/comm";
    assert_eq!(fs::metadata(path).unwrap().len(), 0);
    let ended = run(["verify", path]);
    let due = "stop 1 at 0: the log is torn: 10 bytes are there, 12 are needed\n";
    let due = format!("{path}: {due}");
    assert!(ended.output.starts_with(&due), "{}", ended.output);
    assert_eq!(ended.status, 2);
}

/// Both streams in one file, as `2>&1` has it.
#[test]
fn complaint_comes_after_the_lines_before_it() {
    let [(_, whole), (_, damaged), ..] = files("order");
    let path = scratch("order").join("both");
    let output = File::create(&path).unwrap();
    let status = program()
        .arg("list")
        .args([&damaged, &whole])
        .stderr(output.try_clone().unwrap())
        .stdout(output)
        .status()
        .unwrap();
    assert_eq!(status.code(), Some(1));
    let text = fs::read_to_string(path).unwrap();
    let first = |line: &str| line.split(' ').next().unwrap().to_string();
    let (damaged, whole) = (damaged.display(), whole.display());
    let due = format!("{damaged}: base 7 stop oddrafisk:  {whole}: base 7 end");
    let firsts: Vec<String> = text.lines().map(first).collect();
    assert_eq!(firsts.join(" "), due);
}

#[test]
fn help_has_usage_examples_and_statuses() {
    let mut pages = vec![run(["--help"]), run(["-h"])];
    let usage = "\nusage: oddrafisk VERB [OPTION].. FILE..\n       \
                 oddrafisk convert [OPTION].. IN OUT\n\n";
    assert!(pages[0].output.contains(usage), "{}", pages[0].output);
    let operands = VERBS.map(|verb| (verb, "FILE.."));
    for (verb, operands) in operands.into_iter().chain([("convert", "IN OUT")]) {
        assert!(pages[0].output.contains(&format!("\n  {verb} ")));
        let page = run([verb, "--help"]);
        let usage = format!("\nusage: oddrafisk {verb} [OPTION].. {operands}\n");
        assert!(page.output.contains(&usage));
        assert_eq!(page, run([verb, "-h", "missing.log"]));
        pages.push(page);
    }
    let parts = [
        "\nusage: oddrafisk ",
        "\nexamples:\n  ",
        "\nexit status",
        "- is standard input",
    ];
    for page in &pages {
        assert_eq!((page.status, page.errors.as_str()), (0, ""));
        assert!(
            parts.iter().all(|part| page.output.contains(part)),
            "{}",
            page.output
        );
        assert!(page.output.lines().all(|line| line.len() <= 100));
    }
}

/// What a newcomer meets first: what is not yet Kafka's, and which markers are read.
#[test]
fn help_says_what_is_kafka_s_and_what_not() {
    let dump = run(["dump", "--help"]).output;
    for part in [
        "  --json ",
        "  --fields ",
        "(request C-12)",
        "it shows here alone",
    ] {
        assert!(dump.contains(part), "{dump}");
    }
    for verb in VERBS {
        let page = run([verb, "--help"]).output.replace('\n', " ");
        for part in [
            "  --control MODE read in this mode: keyed, the default, or bare",
            "are keyed, as brokers write them",
            "It is refused by number 41 in either MODE, and `oddrafisk convert IN OUT` ",
        ] {
            assert!(page.contains(part), "{page}");
        }
    }
    let page = run(["convert", "--help"]).output.replace('\n', " ");
    assert!(!page.contains("--control"), "{page}");
    for part in [
        "`.oddrafisk-..` beside OUT",
        "OUT stays as it was",
        "Nobody may write to IN meanwhile: what is appended during a run may be lost.",
        "a group that cannot be kept gets no rights.",
    ] {
        assert!(page.contains(part), "{page}");
    }
}

#[test]
fn version_is_the_package_s() {
    let due = format!("oddrafisk {}\n", env!("CARGO_PKG_VERSION"));
    for arguments in [
        &["--version"][..],
        &["-V"],
        &["list", "-V"],
        &["dump", "--version"],
    ] {
        let ended = run(arguments);
        assert_eq!((ended.status, ended.errors.as_str()), (0, ""));
        assert_eq!(ended.output, due);
    }
}

const WRONG: [(&[&str], &str); 29] = [
    (&[], "no verb is given"),
    (&["lits", "a.log"], "there is no verb lits"),
    (&["-", "a.log"], "there is no verb -"),
    (&["--json", "dump", "a.log"], "there is no verb --json"),
    (&["\u{1B}[31m"], "there is no verb \\u{1b}[31m"),
    (&["dump", "--jsn", "a.log"], "dump has no option --jsn"),
    (&["dump", "a.log", "-j"], "dump has no option -j"),
    (
        &["dump", "--json=1", "a.log"],
        "dump has no option --json=1",
    ),
    (&["list", "--json", "a.log"], "list has no option --json"),
    (
        &["verify", "a.log", "--fields"],
        "verify has no option --fields",
    ),
    (&["list"], "list needs a FILE, and - is standard input"),
    (
        &["list", "a.log", "--control"],
        "list needs keyed or bare after --control",
    ),
    (
        &["dump", "--control", "broker", "a.log"],
        "dump needs keyed or bare after --control, and not broker",
    ),
    (
        &["verify", "--control=Keyed", "a.log"],
        "verify needs keyed or bare after --control, and not Keyed",
    ),
    (
        &["list", "--control=", "a.log"],
        "list needs keyed or bare after --control, and not ",
    ),
    (
        &["list", "--control", "keyed", "--control", "a.log"],
        "list needs keyed or bare after --control, and not a.log",
    ),
    (
        &["list", "--controlkeyed", "a.log"],
        "list has no option --controlkeyed",
    ),
    (
        &["dump", "--control", "keyed"],
        "dump needs a FILE, and - is standard input",
    ),
    (
        &["dump", "--json"],
        "dump needs a FILE, and - is standard input",
    ),
    (
        &["verify", "--"],
        "verify needs a FILE, and - is standard input",
    ),
    (
        &["verify", "-", "a.log", "-"],
        "verify can read standard input once, and - is there twice",
    ),
    (&["convert"], "convert needs IN and OUT, and no other file"),
    (
        &["convert", "a.log"],
        "convert needs IN and OUT, and no other file",
    ),
    (
        &["convert", "a.log", "b.log", "c.log"],
        "convert needs IN and OUT, and no other file",
    ),
    (
        &["convert", "a.log", "-"],
        "convert needs a file for OUT, and - is none",
    ),
    (
        &["convert", "-", "-"],
        "convert needs a file for OUT, and - is none",
    ),
    (
        &["convert", "--control", "keyed", "a.log", "b.log"],
        "convert has no option --control",
    ),
    (
        &["convert", "--control=keyed", "a.log", "b.log"],
        "convert has no option --control=keyed",
    ),
    (
        &["convert", "a.log", "b.log", "--json"],
        "convert has no option --json",
    ),
];

#[test]
fn wrong_command_lines_are_64() {
    for (arguments, words) in WRONG {
        let ended = run(arguments);
        assert_eq!(
            (ended.status, ended.output.as_str()),
            (64, ""),
            "{arguments:?}"
        );
        let mut verbs = VERBS.into_iter().chain(["convert"]);
        let verb = verbs.find(|verb| words.starts_with(verb));
        let page = verb.map_or("--help".to_string(), |verb| format!("{verb} --help"));
        let due = format!("oddrafisk: {words}; see oddrafisk {page}\n");
        assert_eq!(ended.errors, due);
    }
}

#[test]
fn options_end_at_two_dashes() {
    file("dashes", "--json", &one_record());
    let mut command = program();
    command
        .current_dir(scratch("dashes"))
        .args(["verify", "--", "--json"]);
    let ended: Ended = command.output().unwrap().into();
    let due = "--json: all right, 1 batch, 1 record, 69 bytes\n";
    assert_eq!(ended.output, due);
}
