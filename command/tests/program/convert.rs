//! `oddrafisk convert`: what is written, and that a run which fails leaves everything as it was.

use std::fs::{self, File, Permissions};
use std::os::unix::fs::{chown, symlink, FileTypeExt, MetadataExt, PermissionsExt};
use std::path::{Path, PathBuf};
use std::process::Command;

use crate::format::{
    altered, bare_marker, broker_marker, crc32c, marker, of_size, one_record, Head,
};
use crate::run::{program, run, run_on, samples, scratch, Ended};

/// Base 5, epoch 3, attributes 80 70, both times 1000, producer 9 with epoch 1, sequence -1, and a
/// commit. The checksum was worked out apart from this program.
fn worked() -> Vec<u8> {
    let head = Head {
        base_offset: 5,
        partition_leader_epoch: 3,
        magic: 2,
        attributes: 0x8070,
        last_offset_delta: 0,
        first_timestamp: 1000,
        max_timestamp: 1000,
        producer_id: 9,
        producer_epoch: 1,
        base_sequence: -1,
    };
    let bytes = head.with_body(1, &[0, 0, 0, 1]);
    assert_eq!(bytes[17..21], [0x4D, 0x84, 0x95, 0xB3]);
    bytes
}

/// The keyed form of a batch with a bare marker.
fn keyed_form(bare: &[u8]) -> Vec<u8> {
    let body = [0x14, 0, 0, 0, 8, 0, 0, 0, bare[64], 1, 0];
    let checked = [&bare[21..61], &body].concat();
    let (length, checksum) = (60u32.to_be_bytes(), crc32c(&checked).to_be_bytes());
    [&bare[..8], &length, &bare[12..17], &checksum, &checked].concat()
}

/// A log with bare markers among batches of every other kind, and what it is to become.
fn log() -> [Vec<u8>; 2] {
    let [abort, commit] = [bare_marker(9, 0), bare_marker(14, 1)];
    let old = [
        &one_record()[..],
        &abort,
        &Head::at(10).with_body(0, &[]),
        &broker_marker(11, 0),
        &marker(12, 1),
        &commit,
        &worked(),
        &one_record(),
    ];
    let mut new = old.map(<[u8]>::to_vec);
    for at in [1, 5, 6] {
        new[at] = keyed_form(old[at]);
    }
    assert_eq!(new[6][17..21], [0x19, 0x8B, 0x7A, 0x08]);
    [old.concat(), new.concat()]
}

/// A folder of a test, with IN and OUT in it.
struct Folder {
    path: PathBuf,
}

impl Folder {
    /// With these bytes in IN, and no OUT.
    fn new(test: &str, bytes: &[u8]) -> Self {
        let path = scratch("convert").join(test);
        let _ = fs::remove_dir_all(&path);
        fs::create_dir(&path).unwrap();
        let folder = Folder { path };
        fs::write(folder.input(), bytes).unwrap();
        folder
    }

    fn input(&self) -> PathBuf {
        self.path.join("in.log")
    }

    fn output(&self) -> PathBuf {
        self.path.join("out.log")
    }

    fn convert(&self) -> Ended {
        run(["convert".into(), self.input(), self.output()])
    }

    /// The names in it.
    fn names(&self) -> Vec<String> {
        let entries = fs::read_dir(&self.path).unwrap();
        let name = |entry: fs::DirEntry| entry.file_name().into_string().unwrap();
        let mut names: Vec<String> = entries.map(|entry| name(entry.unwrap())).collect();
        names.sort();
        names
    }

    /// What is said on standard output of a log that is converted.
    fn summary(&self, words: &str) -> String {
        let (input, output) = (self.input(), self.output());
        format!(
            "{}: {words}, written to {}\n",
            input.display(),
            output.display()
        )
    }

    /// Runs it without OUT and with one, and both times nothing is to change.
    fn assert_unchanged(&self, run: impl Fn() -> Ended, status: i32, errors: &str) {
        let old = fs::read(self.input()).unwrap();
        for (before, names) in [
            (None, &["in.log"][..]),
            (Some(&b"what was there before"[..]), &["in.log", "out.log"]),
        ] {
            if let Some(bytes) = before {
                fs::write(self.output(), bytes).unwrap();
            }
            let ended = run();
            assert_eq!((ended.status, ended.output.as_str()), (status, ""));
            assert_eq!(ended.errors, errors);
            assert_eq!(self.names(), names);
            assert_eq!(fs::read(self.input()).unwrap(), old);
            let after = fs::read(self.output()).ok();
            assert_eq!(after.as_deref(), before);
        }
    }
}

fn assert_converted(ended: Ended, summary: String) {
    assert_eq!(ended.output, summary);
    assert_eq!((ended.status, ended.errors.as_str()), (0, ""));
}

#[test]
fn log_with_bare_markers_is_converted_and_then_read() {
    let [old, new] = log();
    let folder = Folder::new("log", &old);
    let words = format!("8 batches, 3 markers converted, {} bytes", old.len() + 21);
    assert_converted(folder.convert(), folder.summary(&words));
    assert_eq!(fs::read(folder.output()).unwrap(), new);
    assert_eq!(fs::read(folder.input()).unwrap(), old);
    assert_eq!(folder.names(), ["in.log", "out.log"]);
    let verified = |path: PathBuf| run(["verify".into(), path]);
    let due = format!(": all right, 8 batches, 2 records, {} bytes\n", new.len());
    let ended = verified(folder.output());
    assert!(ended.output.ends_with(&due), "{}", ended.output);
    assert_eq!((ended.status, verified(folder.input()).status), (0, 1));
}

#[test]
fn converting_twice_gives_the_same_file() {
    let [old, new] = log();
    let folder = Folder::new("twice", &old);
    let once = folder.path.join("once.log");
    run(["convert".into(), folder.input(), once.clone()]);
    let ended = run(["convert".into(), once.clone(), folder.output()]);
    let due = format!(": 8 batches, 0 markers converted, {} bytes, ", new.len());
    assert!(ended.output.contains(&due), "{}", ended.output);
    for path in [once, folder.output()] {
        assert_eq!(fs::read(path).unwrap(), new);
    }
}

#[test]
fn out_may_be_in() {
    let [old, new] = log();
    let folder = Folder::new("same", &old);
    let path = folder.input();
    let ended = run(["convert".as_ref(), path.as_os_str(), path.as_os_str()]);
    assert_eq!((ended.status, ended.errors.as_str()), (0, ""));
    assert_eq!(fs::read(&path).unwrap(), new);
    assert_eq!(folder.names(), ["in.log"]);
}

#[test]
fn samples_and_an_empty_file_are_copied() {
    let mut logs: Vec<Vec<u8>> = samples().into_iter().map(|(_, bytes)| bytes).collect();
    logs.push(Vec::new());
    for bytes in logs {
        let folder = Folder::new("copied", &bytes);
        let ended = folder.convert();
        let due = format!(" 0 markers converted, {} bytes, ", bytes.len());
        assert!(ended.output.contains(&due), "{}", ended.output);
        assert_eq!(ended.status, 0);
        assert_eq!(fs::read(folder.output()).unwrap(), bytes);
    }
    let folder = Folder::new("one", &bare_marker(3, 1));
    let summary = folder.summary("1 batch, 1 marker converted, 72 bytes");
    assert_converted(folder.convert(), summary);
}

/// Larger than what is read and written at a time, with a marker between any two.
#[test]
fn large_log_is_converted() {
    let parts = [of_size(300_000), of_size(100_000), one_record()];
    let with = |marker: Vec<u8>| {
        let log = parts.iter().flat_map(|part| [part.clone(), marker.clone()]);
        log.collect::<Vec<_>>().concat().repeat(4)
    };
    let [old, new] = [bare_marker(4, 0), keyed_form(&bare_marker(4, 0))].map(with);
    let folder = Folder::new("large", &old);
    let words = format!("24 batches, 12 markers converted, {} bytes", new.len());
    assert_converted(folder.convert(), folder.summary(&words));
    assert!(fs::read(folder.output()).unwrap() == new);
}

#[test]
fn standard_input_is_converted() {
    let [old, new] = log();
    let folder = Folder::new("input", &[]);
    let output = folder.output();
    let ended = run_on(&["convert", "-", output.to_str().unwrap()], &old);
    let due = "standard input: 8 batches, 3 markers converted, ";
    assert!(ended.output.starts_with(due), "{}", ended.output);
    assert_eq!(fs::read(output).unwrap(), new);
}

#[test]
fn refusal_leaves_everything_as_it_was() {
    let [old, _] = log();
    let place = old.len();
    for (after, number, words) in [
        (altered(one_record(), 67, b'B'), 4, "the checksum differs"),
        (altered(worked(), 64, 0), 4, "the checksum differs"),
        (
            Head::with_attributes(0x20).with_body(1, &[0, 1, 0, 0]),
            8,
            "a field runs past its end",
        ),
        (vec![0; 12], 2, "the length of the batch is too small"),
    ] {
        let folder = Folder::new("refused", &[&old[..], &after, &one_record()].concat());
        let input = folder.input();
        let errors = format!(
            "oddrafisk: {}: stopped at {place}: {words} (number {number})\n",
            input.display()
        );
        folder.assert_unchanged(|| folder.convert(), 1, &errors);
    }
}

#[test]
fn torn_log_leaves_everything_as_it_was() {
    let [old, _] = log();
    for (after, there, needed) in [
        (&worked()[..64], 64, 65),
        (&one_record()[..16], 16, 17),
        (&[0][..], 1, 12),
    ] {
        let folder = Folder::new("torn", &[&old, after].concat());
        let (input, place) = (folder.input(), old.len());
        let errors = format!(
            "oddrafisk: {}: stopped at {place}: the log is torn: {there} bytes are there, \
             {needed} are needed (number 1)\n",
            input.display()
        );
        folder.assert_unchanged(|| folder.convert(), 2, &errors);
    }
}

/// A length of 2 GiB over a hole of 400 MB, with 200 MB of memory.
#[test]
fn length_of_2_gib_costs_nothing() {
    let folder = Folder::new("long", &[]);
    let mut bytes = Head::default().with_body(0, &[]);
    bytes[8..12].copy_from_slice(&i32::MAX.to_be_bytes());
    fs::write(folder.input(), bytes).unwrap();
    let grown = File::options().write(true).open(folder.input()).unwrap();
    grown.set_len(400_000_000).unwrap();
    let limited = shell("ulimit -v 200000 && exec \"$@\"", &folder);
    assert_eq!(limited.status, 2, "{}", limited.errors);
    assert_eq!(folder.names(), ["in.log"]);
}

/// The program on a folder's IN and OUT, by a script that calls it as `"$@"`.
fn shell(script: &str, folder: &Folder) -> Ended {
    let mut command = Command::new("bash");
    command.args(["-c", script, "bash", env!("CARGO_BIN_EXE_oddrafisk")]);
    command
        .arg("convert")
        .args([folder.input(), folder.output()]);
    command.output().unwrap().into()
}

/// As on a disk that is full: files may have 1,024 bytes. A short log fails only when all of it was
/// taken, a long one before.
#[test]
fn output_that_cannot_be_written_leaves_everything_as_it_was() {
    for bytes in [one_record().repeat(20), of_size(900_000).repeat(2)] {
        let folder = Folder::new("full", &bytes);
        let output = folder.output();
        let errors = format!(
            "oddrafisk: {}: File too large (os error 27)\n",
            output.display()
        );
        let limited = || shell("trap '' XFSZ && ulimit -f 1 && exec \"$@\"", &folder);
        folder.assert_unchanged(limited, 3, &errors);
    }
}

#[test]
fn in_that_cannot_be_read_leaves_everything_as_it_was() {
    let folder = Folder::new("unreadable", &[]);
    let missing = folder.path.join("missing.log");
    for (input, words) in [
        (missing.as_path(), "No such file or directory (os error 2)"),
        (&folder.path, "Is a directory (os error 21)"),
    ] {
        let errors = format!("oddrafisk: {}: {words}\n", input.display());
        let converted = || run(["convert".as_ref(), input, &folder.output()]);
        let _ = fs::remove_file(folder.output());
        folder.assert_unchanged(converted, 3, &errors);
    }
}

#[test]
fn out_that_is_no_file_is_refused() {
    let [old, _] = log();
    let folder = Folder::new("no_file", &old);
    let at = |name: &str| folder.path.join(name);
    fs::create_dir(at("folder")).unwrap();
    let made = Command::new("mkfifo").arg(at("pipe")).status().unwrap();
    assert!(made.success());
    symlink("nowhere", at("dangling")).unwrap();
    let names = folder.names();
    for (name, words) in [
        ("folder", "it is no file that can be replaced"),
        ("pipe", "it is no file that can be replaced"),
        ("dangling", "No such file or directory (os error 2)"),
        ("missing/out.log", "No such file or directory (os error 2)"),
        ("in.log/out.log", "Not a directory (os error 20)"),
        ("missing/", "Not a directory (os error 20)"),
    ] {
        let ended = run(["convert".into(), folder.input(), at(name)]);
        let errors = format!("oddrafisk: {}: {words}\n", at(name).display());
        assert_eq!((ended.status, ended.errors), (3, errors));
        assert_eq!((ended.output.as_str(), folder.names()), ("", names.clone()));
    }
    let kind = fs::symlink_metadata(at("pipe")).unwrap().file_type();
    assert!(kind.is_fifo());
    assert!(fs::read_dir(at("folder")).unwrap().next().is_none());
}

#[test]
fn link_stays_and_what_it_leads_to_is_replaced() {
    let [old, new] = log();
    let folder = Folder::new("link", &old);
    let real = folder.path.join("elsewhere");
    fs::create_dir(&real).unwrap();
    fs::write(real.join("real.log"), b"what was there before").unwrap();
    symlink("elsewhere/real.log", folder.output()).unwrap();
    assert_eq!(folder.convert().status, 0);
    assert!(fs::symlink_metadata(folder.output()).unwrap().is_symlink());
    assert_eq!(fs::read(real.join("real.log")).unwrap(), new);
    assert_eq!(folder.names(), ["elsewhere", "in.log", "out.log"]);
    assert_eq!(fs::read_dir(real).unwrap().count(), 1);
}

fn mode_of(path: &Path) -> u32 {
    fs::metadata(path).unwrap().permissions().mode() & 0o7777
}

/// Whatever new files have, and whatever OUT had. That a file runs as its user is not kept.
#[test]
fn permissions_are_those_of_in() {
    let [old, _] = log();
    for (special, mode) in [(0, 0o640), (0, 0o604), (0, 0o444), (0o4000, 0o750)] {
        let folder = Folder::new("permissions", &old);
        fs::set_permissions(folder.input(), Permissions::from_mode(special | mode)).unwrap();
        assert_eq!(mode_of(&folder.input()), special | mode);
        for umask in ["077", "000"] {
            let ended = shell(&format!("umask {umask} && exec \"$@\""), &folder);
            assert_eq!((ended.status, mode_of(&folder.output())), (0, mode));
            fs::set_permissions(folder.output(), Permissions::from_mode(0o600)).unwrap();
        }
    }
}

fn owner_of(path: &Path) -> (u32, u32) {
    let found = fs::metadata(path).unwrap();
    (found.uid(), found.gid())
}

/// Root alone can give a file away: for anybody else IN stays his own, and so is OUT.
#[test]
fn user_and_group_are_those_of_in() {
    let [old, _] = log();
    let folder = Folder::new("user", &old);
    let given = chown(folder.input(), Some(4321), Some(1234));
    assert_eq!(folder.convert().status, 0);
    let due = owner_of(&folder.input());
    assert_eq!(due == (4321, 1234), given.is_ok());
    assert_eq!(owner_of(&folder.output()), due);
}

/// The program as the user 5432 of the group 2345, on a log of the user 4321 and the group 1234. It
/// is run from the folder, since the way there may be closed to that user. Where the log cannot be
/// given away it stays one's own, and so does OUT with all its permissions.
#[test]
fn group_that_cannot_be_kept_gets_no_rights() {
    let [old, new] = log();
    for (groups, due) in [
        ("--clear-groups", (5432, 2345, 0o604)),
        ("--groups 1234", (5432, 1234, 0o674)),
    ] {
        let folder = Folder::new("group", &old);
        fs::set_permissions(&folder.path, Permissions::from_mode(0o777)).unwrap();
        let given = chown(folder.input(), Some(4321), Some(1234));
        fs::set_permissions(folder.input(), Permissions::from_mode(0o674)).unwrap();
        let (user, group) = owner_of(&folder.input());
        let (another, due) = match given {
            Ok(()) => {
                let another = format!("setpriv --reuid 5432 --regid 2345 {groups}");
                (another, due)
            }
            Err(_) => (String::new(), (user, group, 0o674)),
        };
        let script = "cd \"${3%/*}\" && cp \"$1\" program && exec";
        let ended = shell(
            &format!("{script} {another} ./program convert in.log out.log"),
            &folder,
        );
        assert_eq!((ended.status, ended.errors.as_str()), (0, ""));
        let (user, group) = owner_of(&folder.output());
        assert_eq!((user, group, mode_of(&folder.output())), due);
        assert_eq!(fs::read(folder.output()).unwrap(), new);
    }
}

#[test]
fn permissions_of_what_comes_by_a_pipe_are_those_of_new_files() {
    let [old, new] = log();
    let folder = Folder::new("piped", &old);
    let script = "umask 027 && cat \"$3\" | \"$1\" convert - \"$4\"";
    assert_eq!(shell(script, &folder).status, 0);
    assert_eq!(mode_of(&folder.output()), 0o640);
    assert_eq!(fs::read(folder.output()).unwrap(), new);
}

/// What an earlier run with the same number was killed over is left alone.
#[test]
fn what_another_run_has_left_behind_is_not_touched() {
    let [old, new] = log();
    let folder = Folder::new("left", &old);
    let script = "echo left >\"${3%/*}/.oddrafisk-$$-0\" && exec \"$@\"";
    assert_eq!(shell(script, &folder).status, 0);
    assert_eq!(fs::read(folder.output()).unwrap(), new);
    let names = folder.names();
    assert_eq!(names[1..], ["in.log", "out.log"]);
    let left = fs::read(folder.path.join(&names[0])).unwrap();
    assert_eq!(left, b"left\n");
}

/// The names are taken as they are, from where one is.
#[test]
fn names_without_a_folder() {
    let [old, new] = log();
    let folder = Folder::new("names", &old);
    for (words, output) in [
        (&["convert", "in.log", "out.log"][..], "out.log"),
        (&["convert", "in.log", "./-"], "-"),
        (&["convert", "--", "in.log", "--json"], "--json"),
    ] {
        let mut command = program();
        let ended: Ended = command
            .args(words)
            .current_dir(&folder.path)
            .output()
            .unwrap()
            .into();
        assert_eq!((ended.status, ended.errors.as_str()), (0, ""));
        assert_eq!(fs::read(folder.path.join(output)).unwrap(), new);
    }
    assert_eq!(folder.names(), ["-", "--json", "in.log", "out.log"]);
}

/// OUT is there before it is said.
#[test]
fn summary_that_cannot_be_written_is_said() {
    let [old, new] = log();
    let folder = Folder::new("summary", &old);
    let ended = shell("exec \"$@\" >/dev/full", &folder);
    let start = "oddrafisk: standard output: No space left on device";
    assert!(ended.errors.starts_with(start), "{}", ended.errors);
    assert_eq!(ended.status, 3);
    assert_eq!(fs::read(folder.output()).unwrap(), new);
}
