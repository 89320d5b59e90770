//! Running the program, and files for it.

use std::ffi::OsStr;
use std::fs;
use std::io::Write;
use std::path::{Path, PathBuf};
use std::process::{Command, Output, Stdio};
use std::thread;

pub fn program() -> Command {
    let mut command = Command::new(env!("CARGO_BIN_EXE_oddrafisk"));
    command.stdin(Stdio::null());
    command
}

/// How a run has ended.
#[derive(Debug, PartialEq, Eq)]
pub struct Ended {
    pub status: i32,
    pub output: String,
    pub errors: String,
}

impl From<Output> for Ended {
    fn from(output: Output) -> Self {
        let text = |bytes| String::from_utf8(bytes).expect("what is said is UTF-8");
        Ended {
            status: output.status.code().expect("the program ends by itself"),
            output: text(output.stdout),
            errors: text(output.stderr),
        }
    }
}

pub fn run<S: AsRef<OsStr>>(arguments: impl IntoIterator<Item = S>) -> Ended {
    program().args(arguments).output().unwrap().into()
}

/// The same with bytes on standard input, which come in parts.
pub fn run_on(arguments: &[&str], bytes: &[u8]) -> Ended {
    let mut child = program()
        .args(arguments)
        .stdin(Stdio::piped())
        .stdout(Stdio::piped())
        .stderr(Stdio::piped())
        .spawn()
        .unwrap();
    let mut input = child.stdin.take().unwrap();
    thread::scope(|scope| {
        scope.spawn(move || {
            // A program that has stopped takes no more.
            let _ = bytes.chunks(997).try_for_each(|part| input.write_all(part));
        });
        child.wait_with_output().unwrap().into()
    })
}

/// A folder for a test's files. Tests run at the same time, so each has its own.
pub fn scratch(test: &str) -> PathBuf {
    let folder = Path::new(env!("CARGO_TARGET_TMPDIR")).join(test);
    fs::create_dir_all(&folder).unwrap();
    folder
}

/// A file with these bytes.
pub fn file(test: &str, name: impl AsRef<Path>, bytes: &[u8]) -> PathBuf {
    let path = scratch(test).join(name);
    fs::write(&path, bytes).unwrap();
    path
}

/// The sample logs with their bytes; there are some.
pub fn samples() -> Vec<(PathBuf, Vec<u8>)> {
    let folder = Path::new(env!("CARGO_MANIFEST_DIR")).join("../samples");
    let mut paths: Vec<PathBuf> = fs::read_dir(folder)
        .unwrap()
        .map(|entry| entry.unwrap().path())
        .filter(|path| path.extension().is_some_and(|extension| extension == "log"))
        .collect();
    paths.sort();
    assert!(4 <= paths.len(), "{paths:?}");
    let bytes = |path| fs::read(path).unwrap();
    paths
        .into_iter()
        .map(|path| (path.clone(), bytes(path)))
        .collect()
}

pub fn sample(name: &str) -> (PathBuf, Vec<u8>) {
    let found = samples().into_iter().find(|(path, _)| path.ends_with(name));
    found.expect(name)
}
