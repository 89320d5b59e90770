//! The command line.

use std::ffi::{OsStr, OsString};

use oddrafisk::ControlMode;

use crate::name::{shown, Name};
use crate::verbs::{Operands, Verb, VERBS};

/// What the command line asks for.
pub enum Request {
    /// A page to be shown: help, or the version.
    Page(String),
    Work(Work),
}

/// A verb with its options, and the files that it is for.
pub struct Work {
    pub verb: &'static Verb,
    pub files: Vec<Name>,
    /// The mode in which logs are read.
    pub mode: ControlMode,
    flags: Vec<&'static str>,
}

impl Work {
    pub fn has(&self, flag: &str) -> bool {
        self.flags.contains(&flag)
    }
}

const INPUT: &str = "is standard input, and -- ends the options. Files may be of any size.";

/// The option that every verb has which reads in a mode. Its value is the word after it, or what
/// stands after `=`.
const CONTROL: &str = "--control";

/// Its values.
const MODES: [(&str, ControlMode); 2] =
    [("keyed", ControlMode::Keyed), ("bare", ControlMode::Bare)];

const MARKERS: &str = "\
Markers, which end transactions, are keyed, as brokers write them: a record whose key begins with
the marker. The bare form, the marker's four bytes alone, is withdrawn. It is refused by number 41
in either MODE, and `oddrafisk convert IN OUT` makes keyed markers of a stored log. With --control
bare no marker is read at all. Batches of records are the same in both. Of several --control the
last counts.
";

const STATUSES: &str = "\
exit status, with several files the greatest:
   0  all right
   1  a batch is refused
   2  the log is torn: it ends inside a batch
   3  a file cannot be read or written, or standard output cannot be written
  64  the command line is wrong
";

const EXAMPLES: &str = "\
examples:
  oddrafisk verify *.log
  oddrafisk list 00000000000000000000.log
  oddrafisk dump --json 00000000000000000000.log | jq .value
  oddrafisk convert old.log new.log
";

const VERSION: &str = concat!("oddrafisk ", env!("CARGO_PKG_VERSION"), "\n");

/// What is wrong with the command line is said in words.
pub fn parse(mut arguments: impl Iterator<Item = OsString>) -> Result<Request, String> {
    let Some(first) = arguments.next() else {
        return Err("no verb is given; see oddrafisk --help".to_string());
    };
    if let Some(page) = page(&first, program_help) {
        return Ok(page);
    }
    match VERBS.iter().find(|verb| first == verb.name) {
        Some(verb) => parse_work(verb, arguments),
        None => Err(format!(
            "there is no verb {}; see oddrafisk --help",
            shown(&first)
        )),
    }
}

fn parse_work(
    verb: &'static Verb,
    mut arguments: impl Iterator<Item = OsString>,
) -> Result<Request, String> {
    let (mut files, mut flags, mut options_ended) = (Vec::new(), Vec::new(), false);
    let mut mode = ControlMode::default();
    while let Some(argument) = arguments.next() {
        if options_ended || !is_option(&argument) {
            files.push(Name::new(argument));
        } else if argument == "--" {
            options_ended = true;
        } else if let Some(page) = page(&argument, || verb_help(verb)) {
            return Ok(page);
        } else if argument == CONTROL && has_modes(verb) {
            mode = mode_of(verb, arguments.next().as_deref())?;
        } else if let Some(word) = after_control(&argument).filter(|_| has_modes(verb)) {
            mode = mode_of(verb, Some(word))?;
        } else {
            flags.push(flag(verb, &argument)?);
        }
    }
    let wrong = match verb.operands {
        Operands::Files => wrong_files(&files),
        Operands::InAndOut => wrong_in_and_out(&files),
    };
    if let Some(wrong) = wrong {
        return Err(format!("{0} {wrong}; see oddrafisk {0} --help", verb.name));
    }
    Ok(Request::Work(Work {
        verb,
        files,
        mode,
        flags,
    }))
}

/// What is wrong with the files of a verb that reads them.
fn wrong_files(files: &[Name]) -> Option<&'static str> {
    match files.iter().filter(|file| file.is_standard_input()).count() {
        _ if files.is_empty() => Some("needs a FILE, and - is standard input"),
        0 | 1 => None,
        _ => Some("can read standard input once, and - is there twice"),
    }
}

/// What is wrong with the files of a verb that makes one of another. What it makes appears at once,
/// and a stream cannot.
fn wrong_in_and_out(files: &[Name]) -> Option<&'static str> {
    match files {
        [_, out] if out.is_standard_input() => Some("needs a file for OUT, and - is none"),
        [_, _] => None,
        _ => Some("needs IN and OUT, and no other file"),
    }
}

fn has_modes(verb: &Verb) -> bool {
    verb.operands == Operands::Files
}

/// What stands after `--control=`.
fn after_control(argument: &OsStr) -> Option<&OsStr> {
    let word = argument.to_str()?.strip_prefix(CONTROL)?;
    word.strip_prefix('=').map(OsStr::new)
}

fn mode_of(verb: &Verb, word: Option<&OsStr>) -> Result<ControlMode, String> {
    let known = MODES
        .into_iter()
        .find(|(name, _)| word.is_some_and(|word| word == *name));
    known.map(|(_, mode)| mode).ok_or_else(|| {
        let found = word.map_or(String::new(), |word| format!(", and not {}", shown(word)));
        format!(
            "{0} needs keyed or bare after {CONTROL}{found}; see oddrafisk {0} --help",
            verb.name
        )
    })
}

fn is_option(argument: &OsStr) -> bool {
    argument.as_encoded_bytes().starts_with(b"-") && argument != "-"
}

fn page(argument: &OsStr, help: impl Fn() -> String) -> Option<Request> {
    match argument.to_str() {
        Some("-h" | "--help") => Some(Request::Page(help())),
        Some("-V" | "--version") => Some(Request::Page(VERSION.to_string())),
        _ => None,
    }
}

fn flag(verb: &Verb, argument: &OsStr) -> Result<&'static str, String> {
    match verb.options.iter().find(|option| argument == option.name) {
        Some(option) => Ok(option.name),
        None => Err(format!(
            "{0} has no option {1}; see oddrafisk {0} --help",
            verb.name,
            shown(argument)
        )),
    }
}

fn program_help() -> String {
    let mut verbs = String::new();
    for verb in &VERBS {
        verbs += &format!("  {:8} {}\n", verb.name, verb.about);
    }
    format!(
        "Lists, dumps, verifies and converts logs of Kafka's version 2 record batches, \
         uncompressed.\n\n\
         usage: oddrafisk VERB [OPTION].. FILE..\n       \
         oddrafisk convert [OPTION].. IN OUT\n\n\
         verbs:\n{verbs}\n\
         options:\n  -h, --help     show this page, or after a verb its own\n  \
         -V, --version  show the version\n\n\
         FILE - {INPUT}\n\n{STATUSES}\n{EXAMPLES}"
    )
}

fn verb_help(verb: &Verb) -> String {
    let (mut options, mut markers, mut file) = (String::new(), String::new(), "IN");
    if has_modes(verb) {
        options += &format!("  {CONTROL} MODE read in this mode: keyed, the default, or bare\n");
        markers += &format!("{MARKERS}\n");
        file = "FILE";
    }
    for option in verb.options {
        options += &format!("  {:14} {}\n", option.name, option.about);
    }
    format!(
        "oddrafisk {0}: {1}\n\n\
         usage: oddrafisk {0} [OPTION].. {2}\n\n\
         options:\n{options}  -h, --help     show this page\n  -V, --version  show the version\n\n\
         {file} - {INPUT}\n\n{markers}{3}\n{STATUSES}",
        verb.name,
        verb.about,
        verb.operands.usage(),
        verb.help
    )
}
