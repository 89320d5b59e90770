//! The name of a file, as it was given.

use std::ffi::{OsStr, OsString};
use std::fmt;
use std::os::unix::ffi::OsStrExt;

/// A file's name; `-` is standard input.
#[derive(Debug, Clone, PartialEq, Eq)]
pub struct Name(OsString);

impl Name {
    pub fn new(given: OsString) -> Self {
        Name(given)
    }

    pub fn is_standard_input(&self) -> bool {
        self.0 == "-"
    }

    pub fn path(&self) -> &OsStr {
        &self.0
    }

    pub fn bytes(&self) -> &[u8] {
        self.0.as_bytes()
    }
}

impl fmt::Display for Name {
    fn fmt(&self, f: &mut fmt::Formatter<'_>) -> fmt::Result {
        if self.is_standard_input() {
            f.write_str("standard input")
        } else {
            f.write_str(&shown(&self.0))
        }
    }
}

/// What was given on the command line, for people. It may be any bytes: it stays on its line and
/// moves no terminal.
pub fn shown(given: &OsStr) -> String {
    let mut text = String::new();
    for c in given.to_string_lossy().chars() {
        if c.is_control() {
            text.extend(c.escape_default());
        } else {
            text.push(c);
        }
    }
    text
}

#[cfg(test)]
mod tests {
    use super::*;

    #[test]
    fn names_stay_on_their_line() {
        let name = |bytes| Name::new(OsStr::from_bytes(bytes).to_owned()).to_string();
        assert_eq!(name(b"a b.log"), "a b.log");
        assert_eq!(name(b"a\n\x1B[31mb"), "a\\n\\u{1b}[31mb");
        assert_eq!(name(b"a\xFFb"), "a\u{FFFD}b");
        assert_eq!(name(b"-"), "standard input");
        assert_eq!(name(b"./-"), "./-");
    }
}
