//! Bytes in text: a string where they are UTF-8, digits where not.

use std::io::{self, Write};

/// A JSON string. What ends a line or moves a terminal is escaped too, so that a line stays one for
/// every program.
pub fn string(text: &str, output: &mut impl Write) -> io::Result<()> {
    output.write_all(b"\"")?;
    let mut written = 0;
    for (at, c) in text.char_indices().filter(|&(_, c)| is_escaped(c)) {
        output.write_all(&text.as_bytes()[written..at])?;
        escape(c, output)?;
        written = at + c.len_utf8();
    }
    output.write_all(&text.as_bytes()[written..])?;
    output.write_all(b"\"")
}

fn is_escaped(c: char) -> bool {
    matches!(c, '"' | '\\' | '\u{2028}' | '\u{2029}') || c.is_control()
}

fn escape(c: char, output: &mut impl Write) -> io::Result<()> {
    match c {
        '"' | '\\' => write!(output, "\\{c}"),
        '\n' => output.write_all(b"\\n"),
        '\r' => output.write_all(b"\\r"),
        '\t' => output.write_all(b"\\t"),
        _ => write!(output, "\\u{:04x}", u32::from(c)),
    }
}

/// How bytes are written: a string where they are UTF-8, `null` where there are none, and else
/// their digits between two marks.
pub struct Form {
    before_digits: &'static str,
    after_digits: &'static str,
}

/// For people.
pub const TEXT: Form = Form {
    before_digits: "0x",
    after_digits: "",
};

/// For programs.
pub const JSON: Form = Form {
    before_digits: "{\"hex\":\"",
    after_digits: "\"}",
};

impl Form {
    pub fn write(&self, bytes: Option<&[u8]>, output: &mut impl Write) -> io::Result<()> {
        let Some(bytes) = bytes else {
            return output.write_all(b"null");
        };
        if let Ok(text) = std::str::from_utf8(bytes) {
            return string(text, output);
        }
        output.write_all(self.before_digits.as_bytes())?;
        digits(bytes, output)?;
        output.write_all(self.after_digits.as_bytes())
    }
}

fn digits(bytes: &[u8], output: &mut impl Write) -> io::Result<()> {
    const DIGITS: &[u8; 16] = b"0123456789ABCDEF";
    for &byte in bytes {
        output.write_all(&[
            DIGITS[usize::from(byte >> 4)],
            DIGITS[usize::from(byte & 15)],
        ])?;
    }
    Ok(())
}

#[cfg(test)]
mod tests {
    use super::*;

    fn text_of(bytes: Option<&[u8]>) -> String {
        let mut output = Vec::new();
        TEXT.write(bytes, &mut output).unwrap();
        String::from_utf8(output).unwrap()
    }

    #[test]
    fn strings_stay_on_their_line() {
        let given = "a\"b\\c\n\r\t\0\u{1B}[31m\u{7F}\u{85}\u{9B}\u{2028}\u{2029}é\u{1F600}";
        let due = "\"a\\\"b\\\\c\\n\\r\\t\\u0000\\u001b[31m\
                   \\u007f\\u0085\\u009b\\u2028\\u2029é\u{1F600}\"";
        assert_eq!(text_of(Some(given.as_bytes())), due);
    }

    #[test]
    fn null_empty_and_digits_differ() {
        assert_eq!(text_of(None), "null");
        assert_eq!(text_of(Some(b"")), "\"\"");
        assert_eq!(text_of(Some(b"null")), "\"null\"");
        assert_eq!(text_of(Some(b"0x41")), "\"0x41\"");
        assert_eq!(text_of(Some(b"A\x00\xFF\x9C")), "0x4100FF9C");
    }
}
