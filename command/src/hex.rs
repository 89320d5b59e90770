//! Lines of hexadecimal digits with some of the bytes marked.

use std::io::{self, Write};
use std::ops::Range;

const LINE: u64 = 16;
const RED: &str = "\x1B[31m";
const PLAIN: &str = "\x1B[0m";

/// Bytes to be shown.
pub struct Excerpt<'a> {
    /// Where the bytes begin in their file.
    pub first: u64,
    pub bytes: &'a [u8],
    /// What is at fault, by places in the file.
    pub marked: Range<u64>,
    pub colour: bool,
}

impl Excerpt<'_> {
    /// Writes the lines from the one before a place up to the one after what is marked, those that
    /// there are. Lines start at multiples of 16, as other programs have them.
    pub fn write(&self, from: u64, output: &mut impl Write) -> io::Result<()> {
        let first = (from / LINE * LINE).saturating_sub(LINE);
        let past = (self.marked.end - 1) / LINE * LINE + 2 * LINE;
        let end = past.min(self.first + self.bytes.len() as u64);
        for start in (first..end).step_by(LINE as usize) {
            let line = start..end.min(start + LINE);
            writeln!(output, "  {}", self.digits(line.clone()))?;
            if self.marked.start < line.end && line.start < self.marked.end {
                writeln!(output, "  {}", self.carets(line))?;
            }
        }
        Ok(())
    }

    fn digits(&self, line: Range<u64>) -> String {
        let mut text = format!("{:08X}:", line.start);
        let mut shown = String::new();
        for place in line.start..line.start + LINE {
            let byte = line.contains(&place).then(|| self.byte(place));
            let cell = byte.map_or("  ".to_string(), |byte| format!("{byte:02X}"));
            text += gap(place);
            text += &self.marked_up(place, &cell);
            shown.extend(byte.map(readable));
        }
        text + "  " + &shown
    }

    fn carets(&self, line: Range<u64>) -> String {
        let mut text = " ".repeat(format!("{:08X}:", line.start).len());
        for place in line.start..line.end.min(self.marked.end) {
            text += gap(place);
            let cell = if self.marked.contains(&place) {
                "^^"
            } else {
                "  "
            };
            text += &self.marked_up(place, cell);
        }
        text
    }

    fn byte(&self, place: u64) -> u8 {
        self.bytes[(place - self.first) as usize]
    }

    fn marked_up(&self, place: u64, cell: &str) -> String {
        if self.colour && self.marked.contains(&place) {
            format!("{RED}{cell}{PLAIN}")
        } else {
            cell.to_string()
        }
    }
}

/// A wider one in the middle of a line.
fn gap(place: u64) -> &'static str {
    if place % LINE == LINE / 2 {
        "  "
    } else {
        " "
    }
}

fn readable(byte: u8) -> char {
    if byte == b' ' || byte.is_ascii_graphic() {
        byte.into()
    } else {
        '.'
    }
}

#[cfg(test)]
mod tests {
    use super::*;

    fn written(first: u64, bytes: &[u8], from: u64, marked: Range<u64>, colour: bool) -> String {
        let mut output = Vec::new();
        let excerpt = Excerpt {
            first,
            bytes,
            marked,
            colour,
        };
        excerpt.write(from, &mut output).unwrap();
        String::from_utf8(output).unwrap()
    }

    /// 0x30 is the digit 0, so that most bytes can be read.
    fn bytes() -> Vec<u8> {
        (0x2F..0x80).collect()
    }

    #[test]
    fn marks_stand_under_their_bytes() {
        let due = "  00000000: 2F 30 31 32 33 34 35 36  37 38 39 3A 3B 3C 3D 3E  /0123456789:;<=>
            ^^ ^^
  00000010: 3F 40 41 42 43 44 45 46  47 48 49 4A 4B 4C 4D 4E  ?@ABCDEFGHIJKLMN
";
        assert_eq!(written(0, &bytes(), 0, 0..2, false), due);
    }

    #[test]
    fn marks_go_on_in_the_next_line() {
        let due = "  FFFFFFFF0: 2F 30 31 32 33 34 35 36  37 38 39 3A 3B 3C 3D 3E  /0123456789:;<=>
  1000000000: 3F 40 41 42 43 44 45 46  47 48 49 4A 4B 4C 4D 4E  ?@ABCDEFGHIJKLMN
                                                         ^^ ^^
  1000000010: 4F 50 51 52 53 54 55 56  57 58 59 5A 5B 5C 5D 5E  OPQRSTUVWXYZ[\\]^
              ^^ ^^
  1000000020: 5F 60 61 62 63 64 65 66  67 68 69 6A 6B 6C 6D 6E  _`abcdefghijklmn
";
        let first = 0xF_FFFF_FFF0;
        let marked = first + 30..first + 34;
        assert_eq!(written(first, &bytes(), first + 17, marked, false), due);
    }

    #[test]
    fn lines_end_with_the_bytes() {
        let due = "  00000010: 2F 30 31 32 33 34 35 36  37 38 39 3A 3B 3C 3D 3E  /0123456789:;<=>
  00000020: 3F 40 41 42 43 44 45 46  47                       ?@ABCDEFG
                                 ^^  ^^
";
        assert_eq!(written(16, &bytes()[..25], 39, 39..47, false), due);
    }

    #[test]
    fn marks_alone_are_coloured() {
        let plain = written(0, &bytes(), 0, 3..5, false);
        let coloured = written(0, &bytes(), 0, 3..5, true);
        assert_eq!(coloured.matches(RED).count(), 4);
        assert!(coloured.contains(&format!("{RED}32{PLAIN} {RED}33{PLAIN} 34")));
        assert_eq!(coloured.replace(RED, "").replace(PLAIN, ""), plain);
    }
}
