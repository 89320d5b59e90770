//! The conversion of C-24, for stored files: of every byte string its number with its values, and the
//! bytes that are given.

use std::borrow::Cow;

use super::*;

/// What is answered where the output is long enough.
#[derive(Debug, Default, PartialEq)]
pub struct Conversion<'a> {
    pub number: u32,
    /// How many bytes are taken; for 1 how many are needed.
    pub taken: i64,
    pub given: Cow<'a, [u8]>,
}

impl Conversion<'_> {
    /// The answer where an output of so many bytes is lent.
    pub fn with_room(&self, output: usize) -> (u32, [i64; 2]) {
        if self.given.len() > output {
            return (SHORT_OUTPUT, [0; 2]);
        }
        (self.number, [self.taken, self.given.len() as i64])
    }
}

/// "A bare marker accepted by the old rules becomes the new form, all fixed fields kept except length
/// and checksum; any other is read in C-16's mode and copied."
pub fn convert(bytes: &[u8]) -> Conversion<'_> {
    if let Some(marker) = reading::bare_marker(bytes) {
        let kind = (marker.entries[KIND] - 1) as u8;
        return Conversion {
            number: ACCEPTED,
            taken: marker.entries[BYTES],
            given: keyed_form(bytes, kind).into(),
        };
    }
    let read = reading::read(Mode::Keyed, bytes);
    let taken = read.entries[BYTES];
    let given = if read.number == ACCEPTED { &bytes[..taken as usize] } else { &[] };
    Conversion { number: read.number, taken, given: given.into() }
}

/// The fields of the batch, with the record of a marker of this kind as its body.
fn keyed_form(bytes: &[u8], kind: u8) -> Vec<u8> {
    let record = [20, 0, 0, 0, 8, 0, 0, 0, kind, 1, 0];
    let checked = [&bytes[21..61], &record].concat();
    let [length, crc] = [60, crc32c(&checked)].map(u32::to_be_bytes);
    [&bytes[..8], &length, &bytes[12..17], &crc, &checked].concat()
}

#[cfg(test)]
mod tests {
    use super::*;

    fn bytes(text: &str) -> Vec<u8> {
        let digits: Vec<u8> = text.bytes().filter(|digit| *digit != b' ').collect();
        let byte = |pair: &[u8]| std::str::from_utf8(pair).ok().map(|p| u8::from_str_radix(p, 16));
        digits.chunks(2).map(|pair| byte(pair).expect("text").expect("two digits")).collect()
    }

    /// A commit with attribute bits that the writer does not give, and what becomes of it: both were
    /// worked out beforehand.
    fn worked() -> [Vec<u8>; 2] {
        const FIELDS: &str =
            "00000000 00000000000003E8 00000000000003E8 0000000000000009 0001 FFFFFFFF 00000001";
        [("00000035", "4D8495B3", "00000001"), ("0000003C", "198B7A08", "1400000008 00000001 0100")]
            .map(|(length, crc, body)| {
                bytes(&format!("0000000000000005 {length} 00000003 02 {crc} 8070 {FIELDS} {body}"))
            })
    }

    #[test]
    fn a_bare_marker_becomes_keyed() {
        let [bare, keyed] = worked();
        assert_eq!([bare.len(), keyed.len()], [65, 72]);
        let modes = [Mode::Bare, Mode::Keyed];
        assert_eq!(modes.map(|mode| reading::read(mode, &bare).number), [41; 2]);
        let converted = convert(&bare);
        assert_eq!((converted.number, converted.taken), (0, 65));
        assert_eq!(*converted.given, keyed);
        let rooms = [0, 71, 72, 73].map(|room| converted.with_room(room));
        assert_eq!(rooms, [(24, [0, 0]), (24, [0, 0]), (0, [65, 72]), (0, [65, 72])]);
        let followed = [&bare[..], &[7, 8]].concat();
        assert_eq!(convert(&followed), converted);
        let again = convert(&keyed);
        assert_eq!((again.number, again.taken, &again.given[..]), (0, 72, &keyed[..]));
    }

    #[test]
    fn others_are_read_in_keyed_mode() {
        let [mut bare, keyed] = worked();
        let answers = [&bare[..11], &bare[..64], &keyed[..71]].map(convert);
        let answers = answers.map(|answer| (answer.with_room(0), answer.given.len()));
        assert_eq!(answers, [((1, [12, 0]), 0), ((1, [65, 0]), 0), ((1, [72, 0]), 0)]);
        bare[62] = 1;
        let crc = crc32c(&bare[21..]).to_be_bytes();
        bare[17..21].copy_from_slice(&crc);
        assert_eq!(reading::read(Mode::Bare, &bare).number, 12);
        assert_eq!(convert(&bare), Conversion { number: 8, ..Conversion::default() });
        bare[20] ^= 1;
        assert_eq!(convert(&bare).with_room(99), (4, [0, 0]));
    }
}
