//! A seeded source of choices, so that every run can be repeated: splitmix64.

#[derive(Clone)]
pub struct Random(u64);

impl Random {
    pub fn new(seed: u64) -> Self {
        Self(seed)
    }

    pub fn next(&mut self) -> u64 {
        self.0 = self.0.wrapping_add(0x9E37_79B9_7F4A_7C15);
        let mut mixed = self.0;
        mixed = (mixed ^ (mixed >> 30)).wrapping_mul(0xBF58_476D_1CE4_E5B9);
        mixed = (mixed ^ (mixed >> 27)).wrapping_mul(0x94D0_49BB_1331_11EB);
        mixed ^ (mixed >> 31)
    }

    pub fn below(&mut self, limit: usize) -> usize {
        (self.next() % limit as u64) as usize
    }

    pub fn one_in(&mut self, chances: usize) -> bool {
        self.below(chances) == 0
    }

    pub fn pick<T: Copy>(&mut self, choices: &[T]) -> T {
        choices[self.below(choices.len())]
    }

    pub fn byte(&mut self) -> u8 {
        self.next() as u8
    }

    pub fn bytes(&mut self, count: usize) -> Vec<u8> {
        (0..count).map(|_| self.byte()).collect()
    }

    pub fn numbers(&mut self, count: usize) -> Vec<i64> {
        (0..count).map(|_| self.next() as i64).collect()
    }

    /// A signed number of so many bits, more often than not at a boundary.
    pub fn number(&mut self, bits: u32) -> i64 {
        let near = self.below(3) as i64 - 1;
        let number = match self.below(4) {
            0 => near,
            1 => (i64::MIN >> (64 - bits)).wrapping_add(near),
            2 => (1i64 << self.below(bits as usize)).wrapping_add(near),
            _ => self.next() as i64,
        };
        (number << (64 - bits)) >> (64 - bits)
    }

    /// How many bytes a key or a value has: empty, short, and both sides of where its length takes
    /// a byte more.
    pub fn size(&mut self) -> usize {
        match self.below(200) {
            0 => 8188 + self.below(8),
            1..=9 => 60 + self.below(8),
            10..=59 => 0,
            _ => 1 + self.below(12),
        }
    }

    /// A key in UTF-8, with characters at both ends of each row of RFC 3629.
    pub fn text(&mut self) -> String {
        const ENDS: [char; 16] = [
            '\0',
            '\x7F',
            '\u{80}',
            '\u{7FF}',
            '\u{800}',
            '\u{FFF}',
            '\u{1000}',
            '\u{CFFF}',
            '\u{D000}',
            '\u{D7FF}',
            '\u{E000}',
            '\u{FFFF}',
            '\u{10000}',
            '\u{3FFFF}',
            '\u{100000}',
            '\u{10FFFF}',
        ];
        let characters = if self.one_in(100) { 64 } else { self.below(5) };
        (0..characters).map(|_| if self.one_in(2) { 'k' } else { self.pick(&ENDS) }).collect()
    }

    /// Bytes that are no UTF-8: a fault of every kind, with characters around it.
    pub fn no_text(&mut self) -> Vec<u8> {
        const FAULTS: [&[u8]; 20] = [
            b"\x80",
            b"\xBF",
            b"\xC0\x80",
            b"\xC1\xBF",
            b"\xC2",
            b"\xDF\x7F",
            b"\xDF\xC0",
            b"\xE0\x9F\xBF",
            b"\xE1\x80",
            b"\xED\xA0\x80",
            b"\xED\xBF\xBF",
            b"\xEF\xBF",
            b"\xEF\xBF\xC0",
            b"\xF0\x8F\xBF\xBF",
            b"\xF1\x80\x80",
            b"\xF3\x80\x80\x7F",
            b"\xF4\x90\x80\x80",
            b"\xF5\x80\x80\x80",
            b"\xFE",
            b"\xFF",
        ];
        let mut bytes = self.text().into_bytes();
        bytes.extend_from_slice(self.pick(&FAULTS));
        if self.one_in(2) {
            bytes.push(b'k');
        }
        bytes
    }
}
