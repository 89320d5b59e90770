//! CRC-32C by tables, N bytes a turn ("slicing by N"): the plain portable way, for comparison.

use std::sync::OnceLock;

/// What N bytes a turn need: row r is what a byte does to the register over r bytes more.
pub struct Sliced<const N: usize> {
    rows: [[u32; 256]; N],
}

impl<const N: usize> Sliced<N> {
    fn new() -> Self {
        let mut rows = [[0; 256]; N];
        for (byte, entry) in rows[0].iter_mut().enumerate() {
            *entry = (0..8).fold(byte as u32, |c, _| (c >> 1) ^ ((c & 1) * 0x82F6_3B78));
        }
        for row in 1..N {
            for byte in 0..256 {
                let before = rows[row - 1][byte];
                rows[row][byte] = (before >> 8) ^ rows[0][(before & 0xFF) as usize];
            }
        }
        Self { rows }
    }

    pub fn crc32c(&self, bytes: &[u8]) -> u32 {
        let mut turns = bytes.chunks_exact(N);
        let whole = turns.by_ref().fold(u32::MAX, |c, turn| self.step(c, turn.try_into().unwrap()));
        let rest = turns.remainder().iter();
        !rest.fold(whole, |c, byte| (c >> 8) ^ self.rows[0][((c & 0xFF) as u8 ^ byte) as usize])
    }

    fn step(&self, register: u32, turn: &[u8; N]) -> u32 {
        let added = register.to_le_bytes();
        (0..N).fold(0, |c, at| {
            let byte = if at < 4 { turn[at] ^ added[at] } else { turn[at] };
            c ^ self.rows[N - 1 - at][byte as usize]
        })
    }
}

pub fn by_8() -> &'static Sliced<8> {
    static TABLE: OnceLock<Sliced<8>> = OnceLock::new();
    TABLE.get_or_init(Sliced::new)
}

pub fn by_16() -> &'static Sliced<16> {
    static TABLE: OnceLock<Sliced<16>> = OnceLock::new();
    TABLE.get_or_init(Sliced::new)
}
