//! A stand-in for the crate integer-encoding, whose text is not at hand: the two traits that the
//! oracle uses, after document 01, "Numbers of varying length". What it reads and writes says
//! nothing about the crate of this name.

use std::io::{Error, ErrorKind, Read, Result, Write};

/// A signed number that is written by its zigzag.
pub trait VarInt: Sized {
    /// How many bytes the number has at most.
    const MOST_BYTES: usize;

    /// 2n where n is not negative, and -2n - 1 otherwise.
    fn zigzag(self) -> u64;

    /// The number with this zigzag, if it is one of this width.
    fn from_zigzag(code: u64) -> Option<Self>;
}

impl VarInt for i64 {
    const MOST_BYTES: usize = 10;

    fn zigzag(self) -> u64 {
        (self.wrapping_shl(1) ^ (self >> 63)) as u64
    }

    fn from_zigzag(code: u64) -> Option<Self> {
        Some((code >> 1) as i64 ^ -((code & 1) as i64))
    }
}

impl VarInt for i32 {
    const MOST_BYTES: usize = 5;

    fn zigzag(self) -> u64 {
        i64::from(self).zigzag()
    }

    fn from_zigzag(code: u64) -> Option<Self> {
        i64::from_zigzag(code)?.try_into().ok()
    }
}

pub trait VarIntReader {
    fn read_varint<N: VarInt>(&mut self) -> Result<N>;
}

impl<R: Read> VarIntReader for R {
    fn read_varint<N: VarInt>(&mut self) -> Result<N> {
        let beyond_limits = || Error::new(ErrorKind::InvalidData, "varint beyond its limits");
        let mut code = 0u64;
        for place in 0..N::MOST_BYTES {
            let mut byte = [0];
            self.read_exact(&mut byte)?;
            let group = u64::from(byte[0] & 0x7F);
            let moved = group << (7 * place);
            if moved >> (7 * place) != group {
                return Err(beyond_limits());
            }
            code |= moved;
            if byte[0] < 0x80 {
                return N::from_zigzag(code).ok_or_else(beyond_limits);
            }
        }
        Err(beyond_limits())
    }
}

pub trait VarIntWriter {
    fn write_varint<N: VarInt>(&mut self, number: N) -> Result<usize>;
}

impl<W: Write> VarIntWriter for W {
    fn write_varint<N: VarInt>(&mut self, number: N) -> Result<usize> {
        let mut code = number.zigzag();
        let mut bytes = [0; 10];
        let mut last = 0;
        while code >= 0x80 {
            bytes[last] = code as u8 | 0x80;
            code >>= 7;
            last += 1;
        }
        bytes[last] = code as u8;
        self.write_all(&bytes[..=last])?;
        Ok(last + 1)
    }
}
