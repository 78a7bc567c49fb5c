//! The listing of a graph: a line for each object, by number.

use super::object::Object;
use super::objects::Objects;
use crate::script::trace::Count;
use std::io::{self, Write};

/// So many bytes are written at once, or a line more.
const PIECE: usize = 65_536;
/// A line with the rest of its last block has fewer bytes.
const MOST_LINE: usize = 32;

/// By strength: how a line ends, in front of a block, and how long that is.
const ENDS: [([u8; 16], usize); 6] = [
    (*b"                ", 0),
    (*b"strong\n         ", 7),
    (*b"soft\n           ", 5),
    (*b"weak\n           ", 5),
    (*b"phantom\n        ", 8),
    (*b"unreachable\n    ", 12),
];

/// What isn't written yet, and zeros behind it.
struct Listing<'a, T> {
    bytes: Vec<u8>,
    length: usize,
    output: &'a mut T,
}

/// Writes the listing, piece by piece.
pub fn write(objects: &Objects, output: &mut impl Write) -> io::Result<()> {
    let mut listing = Listing { bytes: vec![0; PIECE + MOST_LINE], length: 0, output };
    let mut count = Count::new();
    for object in objects.table() {
        if object.0 != 0 {
            let (digits, length) = count.digits();
            listing.line(&digits, length, object)?;
        }
        count.add_one();
    }
    for (number, object) in objects.greater() {
        let mut digits = [0; 11];
        write!(&mut digits[..], "{number} ")?;
        let length = digits.iter().take_while(|byte| **byte != 0).count();
        listing.line(&digits, length, object)?;
    }
    listing.flush()
}

impl<T: Write> Listing<'_, T> {
    /// The line of an object, whose number and the space behind it stand in front of a block, and are so long.
    #[inline(always)]
    fn line<const N: usize>(&mut self, number: &[u8; N], length: usize, object: Object) -> io::Result<()> {
        self.push(number, length);
        let (end, length) = &ENDS[object.strength() as usize];
        self.push(end, *length);
        if self.length >= PIECE {
            self.flush()?;
        }
        Ok(())
    }

    #[inline(always)]
    fn push<const N: usize>(&mut self, block: &[u8; N], length: usize) {
        self.bytes[self.length..][..N].copy_from_slice(block);
        self.length += length;
    }

    #[cold]
    #[inline(never)]
    fn flush(&mut self) -> io::Result<()> {
        self.output.write_all(&self.bytes[..self.length])?;
        self.length = 0;
        Ok(())
    }
}
