//! A text, read piece by piece: of all of it, only one piece lies in memory.

use crate::script::text::{MOST_BYTES, PADDING};
use crate::script::{TextFault, MOST_INTERRUPTIONS};
use std::io::{self, ErrorKind, Read};

const PIECE: usize = 65_536;

pub struct Input {
    /// The piece, and NUL behind it.
    bytes: Vec<u8>,
    length: usize,
    /// How much was read before the piece ends.
    total: usize,
    interruptions: u32,
    is_ended: bool,
}

impl Input {
    pub fn new() -> Input {
        Input { bytes: vec![0; PIECE + PADDING], length: 0, total: 0, interruptions: 0, is_ended: false }
    }

    /// Reads until the piece is full, or the text ends. False where it had ended before.
    pub fn read_on(&mut self) -> Result<bool, TextFault> {
        let is_first = !self.is_ended;
        while !self.is_ended && self.length < PIECE {
            self.read_some()?;
        }
        self.bytes[self.length..].fill(0);
        Ok(is_first)
    }

    fn read_some(&mut self) -> Result<(), TextFault> {
        match io::stdin().lock().read(&mut self.bytes[self.length..PIECE]) {
            Ok(0) => self.is_ended = true,
            Ok(count) => {
                self.length += count;
                self.total += count;
            }
            Err(error) if error.kind() == ErrorKind::Interrupted && self.interruptions < MOST_INTERRUPTIONS => {
                self.interruptions += 1;
            }
            Err(_) => return Err(TextFault::CannotRead),
        }
        if self.total > MOST_BYTES {
            return Err(TextFault::TooLong);
        }
        Ok(())
    }

    /// Reads the rest of the text, which says nothing any more.
    pub fn skip(&mut self) -> Result<(), TextFault> {
        while !self.is_ended {
            self.length = 0;
            self.read_some()?;
        }
        Ok(())
    }

    /// What can be read of the piece, line by line. A line that begins where a window of it does ends in the piece, or
    /// is too long. Behind the whole text there is its padding.
    pub fn whole_lines(&self) -> &[u8] {
        &self.bytes[..self.lines_end()]
    }

    /// The piece from where such a rest begins, with its padding.
    pub fn text_from(&self, rest: &[u8]) -> &[u8] {
        &self.bytes[self.lines_end() - rest.len()..self.length + PADDING]
    }

    /// So many bytes at the end of the lines are the beginning of the next piece.
    pub fn keep(&mut self, count: usize) {
        if !self.is_ended {
            self.bytes.copy_within(self.length - count..self.length, 0);
            self.length = count;
        }
    }

    fn lines_end(&self) -> usize {
        self.length + if self.is_ended { PADDING } else { 0 }
    }
}
