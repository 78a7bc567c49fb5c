//! The text of a trace, as bytes: each row is its number, the words of its step, and the reply.

use super::text::WINDOW;

/// There is room for any row: it has hardly a hundred bytes of its step, and its reply tells of 32 notices at most, in
/// less than 20 bytes each. A place in a row is less than half of it, so that no write needs a test.
const ROOM: usize = 2_048;
/// A trace has hardly ever more bytes than so many times those of its script.
const SHARE: usize = 6;
/// Most lines are shorter, so that their bytes are copied as a block of this size.
const SHORT: usize = 32;

/// The three digits of each number below 1,000, and behind them how many of these it has without leading zeros.
static DIGITS: [[u8; 4]; 1_000] = {
    let mut table = [[0; 4]; 1_000];
    let mut number = 0;
    while number < 1_000 {
        let digits = [number / 100, number / 10 % 10, number % 10];
        let count = 1 + (number > 9) as u8 + (number > 99) as u8;
        table[number] = [b'0' + digits[0] as u8, b'0' + digits[1] as u8, b'0' + digits[2] as u8, count];
        number += 1;
    }
    table
};

/// The number of a row, as bytes of a number: its digits, the first first, and a space behind them. A script has no
/// more than some 600,000 steps, and a number in the table of a graph's objects has no more digits than seven.
pub struct Count {
    text: u64,
    /// Where the last digit stands, in bits.
    last: u32,
}

impl Count {
    /// It counts from 1.
    pub fn new() -> Count {
        Count { text: u64::from_le_bytes(*b"1 \0\0\0\0\0\0"), last: 0 }
    }

    /// The digits and the space in front of a block, and how many bytes these are.
    #[inline(always)]
    pub fn digits(&self) -> ([u8; 8], usize) {
        (self.text.to_le_bytes(), (self.last / 8) as usize + 2)
    }

    #[inline(always)]
    pub fn add_one(&mut self) {
        self.text += 1 << (self.last & 63);
        if (self.text >> (self.last & 63)) as u8 > b'9' {
            self.carry();
        }
    }

    #[inline(never)]
    fn carry(&mut self) {
        let mut at = self.last;
        while (self.text >> at) as u8 > b'9' {
            self.text -= 10 << at;
            if at == 0 {
                self.text = self.text << 8 | u64::from(b'1');
                self.last += 8;
                return;
            }
            at -= 8;
            self.text += 1 << at;
        }
    }
}

/// What is written so far, and zeros behind it.
pub struct Trace {
    bytes: Vec<u8>,
    length: usize,
    /// That of the next row.
    count: Count,
}

/// A row that is written.
pub struct Row<'a> {
    room: &'a mut [u8; ROOM],
    /// How much of it is written.
    pub at: usize,
    /// The length of the line that it tells of.
    pub line: usize,
}

impl Trace {
    /// The trace of a script of so many bytes.
    pub fn new(title: &[u8; 11], script: usize) -> Trace {
        let mut bytes = vec![0; SHARE * script + ROOM];
        bytes[..title.len()].copy_from_slice(title);
        Trace { bytes, length: title.len(), count: Count::new() }
    }

    pub fn into_bytes(mut self) -> Vec<u8> {
        self.bytes.truncate(self.length);
        self.bytes
    }

    /// The next row, with its number, and behind that the bytes in which a short line has its words. It counts once it
    /// has ended.
    #[inline(always)]
    pub fn row(&mut self, line: &[u8; WINDOW]) -> Row<'_> {
        if self.length + ROOM > self.bytes.len() {
            self.grow();
        }
        let room = &mut self.bytes[self.length..self.length + ROOM];
        let mut row = Row { room: room.try_into().expect("it is as long"), at: 0, line: 0 };
        row.block(&self.count.text.to_le_bytes(), (self.count.last / 8) as usize + 2);
        row.block(line.first_chunk::<SHORT>().expect("a window is larger"), 0);
        row
    }

    /// The row has ended, and has this length.
    #[inline(always)]
    pub fn end_row(&mut self, length: usize) {
        self.length += length;
        self.count.add_one();
    }

    #[cold]
    #[inline(never)]
    fn grow(&mut self) {
        self.bytes.resize(2 * self.bytes.len(), 0);
    }
}

impl Row<'_> {
    /// Tells the words of the line that it was begun with: so many of its bytes.
    #[inline(always)]
    pub fn words(&mut self, line: &[u8; WINDOW], length: usize) {
        if length > SHORT {
            copy(self.room, self.at, line);
        }
        self.at += length;
    }

    #[inline(always)]
    pub fn push<const N: usize>(&mut self, bytes: &[u8; N]) {
        self.block(bytes, N);
    }

    /// So many bytes in front of a block.
    #[inline(always)]
    pub fn block<const N: usize>(&mut self, block: &[u8; N], length: usize) {
        self.room[self.at % (ROOM / 2)..][..N].copy_from_slice(block);
        self.at += length;
    }

    #[inline(always)]
    pub fn number(&mut self, number: u32) {
        if number < 1_000 {
            self.first_digits(number);
        } else if number < 1_000_000 {
            self.first_digits(number / 1_000);
            self.more_digits(number % 1_000);
        } else {
            self.at = push_long_number(self.room, self.at, number);
        }
    }

    /// The digits of a number below 1,000.
    #[inline(always)]
    fn first_digits(&mut self, number: u32) {
        let digits = u32::from_le_bytes(DIGITS[number as usize]);
        let count = digits >> 24;
        self.block(&(digits >> (24 - 8 * count)).to_le_bytes(), count as usize);
    }

    /// The same with leading zeros.
    #[inline(always)]
    fn more_digits(&mut self, number: u32) {
        self.block(&DIGITS[number as usize], 3);
    }
}

/// A whole line, at this place of a row.
#[inline(never)]
fn copy(room: &mut [u8; ROOM], at: usize, line: &[u8; WINDOW]) {
    room[at..at + WINDOW].copy_from_slice(line);
}

/// A number of seven digits or more, which hardly any is, at this place of a row: the place behind it.
#[inline(never)]
fn push_long_number(room: &mut [u8; ROOM], at: usize, number: u32) -> usize {
    let mut row = Row { room, at, line: 0 };
    let millions = number / 1_000_000;
    if millions >= 1_000 {
        row.first_digits(millions / 1_000);
        row.more_digits(millions % 1_000);
    } else {
        row.first_digits(millions);
    }
    row.more_digits(number / 1_000 % 1_000);
    row.more_digits(number % 1_000);
    row.at
}
