//! The lines of a script, read byte by byte in one pass.
//!
//! Nearly all lines of steps are spelt as a trace has them: with one space between each two words and none around them,
//! and without leading zeros. Only such a line is read here. Any other says nothing, is faulty, or is spelt so first
//! (`spelling`).

pub const MOST_BYTES: usize = 4_194_304;
pub const MOST_LINE_BYTES: usize = 200;
pub const MOST_DIGITS: usize = 20;

/// A line is looked at with the bytes behind it, so many in all.
pub const WINDOW: usize = 256;
/// So many bytes of NUL stand behind a text: from each of its bytes on there is a window, and from its end on none.
pub const PADDING: usize = WINDOW - 1;
/// No line that is spelt so has as many bytes: its numbers are below 2^32, but for one clock. So a place in it is less,
/// and no byte needs a test whether it is in the window, nor the line whether it is too long.
pub const MOST_PLAIN: usize = 128;

/// A line, and where what of it wasn't read yet begins.
pub struct Line<'a> {
    bytes: &'a [u8; WINDOW],
    at: usize,
}

impl<'a> Line<'a> {
    #[inline(always)]
    pub fn new(bytes: &'a [u8; WINDOW]) -> Line<'a> {
        Line { bytes, at: 0 }
    }

    /// The byte that stands so far from here.
    #[inline(always)]
    fn byte(&self, from: usize) -> u8 {
        self.bytes[self.at % MOST_PLAIN + from]
    }

    #[inline(always)]
    pub fn first_byte(&self) -> u8 {
        self.byte(0)
    }

    /// The number of an actor, behind its letter.
    #[inline(always)]
    pub fn actor(&mut self) -> Option<u32> {
        self.number_from(1)
    }

    #[inline(always)]
    pub fn slot(&mut self) -> Option<u32> {
        self.number_behind(b's')
    }

    #[inline(always)]
    pub fn queue(&mut self) -> Option<u32> {
        self.number_behind(b'q')
    }

    /// A queue, or a dash for none.
    #[inline(always)]
    pub fn queue_or_none(&mut self) -> Option<Option<u32>> {
        if self.byte(0) == b' ' && self.byte(1) == b'-' {
            self.at += 2;
            return Some(None);
        }
        self.queue().map(Some)
    }

    /// A number below 2^32.
    #[inline(always)]
    pub fn number(&mut self) -> Option<u32> {
        self.letter(b' ')?;
        self.number_from(0)
    }

    /// A number below 2^64.
    pub fn long_number(&mut self) -> Option<u64> {
        self.letter(b' ')?;
        let (number, count) = digits(&self.bytes[self.at % MOST_PLAIN..])?;
        self.at += count;
        Some(number)
    }

    /// The name of a step behind an actor, as `letters` has it.
    #[inline(always)]
    pub fn name(&mut self) -> Option<u64> {
        self.letter(b' ')?;
        Some(self.letters())
    }

    /// The small letters that stand here, the first eight at most, as bytes of a number. Bytes that are no letters are
    /// found by their bit 6.
    #[inline(always)]
    pub fn letters(&mut self) -> u64 {
        let bytes = *self.bytes[self.at % MOST_PLAIN..].first_chunk().expect("a window is larger");
        let word = u64::from_le_bytes(bytes);
        let stops = !word & 0x4040_4040_4040_4040;
        self.at += (stops.trailing_zeros() / 8) as usize;
        let first_stop = stops & stops.wrapping_neg();
        word & (first_stop >> 6).wrapping_sub(1)
    }

    /// Whether this word stands here. It is read then.
    #[inline(always)]
    pub fn word<const N: usize>(&mut self, word: &[u8; N]) -> bool {
        let stands = self.bytes[self.at % MOST_PLAIN..].first_chunk() == Some(word);
        self.at += if stands { N } else { 0 };
        stands
    }

    /// A number of an object, from 1 and below 2^32. Nearly all such numbers have some digits, but less than eight: the
    /// bytes that are digits are found all at once, and so are they put together, two, four and then eight of them.
    #[inline(always)]
    pub fn object(&mut self) -> Option<u32> {
        let bytes = *self.bytes[self.at % MOST_PLAIN..].first_chunk().expect("a window is larger");
        let block = u64::from_le_bytes(bytes) ^ 0x3030_3030_3030_3030;
        let stops = (block.wrapping_add(0x7676_7676_7676_7676) | block) & 0x8080_8080_8080_8080;
        if stops == 0 {
            let (number, count) = long_object(&self.bytes[self.at % MOST_PLAIN..])?;
            self.at += count;
            return Some(number);
        }
        let bits = stops.trailing_zeros() & 56;
        let digits = block << 1 << (63 - bits);
        let twos = (digits * 10 + (digits >> 8)) & 0x00ff_00ff_00ff_00ff;
        let fours = (twos * 100 + (twos >> 16)) & 0x0000_ffff_0000_ffff;
        let number = (fours * 10_000 + (fours >> 32)) as u32;
        self.at += (bits / 8) as usize;
        (number > 0).then_some(number)
    }

    /// The same, or 0 for a dash.
    #[inline(always)]
    pub fn object_or_none(&mut self) -> Option<u32> {
        if self.byte(0) == b'-' {
            self.at += 1;
            return Some(0);
        }
        self.object()
    }

    #[inline(always)]
    pub fn letter(&mut self, letter: u8) -> Option<()> {
        if self.byte(0) != letter {
            return None;
        }
        self.at += 1;
        Some(())
    }

    /// The length of the line without its end, and with it, where it ends here.
    #[inline(always)]
    pub fn end(&self) -> Option<(usize, usize)> {
        match self.byte(0) {
            b'\n' => Some((self.at, self.at + 1)),
            b'\r' if self.byte(1) == b'\n' => Some((self.at, self.at + 2)),
            _ => None,
        }
    }

    #[inline(always)]
    pub fn bytes(&self) -> &'a [u8; WINDOW] {
        self.bytes
    }

    #[inline(always)]
    fn number_behind(&mut self, letter: u8) -> Option<u32> {
        if self.byte(0) != b' ' || self.byte(1) != letter {
            return None;
        }
        self.number_from(2)
    }

    /// The number below 2^32 that stands so far from here. Nearly all numbers have one or two digits.
    #[inline(always)]
    fn number_from(&mut self, from: usize) -> Option<u32> {
        let [first, second] = [from, from + 1].map(|place| u32::from(self.byte(place).wrapping_sub(b'0')));
        if first < 10 && second >= 10 {
            self.at += from + 1;
            return Some(first);
        }
        if (1..10).contains(&first) && !self.byte(from + 2).is_ascii_digit() {
            self.at += from + 2;
            return Some(10 * first + second);
        }
        let (number, count) = digits(&self.bytes[self.at % MOST_PLAIN + from..])?;
        self.at += from + count;
        u32::try_from(number).ok()
    }
}

/// A number of an object that has more digits than most, and how many.
#[cold]
#[inline(never)]
fn long_object(text: &[u8]) -> Option<(u32, usize)> {
    let (number, count) = digits(text)?;
    Some((u32::try_from(number).ok()?, count))
}

/// The number below 2^64 that stands here, and how many digits it has.
#[inline(never)]
fn digits(text: &[u8]) -> Option<(u64, usize)> {
    let mut value = 0u64;
    let mut count = 0;
    while let Some(byte) = text.get(count).filter(|byte| byte.is_ascii_digit()) {
        value = value.checked_mul(10)?.checked_add(u64::from(byte - b'0'))?;
        count += 1;
    }
    let is_plain = count == 1 || count > 1 && text[0] != b'0';
    (is_plain && count <= MOST_DIGITS).then_some((value, count))
}
