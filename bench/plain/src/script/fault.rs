//! Why a step is refused.

const BLOCK: usize = 32;

#[derive(Clone, Copy, Debug, PartialEq, Eq)]
pub enum Fault {
    BadConfig,
    NoCell,
    EmptySlot,
    BadField,
    NotAReference,
    NoSuchActor,
    BadQueue,
    WrongPhase,
    ClockBack,
    GreyLeft,
    ClearingLeft,
    SweepLeft,
    MovesLeft,
    NoRoom,
    AddressesSpent,
    RegisteredTwice,
    HandFull,
    HandEmpty,
}

/// A text of at most 32 bytes, in front of a block, and its length.
const fn block(text: &[u8]) -> ([u8; BLOCK], usize) {
    let mut bytes = [0; BLOCK];
    let mut at = 0;
    while at < text.len() {
        bytes[at] = text[at];
        at += 1;
    }
    (bytes, text.len())
}

/// The replies of refused steps, in the order of the faults.
static TEXTS: [([u8; BLOCK], usize); 18] = [
    block(b" : refused 1 BadConfig\n"),
    block(b" : refused 4 NoCell\n"),
    block(b" : refused 6 EmptySlot\n"),
    block(b" : refused 7 BadField\n"),
    block(b" : refused 8 NotAReference\n"),
    block(b" : refused 9 NoSuchActor\n"),
    block(b" : refused 10 BadQueue\n"),
    block(b" : refused 12 WrongPhase\n"),
    block(b" : refused 13 ClockBack\n"),
    block(b" : refused 14 GreyLeft\n"),
    block(b" : refused 15 ClearingLeft\n"),
    block(b" : refused 16 SweepLeft\n"),
    block(b" : refused 17 MovesLeft\n"),
    block(b" : refused 18 NoRoom\n"),
    block(b" : refused 19 AddressesSpent\n"),
    block(b" : refused 21 RegisteredTwice\n"),
    block(b" : refused 23 HandFull\n"),
    block(b" : refused 24 HandEmpty\n"),
];

impl Fault {
    /// The reply of a step that is refused so, and its length.
    #[inline(always)]
    pub fn text(self) -> (&'static [u8; BLOCK], usize) {
        let (text, length) = &TEXTS[self as usize];
        (text, *length)
    }
}
