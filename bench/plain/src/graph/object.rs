//! An object, in 32 bits: from the least ones, how strongly it is reachable, what it is, how many numbers it has among
//! those of all objects' fields, and where they begin there. These are less than 2^21, since each takes two bytes of a
//! text. 0 is no object.

/// A path to an object is as weak as the weakest reference whose referent it goes through.
pub const STRONG: u32 = 1;
pub const SOFT: u32 = 2;
pub const WEAK: u32 = 3;
pub const PHANTOM: u32 = 4;
pub const UNREACHABLE: u32 = 5;
/// What isn't a reference: all its numbers are fields, and lead on as strongly as anything does.
pub const PLAIN: u32 = STRONG;

const MASK: u32 = 7;
const KIND: u32 = 3;
const COUNT: u32 = 6;
const BEGIN: u32 = 10;

#[derive(Clone, Copy)]
pub struct Object(pub u32);

impl Object {
    #[inline(always)]
    pub fn new(kind: u32, begin: usize, count: usize) -> Object {
        Object((begin as u32) << BEGIN | (count as u32) << COUNT | kind << KIND | UNREACHABLE)
    }

    #[inline(always)]
    pub fn strength(self) -> u32 {
        self.0 & MASK
    }

    #[inline(always)]
    pub fn kind(self) -> u32 {
        self.0 >> KIND & MASK
    }

    /// Its numbers among all.
    #[inline(always)]
    pub fn numbers(self, all: &[u32]) -> &[u32] {
        let begin = (self.0 >> BEGIN) as usize;
        &all[begin..begin + (self.0 >> COUNT & 15) as usize]
    }

    #[inline(always)]
    pub fn with_strength(self, strength: u32) -> Object {
        Object(self.0 & !MASK | strength)
    }
}
