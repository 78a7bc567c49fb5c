//! The objects by number.

use super::object::Object;
use std::collections::HashMap;

/// The numbers up to this one stand in a table.
const MOST_IN_TABLE: usize = 4_194_304;
/// A table has so many entries, or a multiple of that.
const STEP: usize = 4_096;

pub struct Objects {
    /// By number, and not far beyond the greatest that has an object here.
    table: Vec<u32>,
    greater: HashMap<u32, u32>,
}

impl Objects {
    pub fn new() -> Objects {
        Objects { table: vec![0; STEP], greater: HashMap::new() }
    }

    /// The object has this number. None, and nothing is done, where another has it.
    #[inline(always)]
    pub fn insert(&mut self, number: u32, object: Object) -> Option<()> {
        let at = number as usize;
        if at >= self.table.len() && at <= MOST_IN_TABLE {
            self.grow(at);
        }
        let place = match self.table.get_mut(at) {
            Some(place) => place,
            None => self.greater.entry(number).or_default(),
        };
        if *place != 0 {
            return None;
        }
        *place = object.0;
        Some(())
    }

    #[cold]
    #[inline(never)]
    fn grow(&mut self, number: usize) {
        let length = (number + 1).next_multiple_of(STEP).min(MOST_IN_TABLE + 1);
        self.table.resize(length, 0);
    }

    /// Where the object of this number stands.
    #[inline(always)]
    pub fn place(&mut self, number: u32) -> Option<&mut u32> {
        match self.table.get_mut(number as usize) {
            Some(place) => Some(place),
            None => self.greater.get_mut(&number),
        }
    }

    /// What stands in the table, from the number 1 on.
    pub fn table(&self) -> impl Iterator<Item = Object> + '_ {
        self.table[1..].iter().map(|object| Object(*object))
    }

    /// The objects of greater numbers, in their order.
    pub fn greater(&self) -> Vec<(u32, Object)> {
        let mut greater: Vec<_> = self.greater.iter().map(|(number, object)| (*number, Object(*object))).collect();
        greater.sort_unstable_by_key(|(number, _)| *number);
        greater
    }
}
