//! Moves between cycles: what lies in pages that are at most half full goes to others.

use super::{Colour, Fault, Heap, Phase, CELLS};
use std::mem::replace;

impl Heap {
    /// Chooses each page with 1 to 32 objects, and reserves the cell to which each of these moves. Answers how many
    /// they are.
    pub fn select(&mut self) -> Result<u32, Fault> {
        self.check(Phase::Idle)?;
        if self.has_choice {
            return Err(Fault::WrongPhase);
        }
        let sparse = self.pages.iter().filter(|page| page.is_sparse()).count();
        if sparse < 2 {
            return Err(Fault::NoRoom);
        }
        if self.next_address + sparse as u64 > 1 << 32 {
            return Err(Fault::AddressesSpent);
        }
        for &frame in &self.order {
            let page = &mut self.pages[frame as usize];
            if page.is_sparse() {
                page.is_chosen = true;
                self.chosen.push(frame);
            }
        }
        let mut count = 0;
        for chosen in 0..self.chosen.len() {
            let frame = self.chosen[chosen] as usize;
            let mut left = self.pages[frame].taken;
            while left != 0 {
                let from = frame * CELLS + left.trailing_zeros() as usize;
                self.forwards[from] = self.place()? as u32;
                left &= left - 1;
                count += 1;
            }
        }
        self.first_left = 0;
        self.has_choice = true;
        self.good = Colour::R;
        self.phase = Phase::Moving;
        Ok(count)
    }

    /// Moves the next object, in order of page and cell, and answers its number.
    pub fn move_next(&mut self, worker: usize) -> Result<Option<u32>, Fault> {
        self.check_worker(worker, Phase::Moving)?;
        while let Some(&frame) = self.chosen.get(self.first_left) {
            let taken = self.pages[frame as usize].taken;
            if taken != 0 {
                let from = frame as usize * CELLS + taken.trailing_zeros() as usize;
                let to = self.move_at(from);
                return Ok(Some(self.cells[to].no));
            }
            self.first_left += 1;
        }
        Ok(None)
    }

    pub fn end_move(&mut self) -> Result<(), Fault> {
        self.check(Phase::Moving)?;
        if self.chosen.iter().any(|frame| self.pages[*frame as usize].taken != 0) {
            return Err(Fault::MovesLeft);
        }
        self.phase = Phase::Idle;
        Ok(())
    }

    /// The pages that were left are used again, at new addresses.
    pub(super) fn renumber(&mut self) {
        self.has_choice = false;
        if self.chosen.is_empty() {
            return;
        }
        self.order.retain(|frame| !self.pages[*frame as usize].is_chosen);
        for frame in self.chosen.drain(..) {
            self.pages[frame as usize].is_chosen = false;
            self.pages[frame as usize].address = self.next_address as u32;
            self.next_address += 1;
            self.order.push(frame);
        }
        for (rank, frame) in self.order.iter().enumerate() {
            self.pages[*frame as usize].rank = rank as u32;
        }
        self.first_open = 0;
    }

    /// Where what lay at this place lies now. Where it is still to move it moves first.
    pub(super) fn resolve(&mut self, place: usize) -> usize {
        let place = self.lies_at(place);
        if self.phase == Phase::Moving && self.pages[place / CELLS].is_chosen {
            self.move_at(place)
        } else {
            place
        }
    }

    fn move_at(&mut self, from: usize) -> usize {
        let to = self.forwards[from] as usize;
        let cell = replace(&mut self.cells[from], super::Cell::FREE);
        if let Some(entry) = self.entry(cell.no) {
            entry.1 = to as u32;
        }
        self.cells[to] = cell;
        self.pages[from / CELLS].taken &= !(1 << (from % CELLS));
        to
    }
}
