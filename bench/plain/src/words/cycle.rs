//! What the collector does: the cycle, and what it hands on of those that it cleared.

use super::{Colour, Fault, Heap, Look, Phase, Reference, Span, Strength, Word, CELLS};
use std::cmp::Reverse;
use std::mem::take;

const SWEPT_AT_ONCE: usize = 64;

impl Heap {
    /// Begins a cycle: what slots hold becomes grey, then what is held, by number, and then what is pending.
    pub fn begin(&mut self, now: u64) -> Result<u64, Fault> {
        self.check(Phase::Idle)?;
        if now < self.clock {
            return Err(Fault::ClockBack);
        }
        self.clock = now;
        self.cycle_span = self.span_now();
        self.cycle += 1;
        self.phase = Phase::Marking;
        self.good = if self.cycle % 2 == 1 { Colour::A } else { Colour::B };
        self.pages.iter_mut().for_each(|page| page.marked = 0);
        for slot in 0..self.slots.len() {
            if self.slots[slot] != Word::NULL {
                self.slots[slot] = self.heal(self.slots[slot]);
            }
        }
        self.shade_held();
        self.shade_pending();
        Ok(self.cycle)
    }

    pub fn scan(&mut self, worker: usize) -> Result<Option<u32>, Fault> {
        self.check_worker(worker, Phase::Marking)?;
        let Some(grey) = self.grey.pop_front() else { return Ok(None) };
        let place = grey as usize;
        for field in 0..self.cells[place].count as usize {
            let value = self.cells[place].fields[field];
            if !value.has(self.good) {
                self.heal_field(place, field, value);
            }
        }
        if let Some(reference) = self.cells[place].reference {
            self.scan_referent(worker, grey, reference);
        }
        Ok(Some(self.cells[place].no))
    }

    pub fn end_mark(&mut self) -> Result<u32, Fault> {
        self.check(Phase::Marking)?;
        if !self.grey.is_empty() {
            return Err(Fault::GreyLeft);
        }
        self.phase = Phase::Clearing;
        Ok(self.pages.iter().map(|page| (page.taken & !page.marked).count_ones()).sum())
    }

    /// Looks at the first reference that this worker found. One whose referent is dead is cleared, and is pending if it
    /// has a queue.
    pub fn clear_next(&mut self, worker: usize) -> Result<Option<Look>, Fault> {
        self.check_worker(worker, Phase::Clearing)?;
        let Some(place) = self.found[worker].first else { return Ok(None) };
        let cell = &mut self.cells[place as usize];
        self.found[worker].first = cell.link.take();
        let no = cell.no;
        let Some(reference) = cell.reference.filter(|reference| reference.referent != Word::NULL) else {
            return Ok(Some(Look::Skipped(no)));
        };
        let Reference { referent, queue, .. } = reference;
        if referent.has(self.good) || self.heal_referent(place as usize, referent) != Word::NULL {
            return Ok(Some(Look::Kept(no)));
        }
        self.cells[place as usize].reference = Some(Reference { referent: Word::NULL, ..reference });
        if queue.is_some() {
            self.pending[worker].push(&mut self.cells, place);
        }
        Ok(Some(Look::Cleared(no)))
    }

    /// Ends the clearing, and lists what is dead.
    pub fn end_clear(&mut self) -> Result<(), Fault> {
        self.check(Phase::Clearing)?;
        if self.found.iter().any(|found| found.first.is_some()) {
            return Err(Fault::ClearingLeft);
        }
        for (number, page) in self.pages.iter().enumerate() {
            let mut dead = page.taken & !page.marked;
            while dead != 0 {
                self.dead.push((number * CELLS) as u32 + dead.trailing_zeros());
                dead &= dead - 1;
            }
        }
        let cells = &self.cells;
        self.dead.sort_unstable_by_key(|place| Reverse(cells[*place as usize].no));
        self.phase = Phase::Sweeping;
        Ok(())
    }

    /// Frees the 64 dead of least number, or all where fewer are left, and answers how many.
    pub fn sweep(&mut self, worker: usize) -> Result<Option<usize>, Fault> {
        self.check_worker(worker, Phase::Sweeping)?;
        let left = self.dead.len().saturating_sub(SWEPT_AT_ONCE);
        let freed = self.dead.len() - left;
        for place in self.dead.drain(left..).rev() {
            let place = place as usize;
            self.cells[place].no = 0;
            self.count -= 1;
            self.pages[place / CELLS].taken &= !(1 << (place % CELLS));
            self.first_open = self.first_open.min(self.pages[place / CELLS].rank as usize);
        }
        Ok((freed > 0).then_some(freed))
    }

    pub fn end_sweep(&mut self) -> Result<(), Fault> {
        self.check(Phase::Sweeping)?;
        if !self.dead.is_empty() {
            return Err(Fault::SweepLeft);
        }
        self.renumber();
        self.phase = Phase::Idle;
        Ok(())
    }

    /// Hands on the first that is pending of this worker: it is held now.
    pub fn hand(&mut self, worker: usize) -> Result<Option<u32>, Fault> {
        let pending = self.pending.get(worker).ok_or(Fault::NoSuchActor)?;
        let Some(first) = pending.first else { return Ok(None) };
        let place = self.lies_at(first as usize);
        let cell = &mut self.cells[place];
        self.pending[worker].first = cell.link.take();
        cell.holds += 1;
        self.holds += 1;
        Ok(Some(cell.no))
    }

    /// Takes a hold of the object of this number back.
    pub fn release(&mut self, no: u32) -> Result<(), Fault> {
        let (_, place) = *self.entry(no).ok_or(Fault::ForeignHold)?;
        let cell = &mut self.cells[place as usize];
        if cell.no != no || cell.holds == 0 {
            return Err(Fault::ForeignHold);
        }
        cell.holds -= 1;
        self.holds -= 1;
        Ok(())
    }

    // ---- parts of calls

    pub(super) fn check(&self, phase: Phase) -> Result<(), Fault> {
        (self.phase == phase).then_some(()).ok_or(Fault::WrongPhase)
    }

    pub(super) fn check_worker(&self, worker: usize, phase: Phase) -> Result<(), Fault> {
        (worker < self.found.len()).then_some(()).ok_or(Fault::NoSuchActor)?;
        self.check(phase)
    }

    /// What a cycle that begins now makes of the span.
    fn span_now(&self) -> u64 {
        match self.span {
            Span::Fixed(span) => span,
            Span::Scaled(span) => {
                let (free, cells) = ((self.room - self.count) as u128, self.room as u128);
                (u128::from(span) * free / cells) as u64
            }
        }
    }

    fn shade_held(&mut self) {
        if self.holds == 0 {
            return;
        }
        for entry in 0..self.index.len() {
            let (no, place) = self.index[entry];
            let cell = &self.cells[place as usize];
            if cell.no == no && cell.holds > 0 {
                self.shade(place as usize);
            }
        }
    }

    /// Each chain is linked anew, since what stands in it may have moved.
    fn shade_pending(&mut self) {
        for worker in 0..self.pending.len() {
            let mut next = take(&mut self.pending[worker]).first;
            while let Some(place) = next {
                let place = self.lies_at(place as usize);
                next = self.cells[place].link.take();
                self.shade(place);
                self.pending[worker].push(&mut self.cells, place as u32);
            }
        }
    }

    /// A soft reference that was got lately keeps its referent; the worker finds another whose referent isn't marked.
    fn scan_referent(&mut self, worker: usize, grey: u32, reference: Reference) {
        let Reference { strength, referent, stamp, .. } = reference;
        if referent.has(self.good) {
            return;
        }
        let is_kept = strength == Strength::Soft && self.clock - stamp <= self.cycle_span;
        if is_kept || self.is_marked(self.lies_at(referent.place())) {
            self.heal_referent(grey as usize, referent);
        } else {
            self.found[worker].push(&mut self.cells, grey);
        }
    }
}
