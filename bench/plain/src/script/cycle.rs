//! What the collector does: cycles, and moves between them.

use super::fault::Fault;
use super::heap::{Heap, Kind, Object, Pending, Phase};

const SWEPT_AT_ONCE: usize = 64;

/// What a look at a reference told of it: that of this number was cleared, or has another referent, or had none.
#[derive(Clone, Copy)]
pub enum Look {
    Cleared(u32),
    Kept(u32),
    Skipped(u32),
    Nothing,
}

impl Heap {
    /// Begins a cycle: what slots hold becomes grey, then what is held, by number, and then what is pending.
    pub fn begin(&mut self, now: u64, is_urgent: bool) -> Result<u32, Fault> {
        self.check(Phase::Idle)?;
        if now < self.clock {
            return Err(Fault::ClockBack);
        }
        self.clock = now;
        self.kept_for = (!is_urgent).then(|| self.span_now());
        self.cycle += 1;
        self.phase = Phase::Marking;
        self.made_before = self.made;
        self.objects[0].mark = self.cycle;
        self.grey.clear();
        self.found.iter_mut().for_each(|found| found.clear());
        self.held_in_slots().into_iter().for_each(|object| self.shade(object));
        self.shade_held();
        for worker in 0..self.pending.len() {
            for place in 0..self.pending[worker].len() {
                self.shade(self.pending[worker][place].object);
            }
        }
        Ok(self.cycle)
    }

    #[inline(always)]
    pub fn scan(&mut self, worker: u32) -> Result<Option<u32>, Fault> {
        self.check_worker(worker, Phase::Marking)?;
        let Some(object) = self.grey.take_first() else { return Ok(None) };
        let Object { no, kind, count, referent, stamp, fields, .. } = *self.object(object);
        for field in &fields[..count as usize] {
            self.shade(*field);
        }
        if kind != Kind::Plain && !self.is_marked(referent) {
            let is_kept = kind == Kind::Soft && self.kept_for.is_some_and(|span| self.clock - stamp <= span);
            if is_kept {
                self.shade(referent);
            } else {
                self.found[worker as usize % 8].push(object);
            }
        }
        Ok(Some(no))
    }

    /// What was there before the cycle, and didn't become grey in it, is doomed.
    pub fn end_mark(&mut self) -> Result<u32, Fault> {
        self.check(Phase::Marking)?;
        if !self.grey.is_empty() {
            return Err(Fault::GreyLeft);
        }
        self.phase = Phase::Clearing;
        Ok(self.count - self.grey.pushed() - (self.made - self.made_before))
    }

    /// Looks at the first reference that this worker found.
    #[inline(always)]
    pub fn clear_next(&mut self, worker: u32) -> Result<Look, Fault> {
        self.check_worker(worker, Phase::Clearing)?;
        let Some(object) = self.found[worker as usize % 8].take_first() else { return Ok(Look::Nothing) };
        let &Object { no, referent, .. } = self.object(object);
        if referent == 0 {
            return Ok(Look::Skipped(no));
        }
        if self.is_marked(referent) {
            return Ok(Look::Kept(no));
        }
        let reference = &mut self.objects[object as usize];
        reference.referent = 0;
        if reference.queue().is_some() {
            self.pending[worker as usize % 8].push_back(Pending { object, cycle: self.cycle });
        }
        Ok(Look::Cleared(no))
    }

    /// Ends the clearing, and lists what is doomed.
    pub fn end_clear(&mut self) -> Result<(), Fault> {
        self.check(Phase::Clearing)?;
        if self.found.iter().any(|found| !found.is_empty()) {
            return Err(Fault::ClearingLeft);
        }
        self.doomed.clear();
        let Heap { living, objects, doomed, cycle, .. } = self;
        living.retain(|object| {
            let is_marked = objects[*object as usize].mark == *cycle;
            if !is_marked {
                doomed.push(*object);
            }
            is_marked
        });
        self.phase = Phase::Sweeping;
        Ok(())
    }

    /// Frees the 64 doomed of least number, or all where fewer are left, and answers how many.
    pub fn sweep(&mut self, worker: u32) -> Result<Option<u32>, Fault> {
        self.check_worker(worker, Phase::Sweeping)?;
        let Heap { doomed, vacant, objects, pages, .. } = self;
        let swept = doomed.take_some(SWEPT_AT_ONCE);
        vacant.extend_from_slice(swept);
        for object in swept {
            pages.free(objects[*object as usize].place);
        }
        let freed = swept.len() as u32;
        self.count -= freed;
        Ok((freed > 0).then_some(freed))
    }

    pub fn end_sweep(&mut self) -> Result<(), Fault> {
        self.check(Phase::Sweeping)?;
        if !self.doomed.is_empty() {
            return Err(Fault::SweepLeft);
        }
        self.pages.end_moves();
        self.phase = Phase::Idle;
        Ok(())
    }

    pub fn select(&mut self) -> Result<u32, Fault> {
        self.check(Phase::Idle)?;
        if self.pages.has_choice() {
            return Err(Fault::WrongPhase);
        }
        let objects = &self.objects;
        let count = self.pages.select(self.living.iter().map(|object| (*object, objects[*object as usize].place)))?;
        self.phase = Phase::Moving;
        Ok(count)
    }

    /// Moves the next object that didn't move yet.
    pub fn move_next(&mut self, worker: u32) -> Result<Option<u32>, Fault> {
        self.check_worker(worker, Phase::Moving)?;
        while let Some(object) = self.pages.next_moving() {
            if self.pages.is_chosen(self.object(object).place) {
                self.move_object(object);
                return Ok(Some(self.object(object).no));
            }
        }
        Ok(None)
    }

    pub fn end_move(&mut self) -> Result<(), Fault> {
        self.check(Phase::Moving)?;
        if self.pages.has_left() {
            return Err(Fault::MovesLeft);
        }
        self.phase = Phase::Idle;
        Ok(())
    }

    // ---- parts of calls

    #[inline(always)]
    fn check(&self, phase: Phase) -> Result<(), Fault> {
        if self.phase == phase {
            Ok(())
        } else {
            Err(Fault::WrongPhase)
        }
    }

    #[inline(always)]
    fn check_worker(&self, worker: u32, phase: Phase) -> Result<(), Fault> {
        if worker >= self.config.workers {
            return Err(Fault::NoSuchActor);
        }
        self.check(phase)
    }

    /// For how long a cycle that begins now keeps soft references.
    fn span_now(&self) -> u64 {
        let span = self.config.span;
        if !self.config.is_scaled {
            return span;
        }
        let free = u128::from(self.config.cells - self.count);
        (u128::from(span) * free / u128::from(self.config.cells)) as u64
    }

    /// What notices hold becomes grey, in order of number.
    fn shade_held(&mut self) {
        let mut left = self.holds;
        let mut place = 0;
        while left > 0 {
            let object = self.living[place];
            let holds = self.object(object).holds;
            if holds > 0 {
                self.shade(object);
                left -= holds;
            }
            place += 1;
        }
    }
}
