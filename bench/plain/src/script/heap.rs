//! Objects, and what mutators do to them.
//!
//! Slots, fields and referents name an object by where its record stands in memory, which never changes while it lives.
//! Null is the record at 0, of number 0, which counts as marked in each cycle.

use super::fault::Fault;
use super::pages::Pages;
use super::worklist::Worklist;
use std::collections::VecDeque;

pub const MOST_ACTORS: usize = 8;
const SLOTS: u32 = 16;
const FIELDS: usize = 8;
const NULL: u32 = 0;
const NO_QUEUE: u8 = u8::MAX;

pub struct Config {
    pub mutators: u32,
    pub workers: u32,
    pub queues: u32,
    pub cells: u32,
    pub span: u64,
    /// Whether a cycle keeps soft references for the share of the span of which cells are free.
    pub is_scaled: bool,
}

#[derive(Clone, Copy, PartialEq, Eq)]
pub enum Phase {
    Idle,
    Moving,
    Marking,
    Clearing,
    Sweeping,
}

#[derive(Clone, Copy, PartialEq, Eq)]
pub enum Kind {
    Plain,
    Soft,
    Weak,
    Phantom,
}

#[derive(Clone, Copy)]
#[repr(align(64))]
pub struct Object {
    pub no: u32,
    /// The cycle in which it was marked last.
    pub mark: u32,
    pub place: u32,
    /// How many notices of it are out.
    pub holds: u32,
    pub referent: u32,
    pub kind: Kind,
    pub count: u8,
    queue: u8,
    /// Whether it was ever put into its queue: a notice is for the queue of its reference, so that this tells it all.
    pub was_put: bool,
    /// The clock at which a soft reference was made or got last.
    pub stamp: u64,
    pub fields: [u32; FIELDS],
}

const _: () = assert!(size_of::<Object>() == 64);

impl Object {
    const NULL: Object = Object {
        no: 0,
        mark: 0,
        place: 0,
        holds: 0,
        referent: NULL,
        kind: Kind::Plain,
        count: 0,
        queue: NO_QUEUE,
        was_put: false,
        stamp: 0,
        fields: [NULL; FIELDS],
    };

    #[inline(always)]
    pub fn queue(&self) -> Option<u32> {
        (self.queue != NO_QUEUE).then_some(u32::from(self.queue))
    }
}

/// A reference that a worker cleared and has not handed on, and the cycle in which it did.
#[derive(Clone, Copy)]
pub struct Pending {
    pub object: u32,
    pub cycle: u32,
}

pub struct Heap {
    pub config: Config,
    pub objects: Vec<Object>,
    /// The records of what was swept.
    pub vacant: Vec<u32>,
    /// What lives, in order of number. What is doomed leaves it as the clearing ends.
    pub living: Vec<u32>,
    slots: [u32; MOST_ACTORS * SLOTS as usize],
    pub pages: Pages,
    /// How many objects were ever made, and how many are there.
    pub made: u32,
    pub count: u32,
    /// How many holds are out.
    pub holds: u32,
    pub phase: Phase,
    pub cycle: u32,
    pub clock: u64,
    /// For how long the cycle keeps soft references: none in an urgent one.
    pub kept_for: Option<u64>,
    /// How many objects were made before the cycle.
    pub made_before: u32,
    pub grey: Worklist,
    /// For each worker, the references that it found and didn't look at yet.
    pub found: [Worklist; MOST_ACTORS],
    pub pending: [VecDeque<Pending>; MOST_ACTORS],
    pub doomed: Worklist,
}

impl Heap {
    pub fn new(config: Config) -> Heap {
        Heap {
            objects: vec![Object::NULL],
            vacant: Vec::new(),
            living: Vec::new(),
            slots: [NULL; MOST_ACTORS * SLOTS as usize],
            pages: Pages::new(config.cells),
            made: 0,
            count: 0,
            holds: 0,
            phase: Phase::Idle,
            cycle: 0,
            clock: 0,
            kept_for: None,
            made_before: 0,
            grey: Worklist::default(),
            found: Default::default(),
            pending: Default::default(),
            doomed: Worklist::default(),
            config,
        }
    }

    #[inline(always)]
    pub fn alloc(&mut self, by: u32, into: u32, fields: u32) -> Result<u32, Fault> {
        let into = self.slot(by, into)?;
        self.add(into, fields, Object::NULL)
    }

    #[inline(always)]
    pub fn alloc_ref(
        &mut self,
        by: u32,
        kind: Kind,
        (into, from): (u32, u32),
        queue: Option<u32>,
        fields: u32,
    ) -> Result<u32, Fault> {
        let (into, from) = self.two_slots(by, into, from)?;
        if queue.is_some_and(|queue| queue >= self.config.queues) {
            return Err(Fault::BadQueue);
        }
        let referent = self.slots[from];
        if referent == NULL {
            return Err(Fault::EmptySlot);
        }
        let stamp = if kind == Kind::Soft { self.clock } else { 0 };
        let queue = queue.map_or(NO_QUEUE, |queue| queue as u8);
        self.add(into, fields, Object { kind, referent, queue, stamp, ..Object::NULL })
    }

    #[inline(always)]
    pub fn store(&mut self, by: u32, into: u32, field: u32, from: u32) -> Result<(), Fault> {
        let (into, from) = self.two_slots(by, into, from)?;
        let (holder, value) = (self.slots[into], self.slots[from]);
        *self.field(holder, field)? = value;
        Ok(())
    }

    #[inline(always)]
    pub fn load(&mut self, by: u32, into: u32, from: u32, field: u32) -> Result<u32, Fault> {
        let (into, from) = self.two_slots(by, into, from)?;
        let value = *self.field(self.slots[from], field)?;
        Ok(self.read(into, value))
    }

    #[inline(always)]
    pub fn copy(&mut self, by: u32, into: u32, from: u32) -> Result<u32, Fault> {
        let (into, from) = self.two_slots(by, into, from)?;
        let value = self.slots[from];
        self.slots[into] = value;
        Ok(self.object(value).no)
    }

    #[inline(always)]
    pub fn drop_slot(&mut self, by: u32, slot: u32) -> Result<(), Fault> {
        let slot = self.slot(by, slot)?;
        self.slots[slot] = NULL;
        Ok(())
    }

    #[inline(always)]
    pub fn get(&mut self, by: u32, into: u32, from: u32) -> Result<u32, Fault> {
        let (into, from) = self.two_slots(by, into, from)?;
        let holder = self.reference_at(from)?;
        let &Object { kind, referent, .. } = self.object(holder);
        let value = if kind == Kind::Phantom { NULL } else { self.undoomed(referent) };
        if kind == Kind::Soft && value != NULL {
            self.objects[holder as usize].stamp = self.clock;
        }
        Ok(self.read(into, value))
    }

    #[inline(always)]
    pub fn clear(&mut self, by: u32, slot: u32) -> Result<(), Fault> {
        let reference = self.reference_in(by, slot)?;
        self.cut(reference);
        Ok(())
    }

    #[inline(always)]
    pub fn refers(&self, by: u32, slot: u32, other: u32) -> Result<bool, Fault> {
        let (slot, other) = self.two_slots(by, slot, other)?;
        let reference = self.reference_at(slot)?;
        Ok(self.undoomed(self.object(reference).referent) == self.slots[other])
    }

    // ---- parts of calls, also of those of queues and jobs

    #[inline(always)]
    pub fn object(&self, object: u32) -> &Object {
        &self.objects[object as usize]
    }

    pub fn has_slot(&self, by: u32, slot: u32) -> bool {
        by < self.config.mutators && slot < SLOTS
    }

    /// The reference in a slot.
    #[inline(always)]
    pub fn reference_in(&self, by: u32, slot: u32) -> Result<u32, Fault> {
        self.reference_at(self.slot(by, slot)?)
    }

    /// Clears a reference. One whose referent is doomed is left to its worker.
    #[inline(always)]
    pub fn cut(&mut self, reference: u32) {
        let referent = self.object(reference).referent;
        if self.undoomed(referent) == referent {
            self.objects[reference as usize].referent = NULL;
        }
    }

    /// One more notice of it is out.
    #[inline(always)]
    pub fn hold(&mut self, object: u32) {
        self.objects[object as usize].holds += 1;
        self.holds += 1;
    }

    /// A notice of it came back.
    #[inline(always)]
    pub fn release(&mut self, object: u32) {
        self.objects[object as usize].holds -= 1;
        self.holds -= 1;
    }

    /// A notice of it came back into a slot.
    #[inline(always)]
    pub fn adopt(&mut self, by: u32, slot: u32, object: u32) -> Result<u32, Fault> {
        let slot = self.slot(by, slot)?;
        self.slots[slot] = object;
        self.release(object);
        Ok(self.object(object).no)
    }

    /// What slots hold, slot by slot.
    pub fn held_in_slots(&self) -> [u32; MOST_ACTORS * SLOTS as usize] {
        self.slots
    }

    /// Marks it, and lists it where it wasn't marked.
    #[inline(always)]
    pub fn shade(&mut self, object: u32) {
        let mark = &mut self.objects[object as usize].mark;
        if *mark != self.cycle {
            *mark = self.cycle;
            self.grey.push(object);
        }
    }

    #[inline(always)]
    pub fn is_marked(&self, object: u32) -> bool {
        self.object(object).mark == self.cycle
    }

    /// Moves it to where it is to lie.
    pub fn move_object(&mut self, object: u32) {
        let object = &mut self.objects[object as usize];
        object.place = self.pages.forward(object.place);
    }

    #[inline(always)]
    fn slot(&self, by: u32, slot: u32) -> Result<usize, Fault> {
        if !self.has_slot(by, slot) {
            return Err(Fault::NoSuchActor);
        }
        Ok(place_of_slot(by, slot))
    }

    #[inline(always)]
    fn two_slots(&self, by: u32, one: u32, other: u32) -> Result<(usize, usize), Fault> {
        if !self.has_slot(by, one | other) {
            return Err(Fault::NoSuchActor);
        }
        Ok((place_of_slot(by, one), place_of_slot(by, other)))
    }

    #[inline(always)]
    fn field(&mut self, holder: u32, field: u32) -> Result<&mut u32, Fault> {
        if holder == NULL {
            return Err(Fault::EmptySlot);
        }
        let object = &mut self.objects[holder as usize];
        if field >= u32::from(object.count) {
            return Err(Fault::BadField);
        }
        Ok(&mut object.fields[field as usize % FIELDS])
    }

    #[inline(always)]
    fn reference_at(&self, slot: usize) -> Result<u32, Fault> {
        let holder = self.slots[slot];
        if holder == NULL {
            return Err(Fault::EmptySlot);
        }
        if self.object(holder).kind == Kind::Plain {
            return Err(Fault::NotAReference);
        }
        Ok(holder)
    }

    /// The referent, or null where it is doomed.
    #[inline(always)]
    fn undoomed(&self, referent: u32) -> u32 {
        let is_past_mark = matches!(self.phase, Phase::Clearing | Phase::Sweeping);
        if is_past_mark && !self.is_marked(referent) {
            NULL
        } else {
            referent
        }
    }

    /// What was read goes into a slot. In a mark it becomes grey, and while objects move it moves first.
    #[inline(always)]
    fn read(&mut self, into: usize, value: u32) -> u32 {
        self.slots[into] = value;
        match self.phase {
            Phase::Marking => self.shade(value),
            Phase::Moving => self.move_first(value),
            _ => {}
        }
        self.object(value).no
    }

    fn move_first(&mut self, value: u32) {
        if value != NULL && self.pages.is_chosen(self.object(value).place) {
            self.move_object(value);
        }
    }

    /// One more object. What is made in a cycle is marked.
    #[inline(always)]
    fn add(&mut self, into: usize, fields: u32, like: Object) -> Result<u32, Fault> {
        if fields as usize > FIELDS {
            return Err(Fault::BadField);
        }
        if self.count == self.config.cells {
            return Err(Fault::NoCell);
        }
        self.made += 1;
        self.count += 1;
        let mark = if matches!(self.phase, Phase::Idle | Phase::Moving) { 0 } else { self.cycle };
        let made = Object { no: self.made, mark, place: self.pages.place(), count: fields as u8, ..like };
        let object = match self.vacant.pop() {
            Some(object) => {
                self.objects[object as usize] = made;
                object
            }
            None => {
                self.objects.push(made);
                self.objects.len() as u32 - 1
            }
        };
        self.living.push(object);
        self.slots[into] = object;
        Ok(self.made)
    }
}

#[inline(always)]
fn place_of_slot(by: u32, slot: u32) -> usize {
    (by * SLOTS + slot) as usize % (MOST_ACTORS * SLOTS as usize)
}
