//! A heap by coloured words, as a user would write it: it checks what safe Rust checks, and proves nothing.
//!
//! A word is a colour, the address of a page from 1 on, and one of its 64 cells. What slots hold has the good colour.
//! What a field or a reference holds in another is healed where it is read: written anew in the good colour, and in a
//! mark what it leads to becomes grey. What lay in a page that was chosen is found where it moved, and moves first if
//! it is still to move.

mod cycle;
mod moves;

use std::collections::VecDeque;

const SLOTS: u32 = 16;
const FIELDS: usize = 8;
const CELLS: usize = 64;

#[derive(Clone, Copy, Debug, PartialEq, Eq)]
pub enum Fault {
    NoSuchActor,
    EmptySlot,
    BadField,
    NotAReference,
    NoCell,
    ForeignHold,
    WrongPhase,
    ClockBack,
    GreyLeft,
    ClearingLeft,
    SweepLeft,
    NoRoom,
    AddressesSpent,
    MovesLeft,
}

#[derive(Clone, Copy, PartialEq, Eq)]
enum Phase {
    Idle,
    Marking,
    Clearing,
    Sweeping,
    Moving,
}

/// How long soft references are kept: so long, or in a cycle as much of that as the share of the cells that are free.
#[derive(Clone, Copy)]
pub enum Span {
    Fixed(u64),
    /// No run has such a span.
    #[allow(dead_code)]
    Scaled(u64),
}

#[derive(Clone, Copy, PartialEq, Eq)]
pub enum Strength {
    Soft,
    Weak,
    /// No run makes such a reference.
    #[allow(dead_code)]
    Phantom,
}

/// What a look at a reference told of it: that of this number is cleared, or has another referent, or had none. The runs
/// read none of the numbers.
#[allow(dead_code)]
#[derive(Clone, Copy)]
pub enum Look {
    Cleared(u32),
    Kept(u32),
    Skipped(u32),
}

#[derive(Clone, Copy, PartialEq, Eq)]
#[repr(u32)]
enum Colour {
    A = 1,
    B = 2,
    R = 3,
}

/// Null, which is 0, or the word of a cell: its colour stands in the two highest bits.
#[derive(Clone, Copy, PartialEq, Eq)]
struct Word(u32);

impl Word {
    const NULL: Word = Word(0);
    const PLACE: u32 = (1 << 30) - 1;

    /// The first page, at address 1, has the places 0 to 63.
    fn of(colour: Colour, place: usize) -> Word {
        Word((colour as u32) << 30 | (place + CELLS) as u32)
    }

    /// Behind all places for null.
    fn place(self) -> usize {
        ((self.0 & Word::PLACE) as usize).wrapping_sub(CELLS)
    }

    fn has(self, colour: Colour) -> bool {
        self == Word::NULL || self.0 >> 30 == colour as u32
    }
}

#[derive(Clone, Copy)]
struct Reference {
    strength: Strength,
    referent: Word,
    stamp: u64,
    queue: Option<u32>,
}

/// As large as a cell of `ref_bench`'s heap.
#[derive(Clone)]
struct Cell {
    /// The number of the object, or 0 where the cell is free.
    no: u32,
    count: u8,
    fields: [Word; FIELDS],
    reference: Option<Reference>,
    /// Where the reference behind it in its chain lies.
    link: Option<u32>,
    holds: u64,
}

const _: () = assert!(size_of::<Cell>() == 80);

impl Cell {
    const FREE: Cell =
        Cell { no: 0, count: 0, fields: [Word::NULL; FIELDS], reference: None, link: None, holds: 0 };

    fn field(&self, field: u32) -> Option<Word> {
        let fields = self.fields.get(..self.count as usize)?;
        fields.get(field as usize).copied()
    }
}

/// References in order, each of which links to the next: where the first and the last lie. An empty chain has no first.
#[derive(Clone, Copy, Default)]
struct Chain {
    first: Option<u32>,
    last: u32,
}

impl Chain {
    /// One more, last.
    fn push(&mut self, cells: &mut [Cell], place: u32) {
        match self.first {
            None => self.first = Some(place),
            Some(_) => cells[self.last as usize].link = Some(place),
        }
        self.last = place;
    }
}

/// Which of a page's cells are taken, and which of these are marked.
#[derive(Clone)]
struct Page {
    address: u32,
    /// Where it stands in order of address.
    rank: u32,
    is_chosen: bool,
    taken: u64,
    marked: u64,
}

impl Page {
    fn is_sparse(&self) -> bool {
        (1..=32).contains(&self.taken.count_ones())
    }
}

pub struct Heap {
    cells: Vec<Cell>,
    pages: Vec<Page>,
    /// The pages in order of address, by their places in memory.
    order: Vec<u32>,
    /// No open page in front of this one has a free cell.
    first_open: usize,
    /// Place by number, in order: an object that was handed out is named by its number.
    index: Vec<(u32, u32)>,
    /// How many objects there are, and may be.
    count: usize,
    room: usize,
    /// Where what lay at each place moved.
    forwards: Vec<u32>,
    /// The pages whose objects are to move, and which of these has objects left.
    chosen: Vec<u32>,
    first_left: usize,
    has_choice: bool,
    next_address: u64,
    slots: Vec<Word>,
    good: Colour,
    phase: Phase,
    cycle: u64,
    clock: u64,
    span: Span,
    /// What the cycle makes of the span.
    cycle_span: u64,
    last: u32,
    /// How many holds are out.
    holds: u64,
    grey: VecDeque<u32>,
    /// For each worker, the references that it found and didn't look at yet.
    found: Vec<Chain>,
    /// For each worker, those that it cleared and didn't hand on yet. They may have moved since.
    pending: Vec<Chain>,
    /// What is left to sweep, the least number last.
    dead: Vec<u32>,
}

impl Heap {
    pub fn new(mutators: usize, workers: usize, cells: usize, span: Span) -> Heap {
        let pages = 2 * cells.div_ceil(CELLS);
        let page = |frame| Page { address: 1 + frame, rank: frame, is_chosen: false, taken: 0, marked: 0 };
        Heap {
            cells: vec![Cell::FREE; pages * CELLS],
            pages: (0..pages as u32).map(page).collect(),
            order: (0..pages as u32).collect(),
            first_open: 0,
            index: Vec::with_capacity(2 * cells),
            count: 0,
            room: cells,
            forwards: vec![0; pages * CELLS],
            chosen: Vec::with_capacity(pages),
            first_left: 0,
            has_choice: false,
            next_address: 1 + pages as u64,
            slots: vec![Word::NULL; mutators * SLOTS as usize],
            good: Colour::R,
            phase: Phase::Idle,
            cycle: 0,
            clock: 0,
            span,
            cycle_span: 0,
            last: 0,
            holds: 0,
            grey: VecDeque::with_capacity(cells),
            found: vec![Chain::default(); workers],
            pending: vec![Chain::default(); workers],
            dead: Vec::with_capacity(cells),
        }
    }

    pub fn alloc_obj(&mut self, mutator: u32, into: u32, fields: u32) -> Result<u32, Fault> {
        let into = self.slot(mutator, into)?;
        self.alloc(into, fields, None)
    }

    pub fn alloc_ref(
        &mut self,
        mutator: u32,
        into: u32,
        strength: Strength,
        from: u32,
        queue: Option<u32>,
        fields: u32,
    ) -> Result<u32, Fault> {
        let into = self.slot(mutator, into)?;
        let referent = self.slots[self.slot(mutator, from)?];
        if referent == Word::NULL {
            return Err(Fault::EmptySlot);
        }
        self.alloc(into, fields, Some(Reference { strength, referent, stamp: self.clock, queue }))
    }

    pub fn copy(&mut self, mutator: u32, into: u32, from: u32) -> Result<Option<u32>, Fault> {
        let into = self.slot(mutator, into)?;
        let value = self.slots[self.slot(mutator, from)?];
        self.slots[into] = value;
        Ok(self.number(value))
    }

    pub fn drop_slot(&mut self, mutator: u32, slot: u32) -> Result<(), Fault> {
        let slot = self.slot(mutator, slot)?;
        self.slots[slot] = Word::NULL;
        Ok(())
    }

    pub fn store(&mut self, mutator: u32, into: u32, field: u32, from: u32) -> Result<(), Fault> {
        let holder = self.lies_at(self.slots[self.slot(mutator, into)?].place());
        let value = self.slots[self.slot(mutator, from)?];
        let cell = self.cells.get_mut(holder).ok_or(Fault::EmptySlot)?;
        cell.field(field).ok_or(Fault::BadField)?;
        cell.fields[field as usize] = value;
        Ok(())
    }

    #[inline(always)]
    pub fn load(&mut self, mutator: u32, into: u32, from: u32, field: u32) -> Result<Option<u32>, Fault> {
        let into = self.slot(mutator, into)?;
        let holder = self.lies_at(self.slots[self.slot(mutator, from)?].place());
        let cell = self.cells.get(holder).ok_or(Fault::EmptySlot)?;
        let mut value = cell.field(field).ok_or(Fault::BadField)?;
        if !value.has(self.good) {
            value = self.heal_field(holder, field as usize, value);
        }
        self.slots[into] = value;
        Ok(self.number(value))
    }

    #[inline(always)]
    pub fn get(&mut self, mutator: u32, into: u32, from: u32) -> Result<Option<u32>, Fault> {
        let into = self.slot(mutator, into)?;
        let holder = self.lies_at(self.slots[self.slot(mutator, from)?].place());
        let cell = self.cells.get(holder).ok_or(Fault::EmptySlot)?;
        let reference = cell.reference.ok_or(Fault::NotAReference)?;
        let mut value = match reference.strength {
            Strength::Soft | Strength::Weak => reference.referent,
            Strength::Phantom => Word::NULL,
        };
        if !value.has(self.good) {
            value = self.heal_referent(holder, value);
        }
        if reference.strength == Strength::Soft && value != Word::NULL {
            let holder = self.lies_at(holder);
            self.cells[holder].reference = Some(Reference { referent: value, stamp: self.clock, ..reference });
        }
        self.slots[into] = value;
        Ok(self.number(value))
    }

    // ---- parts of calls

    fn slot(&self, mutator: u32, slot: u32) -> Result<usize, Fault> {
        let place = mutator as usize * SLOTS as usize + slot as usize;
        if slot < SLOTS && place < self.slots.len() {
            Ok(place)
        } else {
            Err(Fault::NoSuchActor)
        }
    }

    fn number(&self, value: Word) -> Option<u32> {
        self.cells.get(self.lies_at(value.place())).map(|cell| cell.no)
    }

    /// A new object in the lowest free cell of the first page that has one; what is made in a cycle is marked.
    fn alloc(&mut self, into: usize, fields: u32, reference: Option<Reference>) -> Result<u32, Fault> {
        if fields as usize > FIELDS {
            return Err(Fault::BadField);
        }
        if self.count == self.room {
            return Err(Fault::NoCell);
        }
        let place = self.place()?;
        if !matches!(self.phase, Phase::Idle | Phase::Moving) {
            self.pages[place / CELLS].marked |= 1 << (place % CELLS);
        }
        self.last += 1;
        self.count += 1;
        self.list(self.last, place as u32);
        self.cells[place] = Cell { no: self.last, count: fields as u8, reference, ..Cell::FREE };
        self.slots[into] = Word::of(self.good, place);
        Ok(self.last)
    }

    /// The lowest free cell of the first page that is open and has one: it is taken now.
    fn place(&mut self) -> Result<usize, Fault> {
        while let Some(&frame) = self.order.get(self.first_open) {
            let page = &mut self.pages[frame as usize];
            if !page.is_chosen && page.taken != u64::MAX {
                let cell = page.taken.trailing_ones();
                page.taken |= 1 << cell;
                return Ok(frame as usize * CELLS + cell as usize);
            }
            self.first_open += 1;
        }
        Err(Fault::NoCell)
    }

    /// One more entry of the index, whose gaps are closed where it is full.
    fn list(&mut self, no: u32, place: u32) {
        if self.index.len() == 2 * self.room {
            let cells = &self.cells;
            self.index.retain(|(no, place)| cells[*place as usize].no == *no);
        }
        self.index.push((no, place));
    }

    /// The entry in the index of the object of this number, or that of the next.
    fn entry(&mut self, no: u32) -> Option<&mut (u32, u32)> {
        let at = self.index.partition_point(|entry| entry.0 < no);
        self.index.get_mut(at)
    }

    /// Where what lay at this place lies now, if anything does.
    fn lies_at(&self, place: usize) -> usize {
        match self.cells.get(place) {
            Some(cell) if cell.no == 0 => self.forwards[place] as usize,
            _ => place,
        }
    }

    fn heal_field(&mut self, holder: usize, field: usize, value: Word) -> Word {
        let healed = self.heal(value);
        let holder = self.lies_at(holder);
        self.cells[holder].fields[field] = healed;
        healed
    }

    /// Once the mark has ended, a reference to a dead object reads as null, and is left for its worker to clear.
    fn heal_referent(&mut self, holder: usize, value: Word) -> Word {
        let is_past_mark = matches!(self.phase, Phase::Clearing | Phase::Sweeping);
        if is_past_mark && !self.is_marked(self.lies_at(value.place())) {
            return Word::NULL;
        }
        let healed = self.heal(value);
        let holder = self.lies_at(holder);
        if let Some(reference) = &mut self.cells[holder].reference {
            reference.referent = healed;
        }
        healed
    }

    /// The word in the good colour. In a mark what it leads to becomes grey.
    fn heal(&mut self, word: Word) -> Word {
        let place = self.resolve(word.place());
        if self.phase == Phase::Marking {
            self.shade(place);
        }
        Word::of(self.good, place)
    }

    /// What lies at this place becomes grey, unless it is marked.
    fn shade(&mut self, place: usize) {
        if !self.is_marked(place) {
            self.pages[place / CELLS].marked |= 1 << (place % CELLS);
            self.grey.push_back(place as u32);
        }
    }

    fn is_marked(&self, place: usize) -> bool {
        self.pages[place / CELLS].marked >> (place % CELLS) & 1 == 1
    }
}
