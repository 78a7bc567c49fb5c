//! Where objects lie: in pages of 64 cells. What is held names an object and no place, so that a move only writes where
//! it lies now.

use super::fault::Fault;

pub const CELLS: u32 = 64;
/// A page is sparse with as many objects at most.
const MOST_SPARSE: u32 = 32;

#[derive(Clone, Copy)]
struct Page {
    /// Which cells are free. None is in a page that was chosen.
    free: u64,
    /// Where the page stands in order of address.
    rank: u32,
    is_chosen: bool,
}

pub struct Pages {
    pages: Vec<Page>,
    /// The pages in order of address, by their frames.
    order: Vec<u32>,
    /// No page in front of this one has a free cell.
    first_open: usize,
    next_address: u64,
    /// Where what lies at each place is to move.
    forwards: Vec<u32>,
    /// What is to move, in order. Those in front of `next` have moved, and so has what a read moved.
    moving: Vec<u32>,
    next: usize,
    left: u32,
    /// Whether pages were chosen since a cycle ended last.
    has_choice: bool,
}

impl Pages {
    pub fn new(cells: u32) -> Pages {
        let count = 2 * cells.div_ceil(CELLS);
        Pages {
            pages: (0..count).map(|rank| Page { free: u64::MAX, rank, is_chosen: false }).collect(),
            order: (0..count).collect(),
            first_open: 0,
            next_address: 1 + u64::from(count),
            forwards: vec![0; (count * CELLS) as usize],
            moving: Vec::new(),
            next: 0,
            left: 0,
            has_choice: false,
        }
    }

    /// The lowest free cell of the first page that has one: it is taken now. There always is one, since there are twice
    /// as many cells as objects.
    #[inline(always)]
    pub fn place(&mut self) -> u32 {
        loop {
            let frame = self.order[self.first_open];
            let page = &mut self.pages[frame as usize];
            if page.free != 0 {
                let cell = page.free.trailing_zeros();
                page.free &= page.free - 1;
                return frame * CELLS + cell;
            }
            self.first_open += 1;
        }
    }

    #[inline(always)]
    pub fn free(&mut self, place: u32) {
        let page = &mut self.pages[(place / CELLS) as usize];
        page.free |= 1 << (place % CELLS);
        self.first_open = self.first_open.min(page.rank as usize);
    }

    pub fn has_choice(&self) -> bool {
        self.has_choice
    }

    /// Chooses each page with 1 to 32 objects. What lies in them is to move, in order of address and cell, and the cell
    /// to which each of it moves is taken. `placed` tells each object and its place.
    pub fn select(&mut self, placed: impl Iterator<Item = (u32, u32)>) -> Result<u32, Fault> {
        let is_sparse = |page: &&Page| (1..=MOST_SPARSE).contains(&(!page.free).count_ones());
        let sparse = self.pages.iter().filter(is_sparse).count();
        if sparse < 2 {
            return Err(Fault::NoRoom);
        }
        if self.next_address + sparse as u64 > 1 << 32 {
            return Err(Fault::AddressesSpent);
        }
        let mut chosen = Vec::with_capacity(sparse);
        for frame in &self.order {
            let page = &mut self.pages[*frame as usize];
            if is_sparse(&&*page) {
                chosen.push((*frame, !page.free));
                page.is_chosen = true;
                page.free = 0;
            }
        }
        self.list_moving(&chosen, placed);
        self.has_choice = true;
        Ok(self.left)
    }

    /// Lists what lies in the chosen pages, each of which is told with its taken cells. First what lies at each place
    /// stands where it is told later where that moves.
    fn list_moving(&mut self, chosen: &[(u32, u64)], placed: impl Iterator<Item = (u32, u32)>) {
        for (object, place) in placed {
            if self.is_chosen(place) {
                self.forwards[place as usize] = object;
            }
        }
        self.moving.clear();
        for &(frame, mut taken) in chosen {
            while taken != 0 {
                let place = (frame * CELLS + taken.trailing_zeros()) as usize;
                self.moving.push(self.forwards[place]);
                self.forwards[place] = self.place();
                taken &= taken - 1;
            }
        }
        self.next = 0;
        self.left = self.moving.len() as u32;
    }

    /// Whether what lies at this place is to move, while objects move.
    #[inline(always)]
    pub fn is_chosen(&self, place: u32) -> bool {
        self.pages[(place / CELLS) as usize].is_chosen
    }

    /// Where what lies at this place lies once it has moved, which it does now.
    pub fn forward(&mut self, place: u32) -> u32 {
        self.left -= 1;
        self.forwards[place as usize]
    }

    /// The next object of those that were to move: it may have moved since.
    #[inline(always)]
    pub fn next_moving(&mut self) -> Option<u32> {
        let object = *self.moving.get(self.next)?;
        self.next += 1;
        Some(object)
    }

    pub fn has_left(&self) -> bool {
        self.left > 0
    }

    /// The pages that were left are used again, at new addresses.
    pub fn end_moves(&mut self) {
        if !self.has_choice {
            return;
        }
        self.has_choice = false;
        let (open, chosen): (Vec<u32>, Vec<u32>) =
            self.order.iter().partition(|frame| !self.pages[**frame as usize].is_chosen);
        self.next_address += chosen.len() as u64;
        for frame in &chosen {
            self.pages[*frame as usize].is_chosen = false;
            self.pages[*frame as usize].free = u64::MAX;
        }
        self.order = [open, chosen].concat();
        for (rank, frame) in self.order.iter().enumerate() {
            self.pages[*frame as usize].rank = rank as u32;
        }
        self.first_open = 0;
    }
}
