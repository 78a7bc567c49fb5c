//! Objects in the order in which they are to be worked on.

#[derive(Clone, Default)]
pub struct Worklist {
    items: Vec<u32>,
    next: usize,
}

impl Worklist {
    #[inline(always)]
    pub fn push(&mut self, object: u32) {
        self.items.push(object);
    }

    #[inline(always)]
    pub fn take_first(&mut self) -> Option<u32> {
        let first = *self.items.get(self.next)?;
        self.next += 1;
        Some(first)
    }

    /// So many, or all where fewer are left.
    pub fn take_some(&mut self, most: usize) -> &[u32] {
        let first = self.next;
        self.next = self.items.len().min(first + most);
        &self.items[first..self.next]
    }

    pub fn is_empty(&self) -> bool {
        self.next == self.items.len()
    }

    /// How many were pushed since it was cleared.
    pub fn pushed(&self) -> u32 {
        self.items.len() as u32
    }

    pub fn clear(&mut self) {
        self.items.clear();
        self.next = 0;
    }
}
