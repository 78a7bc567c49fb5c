//! Queues, the hands of mutators and workers, and jobs, over one heap.

use super::fault::Fault;
use super::heap::{Config, Heap, Pending, MOST_ACTORS};
use std::collections::VecDeque;

pub const MOST_IN_HAND: usize = 32;
const JOBS: u32 = 64;
/// What the action of job 0 answers.
const FIRST_ANSWER: u32 = 1_000;

#[derive(Clone, Copy)]
pub enum Actor {
    Mutator(u32),
    Worker(u32),
}

/// What became of a notice that was put into its queue.
#[derive(Clone, Copy)]
pub enum Put {
    Added(u32),
    Already,
    Closed,
}

/// What a poll took: the number of the first that is in the hand now.
#[derive(Clone, Copy)]
pub enum Polled {
    Took(u32),
    Empty,
    Closed,
}

#[derive(Clone, Default)]
struct Queue {
    stands: VecDeque<u32>,
    /// How many were ever put in.
    added: u32,
    is_closed: bool,
}

/// The references of which somebody has notices, first first: all have one queue. It is filled only where it is empty.
#[derive(Clone, Copy)]
struct Hand {
    notices: [u32; MOST_IN_HAND],
    first: usize,
    end: usize,
}

impl Hand {
    const EMPTY: Hand = Hand { notices: [0; MOST_IN_HAND], first: 0, end: 0 };

    #[inline(always)]
    fn is_empty(&self) -> bool {
        self.first == self.end
    }

    fn held(&self) -> &[u32] {
        &self.notices[self.first..self.end]
    }

    #[inline(always)]
    fn first(&self) -> Result<u32, Fault> {
        if self.is_empty() {
            Err(Fault::HandEmpty)
        } else {
            Ok(self.notices[self.first % MOST_IN_HAND])
        }
    }

    #[inline(always)]
    fn drop_first(&mut self) {
        self.first += 1;
    }

    #[inline(always)]
    fn check_empty(&self) -> Result<(), Fault> {
        if self.is_empty() {
            Ok(())
        } else {
            Err(Fault::HandFull)
        }
    }

    /// So many may be asked for at once.
    fn check_room(&self, most: u32) -> Result<(), Fault> {
        let room = MOST_IN_HAND - self.held().len();
        if (1..=room).contains(&(most as usize)) {
            self.check_empty()
        } else {
            Err(Fault::BadConfig)
        }
    }

    /// One notice in the empty hand.
    #[inline(always)]
    fn fill(&mut self, object: u32) {
        self.notices[0] = object;
        (self.first, self.end) = (0, 1);
    }

    /// As many notices as there is room for, in the empty hand.
    fn fill_with(&mut self, objects: impl Iterator<Item = u32>) {
        (self.first, self.end) = (0, 0);
        for object in objects {
            self.notices[self.end] = object;
            self.end += 1;
        }
    }
}

pub struct World {
    pub heap: Heap,
    queues: Vec<Queue>,
    /// Those of mutators, and behind them those of workers.
    hands: [Hand; 2 * MOST_ACTORS],
    /// Which jobs were never registered.
    jobs_left: u64,
    /// The jobs that didn't run yet, each behind the number of its reference.
    jobs: Vec<(u32, u32)>,
}

impl World {
    pub fn new(config: Config) -> World {
        World {
            queues: vec![Queue::default(); config.queues as usize],
            hands: [Hand::EMPTY; 2 * MOST_ACTORS],
            jobs_left: u64::MAX,
            jobs: Vec::new(),
            heap: Heap::new(config),
        }
    }

    /// Clears the reference in a slot. Its notice is in the hand now, if it has a queue: its number and queue.
    #[inline(always)]
    pub fn unhook(&mut self, by: u32, slot: u32) -> Result<Option<(u32, u32)>, Fault> {
        if !self.heap.has_slot(by, slot) {
            return Err(Fault::NoSuchActor);
        }
        self.hands[by as usize % MOST_ACTORS].check_empty()?;
        let reference = self.heap.reference_in(by, slot)?;
        self.heap.cut(reference);
        let object = self.heap.object(reference);
        let Some(queue) = object.queue() else { return Ok(None) };
        let no = object.no;
        self.heap.hold(reference);
        self.hands[by as usize % MOST_ACTORS].fill(reference);
        Ok(Some((no, queue)))
    }

    #[inline(always)]
    pub fn put(&mut self, actor: Actor) -> Result<Put, Fault> {
        let hand = self.hand(actor)?;
        let object = self.hands[hand].first()?;
        let put = self.put_in(object);
        if let Put::Added(_) = put {
            self.hands[hand].drop_first();
        }
        Ok(put)
    }

    /// Puts all notices of the hand, and tells what became of each. What wasn't added stays in the hand.
    pub fn puts(&mut self, actor: Actor, mut tell: impl FnMut(Put)) -> Result<(), Fault> {
        let hand = self.hand(actor)?;
        self.hands[hand].first()?;
        let mut stays = Hand::EMPTY;
        for place in self.hands[hand].first..self.hands[hand].end {
            let object = self.hands[hand].notices[place];
            let put = self.put_in(object);
            if !matches!(put, Put::Added(_)) {
                stays.notices[stays.end] = object;
                stays.end += 1;
            }
            tell(put);
        }
        self.hands[hand] = stays;
        Ok(())
    }

    #[inline(always)]
    pub fn poll(&mut self, by: u32, queue: u32) -> Result<Polled, Fault> {
        let hand = self.hand_for(by, queue)?;
        self.hands[hand].check_empty()?;
        let queue = &mut self.queues[queue as usize];
        let Some(object) = queue.stands.pop_front() else { return Ok(queue.polled_nothing()) };
        self.hands[hand].fill(object);
        Ok(Polled::Took(self.heap.object(object).no))
    }

    /// Takes at most so many.
    pub fn polls(&mut self, by: u32, queue: u32, most: u32) -> Result<Polled, Fault> {
        let hand = self.hand_for(by, queue)?;
        self.hands[hand].check_room(most)?;
        let queue = &mut self.queues[queue as usize];
        let Some(first) = queue.stands.front().copied() else { return Ok(queue.polled_nothing()) };
        let count = queue.stands.len().min(most as usize);
        self.hands[hand].fill_with(queue.stands.drain(..count));
        Ok(Polled::Took(self.heap.object(first).no))
    }

    /// Whether the queue was open.
    #[inline(always)]
    pub fn close(&mut self, by: u32, queue: u32) -> Result<bool, Fault> {
        self.hand_for(by, queue)?;
        let queue = &mut self.queues[queue as usize];
        let was_open = !queue.is_closed;
        queue.is_closed = true;
        Ok(was_open)
    }

    #[inline(always)]
    pub fn adopt(&mut self, by: u32, slot: u32) -> Result<u32, Fault> {
        if !self.heap.has_slot(by, slot) {
            return Err(Fault::NoSuchActor);
        }
        let hand = &mut self.hands[by as usize % MOST_ACTORS];
        let object = hand.first()?;
        hand.drop_first();
        self.heap.adopt(by, slot, object)
    }

    #[inline(always)]
    pub fn release(&mut self, actor: Actor) -> Result<(), Fault> {
        let hand = self.hand(actor)?;
        let object = self.hands[hand].first()?;
        self.hands[hand].drop_first();
        self.heap.release(object);
        Ok(())
    }

    /// The notice of the worker's first pending reference is in its hand now: its number, queue and cycle.
    #[inline(always)]
    pub fn hand_on(&mut self, worker: u32) -> Result<Option<(u32, u32, u32)>, Fault> {
        let hand = self.hand(Actor::Worker(worker))?;
        self.hands[hand].check_empty()?;
        let Some(pending) = self.heap.pending[worker as usize % MOST_ACTORS].pop_front() else { return Ok(None) };
        self.heap.hold(pending.object);
        self.hands[hand].fill(pending.object);
        let object = self.heap.object(pending.object);
        Ok(Some((object.no, object.queue().unwrap_or_default(), pending.cycle)))
    }

    /// The same of at most so many that have the queue and the cycle of the first, which are told.
    pub fn hands_on(&mut self, worker: u32, most: u32) -> Result<Option<(u32, u32)>, Fault> {
        let hand = self.hand(Actor::Worker(worker))?;
        self.hands[hand].check_room(most)?;
        let Heap { pending, objects, .. } = &mut self.heap;
        let pending = &mut pending[worker as usize % MOST_ACTORS];
        let Some(first) = pending.front().copied() else { return Ok(None) };
        let queue = objects[first.object as usize].queue();
        let goes_along = |next: &&Pending| next.cycle == first.cycle && objects[next.object as usize].queue() == queue;
        let count = pending.iter().take(most as usize).take_while(goes_along).count();
        self.hands[hand].fill_with(pending.drain(..count).map(|next| next.object));
        self.hands[hand].held().iter().for_each(|object| self.heap.hold(*object));
        Ok(Some((queue.unwrap_or_default(), first.cycle)))
    }

    /// Whether a job of this number was left, which is that of the reference in the slot now.
    pub fn job(&mut self, by: u32, slot: u32, job: u32) -> Result<bool, Fault> {
        let reference = self.heap.reference_in(by, slot)?;
        let no = self.heap.object(reference).no;
        if job >= JOBS || self.jobs_left >> job & 1 == 0 {
            return Ok(false);
        }
        if self.jobs.iter().any(|(other, _)| *other == no) {
            return Err(Fault::RegisteredTwice);
        }
        self.jobs_left &= !(1 << job);
        self.jobs.push((no, job));
        Ok(true)
    }

    /// Runs the job of the reference in a slot, which is cleared: the job's number, and what its action answered.
    pub fn run(&mut self, by: u32, slot: u32) -> Result<Option<(u32, u32)>, Fault> {
        let reference = self.heap.reference_in(by, slot)?;
        let no = self.heap.object(reference).no;
        let Some(place) = self.jobs.iter().position(|(other, _)| *other == no) else { return Ok(None) };
        let (_, job) = self.jobs.swap_remove(place);
        self.heap.cut(reference);
        Ok(Some((job, job + FIRST_ANSWER)))
    }

    /// The numbers of the references of which an actor has notices.
    pub fn held(&self, actor: Actor) -> impl Iterator<Item = u32> + use<'_> {
        let held = self.hand(actor).map(|hand| self.hands[hand].held()).unwrap_or_default();
        held.iter().map(|object| self.heap.object(*object).no)
    }

    // ---- parts of calls

    /// Where the hand of an actor stands.
    #[inline(always)]
    fn hand(&self, actor: Actor) -> Result<usize, Fault> {
        let (number, count, first) = match actor {
            Actor::Mutator(number) => (number, self.heap.config.mutators, 0),
            Actor::Worker(number) => (number, self.heap.config.workers, MOST_ACTORS),
        };
        if number >= count {
            return Err(Fault::NoSuchActor);
        }
        Ok(first + number as usize % MOST_ACTORS)
    }

    /// Where the hand of a mutator stands that has to do with a queue.
    #[inline(always)]
    fn hand_for(&self, by: u32, queue: u32) -> Result<usize, Fault> {
        let hand = self.hand(Actor::Mutator(by))?;
        if queue >= self.heap.config.queues {
            return Err(Fault::BadQueue);
        }
        Ok(hand)
    }

    /// Puts a notice into the queue of its reference.
    #[inline(always)]
    fn put_in(&mut self, object: u32) -> Put {
        let reference = &mut self.heap.objects[object as usize];
        if reference.was_put {
            return Put::Already;
        }
        let queue = &mut self.queues[reference.queue().unwrap_or_default() as usize];
        if queue.is_closed {
            return Put::Closed;
        }
        reference.was_put = true;
        queue.stands.push_back(object);
        queue.added += 1;
        Put::Added(queue.added - 1)
    }
}

impl Queue {
    #[inline(always)]
    fn polled_nothing(&self) -> Polled {
        if self.is_closed {
            Polled::Closed
        } else {
            Polled::Empty
        }
    }
}
