//! The text of each reply. It ends its row.

use super::cycle::Look;
use super::fault::Fault;
use super::trace::Row;
use super::world::{Polled, Put};

/// Where an answer was refused, its row is told here.
macro_rules! told {
    ($row:expr, $answer:expr) => {
        match $answer {
            Ok(answer) => answer,
            Err(fault) => return $row.refused(fault),
        }
    };
}

impl Row<'_> {
    #[inline(always)]
    pub fn refused(&mut self, fault: Fault) {
        let (text, length) = fault.text();
        self.block(text, length);
    }

    #[inline(always)]
    pub fn done(&mut self, answer: Result<(), Fault>) {
        told!(self, answer);
        self.push(b" : ok\n");
    }

    /// The one word or the other.
    #[inline(always)]
    pub fn either<const N: usize, const M: usize>(&mut self, yes: &[u8; N], no: &[u8; M], answer: Result<bool, Fault>) {
        if told!(self, answer) {
            self.push(yes)
        } else {
            self.push(no)
        }
    }

    /// A word and a number.
    #[inline(always)]
    pub fn told<const N: usize>(&mut self, word: &[u8; N], number: u32) {
        self.push(word);
        self.number(number);
        self.push(b"\n");
    }

    /// The same of what is answered.
    #[inline(always)]
    pub fn answer<const N: usize>(&mut self, word: &[u8; N], answer: Result<u32, Fault>) {
        let number = told!(self, answer);
        self.told(word, number);
    }

    /// The same, where anything was left.
    #[inline(always)]
    pub fn some<const N: usize>(&mut self, word: &[u8; N], answer: Result<Option<u32>, Fault>) {
        match told!(self, answer) {
            Some(number) => self.told(word, number),
            None => self.none(),
        }
    }

    #[inline(always)]
    fn none(&mut self) {
        self.push(b" : none\n");
    }

    /// An object, or null, whose number is 0.
    #[inline(always)]
    pub fn value(&mut self, answer: Result<u32, Fault>) {
        match told!(self, answer) {
            0 => self.push(b" : null\n"),
            number => self.told(b" : object ", number),
        }
    }

    #[inline(always)]
    pub fn look(&mut self, answer: Result<Look, Fault>) {
        match told!(self, answer) {
            Look::Cleared(number) => self.told(b" : cleared ", number),
            Look::Kept(number) => self.told(b" : kept ", number),
            Look::Skipped(number) => self.told(b" : skipped ", number),
            Look::Nothing => self.none(),
        }
    }

    #[inline(always)]
    pub fn unhooked(&mut self, answer: Result<Option<(u32, u32)>, Fault>) {
        let Some((number, queue)) = told!(self, answer) else { return self.none() };
        self.push(b" : notice ");
        self.number(number);
        self.push(b" q");
        self.number(queue);
        self.push(b" own\n");
    }

    #[inline(always)]
    pub fn handed(&mut self, worker: u32, answer: Result<Option<(u32, u32, u32)>, Fault>) {
        let Some((number, queue, cycle)) = told!(self, answer) else { return self.none() };
        self.push(b" : notice ");
        self.number(number);
        self.cause(queue, cycle, worker);
    }

    /// Of the numbers that the worker's hand holds.
    #[inline(always)]
    pub fn handed_all(
        &mut self,
        worker: u32,
        answer: Result<Option<(u32, u32)>, Fault>,
        held: impl Iterator<Item = u32>,
    ) {
        let Some((queue, cycle)) = told!(self, answer) else { return self.none() };
        self.push(b" : notices");
        self.numbers(held);
        self.cause(queue, cycle, worker);
    }

    #[inline(always)]
    fn cause(&mut self, queue: u32, cycle: u32, worker: u32) {
        self.push(b" q");
        self.number(queue);
        self.push(b" cycle ");
        self.number(cycle);
        self.push(b" w");
        self.number(worker);
        self.push(b"\n");
    }

    #[inline(always)]
    pub fn put(&mut self, answer: Result<Put, Fault>) {
        match told!(self, answer) {
            Put::Added(position) => self.told(b" : added ", position),
            Put::Already => self.push(b" : already\n"),
            Put::Closed => self.push(b" : closed\n"),
        }
    }

    /// What became of one of several notices, behind a comma where it isn't the first.
    #[inline(always)]
    pub fn out(&mut self, out: Put, is_first: bool) {
        if is_first {
            self.push(b" : ")
        } else {
            self.push(b", ")
        }
        match out {
            Put::Added(position) => {
                self.push(b"added ");
                self.number(position);
            }
            Put::Already => self.push(b"already"),
            Put::Closed => self.push(b"closed"),
        }
    }

    #[inline(always)]
    pub fn polled(&mut self, answer: Result<Polled, Fault>) {
        match told!(self, answer) {
            Polled::Took(number) => self.told(b" : took ", number),
            Polled::Empty => self.push(b" : empty\n"),
            Polled::Closed => self.push(b" : closed\n"),
        }
    }

    /// Of the numbers that the mutator's hand holds.
    #[inline(always)]
    pub fn polled_all(&mut self, answer: Result<Polled, Fault>, held: impl Iterator<Item = u32>) {
        let Ok(Polled::Took(_)) = answer else { return self.polled(answer) };
        self.push(b" : took");
        self.numbers(held);
        self.push(b"\n");
    }

    #[inline(always)]
    pub fn ran(&mut self, answer: Result<Option<(u32, u32)>, Fault>) {
        let Some((job, answer)) = told!(self, answer) else { return self.push(b" : gone\n") };
        self.push(b" : ran ");
        self.number(job);
        self.push(b" ");
        self.number(answer);
        self.push(b"\n");
    }

    #[inline(always)]
    fn numbers(&mut self, numbers: impl Iterator<Item = u32>) {
        for number in numbers {
            self.push(b" ");
            self.number(number);
        }
    }
}
