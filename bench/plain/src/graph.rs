//! Graph texts, read from standard input, and how strongly each object is reachable, printed as `refrun strength`
//! prints it: as fast as safe Rust does it that proves nothing, and with little memory. A text is read piece by piece
//! and in one pass, an object takes four bytes, and so does each field. What an object refers to is looked up by number
//! once it is reached, since it may be declared further on.

mod input;
mod listing;
mod object;
mod objects;
mod search;

use crate::script::spelling::{declaration_fault, spelt, words_at, LineFault};
use crate::script::text::{Line, MOST_PLAIN, WINDOW};
use crate::script::TextFault;
use input::Input;
use object::{Object, PHANTOM, PLAIN, SOFT, WEAK};
use objects::Objects;
use search::searched;
use std::io::{self, Write};

const MOST_FIELDS: usize = 8;

/// What was read of a graph text.
struct Graph {
    is_titled: bool,
    /// The number of the line that is read.
    line: u32,
    /// What the lines of a piece declare.
    told: Vec<Told>,
    objects: Objects,
    /// The numbers of what each object refers to, and 0 for null. The referent of a reference stands before its fields.
    fields: Vec<u32>,
    roots: Vec<u32>,
}

/// An object that a line declares.
struct Told {
    line: u32,
    number: u32,
    object: Object,
}

/// Reads a graph text and prints the listing of its objects. That a text is too long, or can't be read, is told rather
/// than a fault of its lines.
pub fn run() -> Result<(), TextFault> {
    let mut input = Input::new();
    let graph = graph_of(&mut input);
    if let Err(TextFault::Line(..)) = graph {
        input.skip()?;
    }
    let objects = searched(graph?);
    let mut output = io::stdout().lock();
    listing::write(&objects, &mut output).and_then(|()| output.flush()).map_err(|_| TextFault::CannotWrite)
}

/// The graph that a text declares. A double object is met only once its piece was read, as far as that has no fault, so
/// that it stands before such a fault and is told instead.
fn graph_of(input: &mut Input) -> Result<Graph, TextFault> {
    let mut graph = Graph::new();
    while input.read_on()? {
        let left = graph.read_lines(input);
        graph.enter()?;
        input.keep(left?);
    }
    if !graph.is_titled {
        return Err(graph.fault(LineFault::BadHeader));
    }
    Ok(graph)
}

impl Graph {
    fn new() -> Graph {
        let (told, fields, roots) = (Vec::new(), Vec::new(), Vec::new());
        Graph { is_titled: false, line: 1, told, objects: Objects::new(), fields, roots }
    }

    fn fault(&self, fault: LineFault) -> TextFault {
        TextFault::Line(self.line as usize, fault)
    }

    /// Reads the lines of a piece, and answers how many bytes are left.
    fn read_lines(&mut self, input: &Input) -> Result<usize, TextFault> {
        let mut rest = input.whole_lines();
        while let Some(line) = rest.first_chunk() {
            let length = match self.declare(line) {
                Some(length) => length % MOST_PLAIN,
                None => self.odd_line(input.text_from(rest)).map_err(|fault| self.fault(fault))?,
            };
            rest = &rest[length..];
            self.line += 1;
        }
        Ok(rest.len())
    }

    /// Enters the objects of the lines that were read, one right after the other: their places are far from each other,
    /// and the processor can wait for many at once only where there is no reading in between.
    #[inline(never)]
    fn enter(&mut self) -> Result<(), TextFault> {
        for told in self.told.drain(..) {
            let entered = self.objects.insert(told.number, told.object);
            entered.ok_or(TextFault::Line(told.line as usize, LineFault::DoubleObject))?;
        }
        Ok(())
    }

    /// Reads the line that begins here, and answers how long it is, with its end. None, and nothing is declared, where
    /// it says nothing, is faulty, or is spelt otherwise than with one space between each two words and none around.
    #[inline(always)]
    fn declare(&mut self, text: &[u8; WINDOW]) -> Option<usize> {
        let begin = self.fields.len();
        let length = self.declare_from(begin, Line::new(text));
        if length.is_none() {
            self.fields.truncate(begin);
        }
        length
    }

    #[inline(always)]
    fn declare_from(&mut self, begin: usize, mut line: Line) -> Option<usize> {
        if !self.is_titled {
            return None;
        }
        let kind = if line.word(b"plain ") {
            PLAIN
        } else if line.word(b"weak ") {
            WEAK
        } else if line.word(b"soft ") {
            SOFT
        } else if line.word(b"phantom ") {
            PHANTOM
        } else {
            return self.declare_root(line);
        };
        let number = line.object()?;
        let mut most = begin + MOST_FIELDS;
        if kind != PLAIN {
            line.letter(b' ')?;
            self.fields.push(line.object_or_none()?);
            most += 1;
        }
        while line.letter(b' ').is_some() {
            if self.fields.len() == most {
                return None;
            }
            self.fields.push(line.object_or_none()?);
        }
        let (_, length) = line.end()?;
        let object = Object::new(kind, begin, self.fields.len() - begin);
        self.told.push(Told { line: self.line, number, object });
        Some(length)
    }

    #[inline(never)]
    fn declare_root(&mut self, mut line: Line) -> Option<usize> {
        line.word(b"root ").then_some(())?;
        let number = line.object()?;
        let (_, length) = line.end()?;
        self.roots.push(number);
        Some(length)
    }

    /// Reads a line that isn't of the usual spelling, or is faulty. Answers how long it is, with its end.
    #[cold]
    #[inline(never)]
    fn odd_line(&mut self, text: &[u8]) -> Result<usize, LineFault> {
        let (words, length) = words_at(text, 0)?.expect("a line begins here");
        if words.is_empty() {
            return Ok(length);
        }
        if !self.is_titled {
            self.is_titled = words == [b"refgraph", b"1".as_slice()];
            return self.is_titled.then_some(length).ok_or(LineFault::BadHeader);
        }
        if let Some(fault) = declaration_fault(&words) {
            return Err(fault);
        }
        self.declare(&spelt(&words)).expect("the line has no fault");
        Ok(length)
    }
}
