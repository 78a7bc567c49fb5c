//! Scripts, read from standard input and printed as `refrun run` prints their traces, as fast as safe Rust does it that
//! proves nothing: a text is read in one pass, a step is done as its line is read, and its words are copied from the
//! line. Objects lie in records that never move, so no word has to be healed, and a queue keeps no list of what was ever
//! put in.

mod cycle;
mod fault;
mod heap;
mod pages;
mod replies;
pub mod spelling;
mod steps;
pub mod text;
pub mod trace;
mod worklist;
mod world;

use heap::Config;
use spelling::{line_number, number, spelt, step_fault, words_at, LineFault};
use std::fmt::{self, Display, Formatter};
use std::io::{self, ErrorKind, Read, Write};
use steps::Stage;
use text::{MOST_BYTES, MOST_PLAIN, PADDING};
use trace::Trace;
use world::World;

/// How often reading may be interrupted.
pub const MOST_INTERRUPTIONS: u32 = 999;

/// What is wrong with a text, or with reading and writing.
pub enum TextFault {
    TooLong,
    CannotRead,
    CannotWrite,
    Line(usize, LineFault),
}

impl Display for TextFault {
    fn fmt(&self, to: &mut Formatter) -> fmt::Result {
        match self {
            TextFault::TooLong => to.write_str("script too long"),
            TextFault::CannotRead => to.write_str("cannot read"),
            TextFault::CannotWrite => to.write_str("cannot write"),
            TextFault::Line(number, fault) => write!(to, "line {number}: {}", fault.text()),
        }
    }
}

/// Reads a script, runs it and prints its trace.
pub fn run() -> Result<(), TextFault> {
    let text = read()?;
    let trace = trace_of(&text)?;
    let mut output = io::stdout().lock();
    output.write_all(&trace).and_then(|()| output.flush()).map_err(|_| TextFault::CannotWrite)
}

/// The whole text, with its padding.
fn read() -> Result<Vec<u8>, TextFault> {
    let mut text = vec![0; MOST_BYTES + 1 + PADDING];
    let mut input = io::stdin().lock();
    let (mut length, mut interruptions) = (0, 0);
    while length <= MOST_BYTES {
        match input.read(&mut text[length..=MOST_BYTES]) {
            Ok(0) => {
                text.truncate(length + PADDING);
                return Ok(text);
            }
            Ok(count) => length += count,
            Err(error) if error.kind() == ErrorKind::Interrupted && interruptions < MOST_INTERRUPTIONS => {
                interruptions += 1;
            }
            Err(_) => return Err(TextFault::CannotRead),
        }
    }
    Err(TextFault::TooLong)
}

/// The trace of the script that a padded text spells.
fn trace_of(text: &[u8]) -> Result<Vec<u8>, TextFault> {
    let (header, next) = next_told(text, 0, LineFault::BadHeader)?;
    let (title, is_scaled, most_cells) = match header.words[..] {
        [b"refscript", b"1"] => (b"reftrace 1\n", false, 4_096),
        [b"refscript", b"2"] => (b"reftrace 2\n", true, 65_536),
        _ => return Err(header.fault(text, LineFault::BadHeader)),
    };
    let (told, next) = next_told(text, next, LineFault::BadConfig)?;
    let config = config_of(&told.words, is_scaled, most_cells);
    let config = config.ok_or_else(|| told.fault(text, LineFault::BadConfig))?;
    let mut stage = Stage { world: World::new(config), trace: Trace::new(title, text.len()) };
    let mut rest = &text[next..];
    while let Some(line) = rest.first_chunk() {
        rest = match stage.step(line) {
            Some(length) => &rest[length % MOST_PLAIN..],
            None => behind_odd_line(text, text.len() - rest.len(), &mut stage)?,
        };
    }
    Ok(stage.trace.into_bytes())
}

/// Does the step of a line that isn't spelt as a trace has it, if it tells one. Answers what stands behind the line.
#[cold]
#[inline(never)]
fn behind_odd_line<'a>(text: &'a [u8], start: usize, stage: &mut Stage) -> Result<&'a [u8], TextFault> {
    let (told, next) = told_at(text, start)?.expect("a line begins here");
    if let Some(fault) = step_fault(&told.words) {
        return Err(told.fault(text, fault));
    }
    if !told.words.is_empty() {
        stage.step(&spelt(&told.words)).expect("the line has no fault");
    }
    Ok(&text[next..])
}

/// The words of a line, and where it begins.
struct Told<'a> {
    words: Vec<&'a [u8]>,
    start: usize,
}

impl Told<'_> {
    fn fault(&self, text: &[u8], fault: LineFault) -> TextFault {
        TextFault::Line(line_number(text, self.start), fault)
    }
}

/// The line that begins here, and where the next begins.
fn told_at(text: &[u8], start: usize) -> Result<Option<(Told<'_>, usize)>, TextFault> {
    match words_at(text, start) {
        Ok(line) => Ok(line.map(|(words, next)| (Told { words, start }, next))),
        Err(fault) => Err(TextFault::Line(line_number(text, start), fault)),
    }
}

/// The next line that says something. There is this fault where none does.
fn next_told(text: &[u8], mut start: usize, fault: LineFault) -> Result<(Told<'_>, usize), TextFault> {
    while let Some((told, next)) = told_at(text, start)? {
        if !told.words.is_empty() {
            return Ok((told, next));
        }
        start = next;
    }
    Err(TextFault::Line(line_number(text, start), fault))
}

fn config_of(words: &[&[u8]], is_scaled: bool, most_cells: u32) -> Option<Config> {
    let [b"config", mutators, workers, queues, cells, span] = *words else { return None };
    let within = |word: &[u8], most: u32| {
        let number = u32::try_from(number(word)?).ok()?;
        (1..=most).contains(&number).then_some(number)
    };
    Some(Config {
        mutators: within(mutators, 8)?,
        workers: within(workers, 8)?,
        queues: within(queues, 16)?,
        cells: within(cells, most_cells)?,
        span: number(span)?,
        is_scaled,
    })
}
