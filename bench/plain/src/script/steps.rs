//! A step: its line is read, the step is done, and its row is told, all at once. Nothing is printed before the whole
//! script was read, so that it does no harm that steps in front of a faulty line were done.

use super::heap::Kind;
use super::text::{Line, WINDOW};
use super::trace::{Row, Trace};
use super::world::{Actor, World};

/// The first eight letters of a name, as `Line::letters` has them.
const fn name(name: &[u8]) -> u64 {
    let mut word = [0; 8];
    let mut at = 0;
    while at < name.len() {
        word[at] = name[at];
        at += 1;
    }
    u64::from_le_bytes(word)
}

const NEW: u64 = name(b"new");
const SOFT: u64 = name(b"soft");
const WEAK: u64 = name(b"weak");
const PHANTOM: u64 = name(b"phantom");
const STORE: u64 = name(b"store");
const LOAD: u64 = name(b"load");
const COPY: u64 = name(b"copy");
const DROP: u64 = name(b"drop");
const GET: u64 = name(b"get");
const CLEAR: u64 = name(b"clear");
const REFERS: u64 = name(b"refers");
const UNHOOK: u64 = name(b"unhook");
const PUT: u64 = name(b"put");
const PUTS: u64 = name(b"puts");
const POLL: u64 = name(b"poll");
const POLLS: u64 = name(b"polls");
const ADOPT: u64 = name(b"adopt");
const RELEASE: u64 = name(b"release");
const CLOSE: u64 = name(b"close");
const JOB: u64 = name(b"job");
const RUN: u64 = name(b"run");
const SCAN: u64 = name(b"scan");
/// And a `t`.
const CLEARNEX: u64 = name(b"clearnex");
const HAND: u64 = name(b"hand");
const HANDS: u64 = name(b"hands");
const SWEEP: u64 = name(b"sweep");
const MOVE: u64 = name(b"move");
const BEGIN: u64 = name(b"begin");
const ENDMARK: u64 = name(b"endmark");
const ENDCLEAR: u64 = name(b"endclear");
const ENDSWEEP: u64 = name(b"endsweep");
const SELECT: u64 = name(b"select");
const ENDMOVE: u64 = name(b"endmove");
const NORMAL: u64 = name(b"normal");
const URGENT: u64 = name(b"urgent");

/// What the step of a line works on.
pub struct Stage {
    pub world: World,
    pub trace: Trace,
}

impl Stage {
    /// Does the step of the line that begins here, tells its row, and answers how long the line is, with its end. None
    /// where the line tells no step, or spells it otherwise than a trace does.
    #[inline(always)]
    pub fn step(&mut self, text: &[u8; WINDOW]) -> Option<usize> {
        let mut row = self.trace.row(text);
        let line = Line::new(text);
        match line.first_byte() {
            b'm' => mutator_step(line, &mut self.world, &mut row)?,
            b'w' => worker_step(line, &mut self.world, &mut row)?,
            _ => row = turn_step(line, &mut self.world, row)?,
        }
        let Row { line, at, .. } = row;
        self.trace.end_row(at);
        Some(line)
    }
}

#[inline(always)]
fn mutator_step(mut line: Line, world: &mut World, row: &mut Row) -> Option<()> {
    let by = line.actor()?;
    let heap = &mut world.heap;
    let name = line.name()?;
    match name {
        NEW => {
            let (into, fields) = (line.slot()?, line.number()?);
            tell(line, row)?.answer(b" : object ", heap.alloc(by, into, fields));
        }
        SOFT | WEAK | PHANTOM => {
            let (into, from, queue, fields) = (line.slot()?, line.slot()?, line.queue_or_none()?, line.number()?);
            tell(line, row)?.answer(b" : object ", heap.alloc_ref(by, kind(name), (into, from), queue, fields));
        }
        STORE => {
            let (into, field, from) = (line.slot()?, line.number()?, line.slot()?);
            tell(line, row)?.done(heap.store(by, into, field, from));
        }
        LOAD => {
            let (into, from, field) = (line.slot()?, line.slot()?, line.number()?);
            tell(line, row)?.value(heap.load(by, into, from, field));
        }
        COPY => {
            let (into, from) = (line.slot()?, line.slot()?);
            tell(line, row)?.value(heap.copy(by, into, from));
        }
        DROP => {
            let slot = line.slot()?;
            tell(line, row)?.done(heap.drop_slot(by, slot));
        }
        GET => {
            let (into, from) = (line.slot()?, line.slot()?);
            tell(line, row)?.value(heap.get(by, into, from));
        }
        CLEAR => {
            let slot = line.slot()?;
            tell(line, row)?.done(heap.clear(by, slot));
        }
        REFERS => {
            let (slot, other) = (line.slot()?, line.slot()?);
            tell(line, row)?.either(b" : true\n", b" : false\n", heap.refers(by, slot, other));
        }
        UNHOOK => {
            let slot = line.slot()?;
            tell(line, row)?.unhooked(world.unhook(by, slot));
        }
        POLL => {
            let queue = line.queue()?;
            tell(line, row)?.polled(world.poll(by, queue));
        }
        POLLS => {
            let (queue, most) = (line.queue()?, line.number()?);
            tell(line, row)?;
            let answer = world.polls(by, queue, most);
            row.polled_all(answer, world.held(Actor::Mutator(by)));
        }
        ADOPT => {
            let slot = line.slot()?;
            tell(line, row)?.answer(b" : object ", world.adopt(by, slot));
        }
        CLOSE => {
            let queue = line.queue()?;
            tell(line, row)?.either(b" : ok\n", b" : closed\n", world.close(by, queue));
        }
        JOB => {
            let (slot, job) = (line.slot()?, line.number()?);
            tell(line, row)?.either(b" : ok\n", b" : used\n", world.job(by, slot, job));
        }
        RUN => {
            let slot = line.slot()?;
            tell(line, row)?.ran(world.run(by, slot));
        }
        other => notice_step(other, Actor::Mutator(by), line, world, row)?,
    }
    Some(())
}

fn kind(name: u64) -> Kind {
    match name {
        SOFT => Kind::Soft,
        WEAK => Kind::Weak,
        _ => Kind::Phantom,
    }
}

#[inline(always)]
fn worker_step(mut line: Line, world: &mut World, row: &mut Row) -> Option<()> {
    let by = line.actor()?;
    match line.name()? {
        SCAN => tell(line, row)?.some(b" : scanned ", world.heap.scan(by)),
        CLEARNEX => {
            line.letter(b't')?;
            tell(line, row)?.look(world.heap.clear_next(by));
        }
        HAND => tell(line, row)?.handed(by, world.hand_on(by)),
        HANDS => {
            let most = line.number()?;
            tell(line, row)?;
            let answer = world.hands_on(by, most);
            row.handed_all(by, answer, world.held(Actor::Worker(by)));
        }
        SWEEP => tell(line, row)?.some(b" : swept ", world.heap.sweep(by)),
        MOVE => tell(line, row)?.some(b" : moved ", world.heap.move_next(by)),
        other => notice_step(other, Actor::Worker(by), line, world, row)?,
    }
    Some(())
}

/// A step that mutators and workers have.
#[inline(always)]
fn notice_step(name: u64, actor: Actor, line: Line, world: &mut World, row: &mut Row) -> Option<()> {
    match name {
        PUT => tell(line, row)?.put(world.put(actor)),
        PUTS => puts(actor, world, tell(line, row)?),
        RELEASE => tell(line, row)?.done(world.release(actor)),
        _ => return None,
    }
    Some(())
}

#[inline(always)]
fn puts(actor: Actor, world: &mut World, row: &mut Row) {
    let mut is_first = true;
    let answer = world.puts(actor, |out| {
        row.out(out, is_first);
        is_first = false;
    });
    match answer {
        Ok(()) => row.push(b"\n"),
        Err(fault) => row.refused(fault),
    }
}

/// A step without an actor: its name begins the line.
#[inline(never)]
fn turn_step<'a>(mut line: Line, world: &mut World, mut row: Row<'a>) -> Option<Row<'a>> {
    let heap = &mut world.heap;
    match line.letters() {
        BEGIN => {
            let (now, is_urgent) = (line.long_number()?, is_urgent(line.name()?)?);
            tell(line, &mut row)?.answer(b" : cycle ", heap.begin(now, is_urgent));
        }
        ENDMARK => tell(line, &mut row)?.answer(b" : doomed ", heap.end_mark()),
        ENDCLEAR => tell(line, &mut row)?.done(heap.end_clear()),
        ENDSWEEP => tell(line, &mut row)?.done(heap.end_sweep()),
        SELECT => tell(line, &mut row)?.answer(b" : selected ", heap.select()),
        ENDMOVE => tell(line, &mut row)?.done(heap.end_move()),
        _ => return None,
    }
    Some(row)
}

fn is_urgent(name: u64) -> Option<bool> {
    match name {
        NORMAL => Some(false),
        URGENT => Some(true),
        _ => None,
    }
}

/// Ends the line, and tells its words. Only then the step is done.
#[inline(always)]
fn tell<'a, 'b>(line: Line, row: &'a mut Row<'b>) -> Option<&'a mut Row<'b>> {
    let (words, whole) = line.end()?;
    row.words(line.bytes(), words);
    row.line = whole;
    Some(row)
}
