//! Scans and looks, loads and gets along a chain of objects, the parts of a cycle that work on all cells, moves, and
//! what a larger heap costs.

use crate::least_of;
use crate::words::{Fault, Heap, Span, Strength};
use std::hint::black_box;
use std::mem::swap;
use std::time::{Duration, Instant};

const CELLS: u32 = 4_096;
const TIMES: u32 = 100;

/// The heaps that are compared by size, by their cells and how these are printed.
const SIZES: [(u32, &str); 2] = [(4_096, "4,096"), (65_536, "65,536")];
/// So many reads, or hardly fewer, are timed in each of these.
const READS: u32 = 400_000;

const MUTATORS: usize = 8;
const WORKERS: usize = 1;
const MUTATOR: u32 = 0;
const WORKER: usize = 0;

/// The slot of the last of the chain.
const LAST: u32 = 0;
/// That of what was made last.
const NEWEST: u32 = 1;
/// That to which one after the other is loaded.
const HERE: u32 = 2;

/// Which of the objects that are made die before they are read.
#[derive(Clone, Copy, PartialEq)]
enum Dead {
    None,
    Third,
    Half,
    ThreeQuarters,
}

impl Dead {
    fn takes(self, place: u32) -> bool {
        match self {
            Dead::None => false,
            Dead::Third => place % 3 == 2,
            Dead::Half => place % 2 == 1,
            Dead::ThreeQuarters => place % 4 != 0,
        }
    }
}

/// Which objects are read.
#[derive(Clone, Copy, PartialEq)]
enum Route {
    Same,
    Along,
    AlongInMark,
}

/// Prints what each costs.
pub fn all() {
    least_of("rustc: a scan that finds a reference", CELLS - 1, || scans().unwrap());
    least_of("rustc: a look that clears it", CELLS - 1, || looks().unwrap());
    reads("load", |heap, from| heap.load(MUTATOR, HERE, from, 0));
    reads("get", |heap, from| heap.get(MUTATOR, HERE, from));
    least_of("rustc: a begin, of 4,096 objects", 1, || half_dead().begin);
    least_of("rustc: an end of clearing, half of 4,096 dead", 1, || half_dead().end_clear);
    least_of("rustc: a sweep, half of 4,096 dead, an object", CELLS / 2, || half_dead().sweeps);
    least_of("rustc: a select, of 1,024 objects in 64 pages", 1, || moves().unwrap().select);
    least_of("rustc: a move, of 1,024 objects", CELLS / 4, || moves().unwrap().moves);
    least_of("rustc: a load, one after the other, each moves", CELLS / 4 - 1, || loads_that_move().unwrap());
    least_of("rustc: two cycles and moves between, of 4,096 objects", 1, || cycles_with_moves().unwrap());
    for (cells, name) in SIZES {
        of_size(cells, name);
    }
}

/// What a heap of so many cells costs.
fn of_size(cells: u32, name: &str) {
    least_of(&format!("rustc: a whole cycle of {name} cells, an object"), cells, || whole_cycle(cells).unwrap());
    reads_of_size("load", (cells, name), |heap, from| heap.load(MUTATOR, HERE, from, 0));
    reads_of_size("get", (cells, name), |heap, from| heap.get(MUTATOR, HERE, from));
    let times = READS / cells;
    least_of(&format!("rustc: a load and a store along {name} cells"), times * (cells - 1), || {
        loads_and_stores(cells, times).unwrap()
    });
}

fn reads_of_size(word: &str, (cells, name): (u32, &str), read: impl Fn(&mut Heap, u32) -> Result<Option<u32>, Fault>) {
    let (times, links) = (READS / cells, cells - 1);
    least_of(&format!("rustc: a {word} of {name} cells, one after the other"), times * links, || {
        let mut heap = settled(cells, Dead::None).unwrap();
        read_all(black_box(&mut heap), Route::Along, times, links, &read).unwrap()
    });
}

fn reads(word: &str, read: impl Fn(&mut Heap, u32) -> Result<Option<u32>, Fault>) {
    for (route, dead, name) in [
        (Route::Same, Dead::None, " of one object"),
        (Route::Along, Dead::None, ", one after the other"),
        (Route::AlongInMark, Dead::None, ", one after the other, first in a mark"),
        (Route::Same, Dead::Third, " of one object, a third dead"),
        (Route::Along, Dead::Third, ", one after the other, a third dead"),
    ] {
        let times = if route == Route::AlongInMark { 1 } else { TIMES };
        let links = (1..CELLS).filter(|place| !dead.takes(*place)).count() as u32;
        let run = || {
            let mut heap = settled(CELLS, dead).unwrap();
            read_all(black_box(&mut heap), route, times, links, &read).unwrap()
        };
        least_of(&format!("rustc: a {word}{name}"), times * links, run);
    }
}

/// So many times as many reads as there are links.
fn read_all(
    heap: &mut Heap,
    route: Route,
    times: u32,
    links: u32,
    read: impl Fn(&mut Heap, u32) -> Result<Option<u32>, Fault>,
) -> Result<Duration, Fault> {
    let from = if route == Route::Same { LAST } else { HERE };
    if route == Route::AlongInMark {
        heap.begin(0)?;
    }
    let mut sum = 0u64;
    let time = Instant::now();
    for _ in 0..times {
        heap.copy(MUTATOR, HERE, LAST)?;
        for _ in 0..links {
            sum += read(heap, from)?.map_or(0, u64::from);
        }
    }
    let time = time.elapsed();
    black_box(sum);
    Ok(time)
}

/// So many times along the chain, loads, each with a store of what it loaded into the field that it came from.
fn loads_and_stores(cells: u32, times: u32) -> Result<Duration, Fault> {
    let mut heap = settled(cells, Dead::None)?;
    let heap = black_box(&mut heap);
    let mut sum = 0u64;
    let time = Instant::now();
    for _ in 0..times {
        let (mut here, mut next) = (HERE, NEWEST);
        heap.copy(MUTATOR, here, LAST)?;
        for _ in 1..cells {
            sum += heap.load(MUTATOR, next, here, 0)?.map_or(0, u64::from);
            heap.store(MUTATOR, here, 0, next)?;
            swap(&mut here, &mut next);
        }
    }
    let time = time.elapsed();
    black_box(sum);
    Ok(time)
}

/// A cycle that clears each reference of a full heap, and frees the object of its own that each refers to. What is
/// handed on is released at once.
fn whole_cycle(cells: u32) -> Result<Duration, Fault> {
    let mut heap = in_pairs(cells)?;
    let heap = black_box(&mut heap);
    let time = Instant::now();
    heap.begin(0)?;
    end_mark(heap)?;
    while black_box(heap.clear_next(WORKER)?).is_some() {}
    heap.end_clear()?;
    while let Some(no) = heap.hand(WORKER)? {
        heap.release(no)?;
    }
    while black_box(heap.sweep(WORKER)?).is_some() {}
    heap.end_sweep()?;
    Ok(time.elapsed())
}

/// A full heap: each weak reference has a dead object of its own, and the reference before it in a field.
fn in_pairs(cells: u32) -> Result<Heap, Fault> {
    let (target, last) = (HERE, LAST);
    let mut heap = Heap::new(MUTATORS, WORKERS, cells as usize, Span::Fixed(0));
    for _ in 0..cells / 2 {
        heap.alloc_obj(MUTATOR, target, 0)?;
        heap.alloc_ref(MUTATOR, NEWEST, Strength::Weak, target, Some(0), 1)?;
        heap.store(MUTATOR, NEWEST, 0, last)?;
        heap.copy(MUTATOR, last, NEWEST)?;
    }
    heap.drop_slot(MUTATOR, target)?;
    heap.drop_slot(MUTATOR, NEWEST)?;
    Ok(heap)
}

/// Scans, each of which finds a reference to a dead object.
fn scans() -> Result<Duration, Fault> {
    let mut heap = begun()?;
    let heap = black_box(&mut heap);
    let time = Instant::now();
    for _ in 1..CELLS {
        black_box(heap.scan(WORKER)?);
    }
    Ok(time.elapsed())
}

/// Looks, each of which clears a reference.
fn looks() -> Result<Duration, Fault> {
    let mut heap = begun()?;
    end_mark(&mut heap)?;
    let heap = black_box(&mut heap);
    let time = Instant::now();
    for _ in 1..CELLS {
        black_box(heap.clear_next(WORKER)?);
    }
    Ok(time.elapsed())
}

/// A heap in a mark, with weak references to a dead object, each of which has the one before in a field.
fn begun() -> Result<Heap, Fault> {
    let (target, last) = (LAST, HERE);
    let mut heap = Heap::new(MUTATORS, WORKERS, CELLS as usize, Span::Fixed(0));
    heap.alloc_obj(MUTATOR, target, 0)?;
    for _ in 1..CELLS {
        heap.alloc_ref(MUTATOR, NEWEST, Strength::Weak, target, Some(0), 1)?;
        heap.store(MUTATOR, NEWEST, 0, last)?;
        heap.copy(MUTATOR, last, NEWEST)?;
    }
    heap.drop_slot(MUTATOR, target)?;
    heap.begin(0)?;
    Ok(heap)
}

/// A cycle of a full heap, half of whose objects are dead.
fn half_dead() -> Parts {
    let mut heap = filled(CELLS, Dead::Half).unwrap();
    cycle(black_box(&mut heap)).unwrap()
}

/// As many references as there are cells, but for one object that they begin with. Each has the one before it that
/// isn't to die as its referent and in a field. Those that are to die are let go at once.
fn filled(cells: u32, dead: Dead) -> Result<Heap, Fault> {
    let mut heap = Heap::new(MUTATORS, WORKERS, cells as usize, Span::Fixed(0));
    heap.alloc_obj(MUTATOR, LAST, 1)?;
    for place in 1..cells {
        heap.alloc_ref(MUTATOR, NEWEST, Strength::Weak, LAST, None, 1)?;
        if !dead.takes(place) {
            heap.store(MUTATOR, NEWEST, 0, LAST)?;
            heap.copy(MUTATOR, LAST, NEWEST)?;
        }
    }
    heap.drop_slot(MUTATOR, NEWEST)?;
    Ok(heap)
}

/// The same, once a cycle has freed what is dead.
fn settled(cells: u32, dead: Dead) -> Result<Heap, Fault> {
    let mut heap = filled(cells, dead)?;
    cycle(&mut heap)?;
    Ok(heap)
}

/// How long the parts of a cycle took: its begin, the end of the clearing, and all sweeps.
struct Parts {
    begin: Duration,
    end_clear: Duration,
    sweeps: Duration,
}

fn cycle(heap: &mut Heap) -> Result<Parts, Fault> {
    let time = Instant::now();
    heap.begin(0)?;
    let begin = time.elapsed();
    end_mark(heap)?;
    let time = Instant::now();
    heap.end_clear()?;
    let end_clear = time.elapsed();
    let time = Instant::now();
    while heap.sweep(WORKER)?.is_some() {}
    let sweeps = time.elapsed();
    heap.end_sweep()?;
    Ok(Parts { begin, end_clear, sweeps })
}

/// How long the choice of objects that are to move took, and all their moves.
struct Moves {
    select: Duration,
    moves: Duration,
}

/// The moves of a quarter of the objects, which is left in each page.
fn moves() -> Result<Moves, Fault> {
    let mut heap = settled(CELLS, Dead::ThreeQuarters)?;
    let heap = black_box(&mut heap);
    let time = Instant::now();
    black_box(heap.select()?);
    let select = time.elapsed();
    let time = Instant::now();
    while black_box(heap.move_next(WORKER)?).is_some() {}
    let moves = time.elapsed();
    heap.end_move()?;
    Ok(Moves { select, moves })
}

/// Loads, each of which moves what it answers.
fn loads_that_move() -> Result<Duration, Fault> {
    let mut heap = settled(CELLS, Dead::ThreeQuarters)?;
    heap.select()?;
    read_all(black_box(&mut heap), Route::Along, 1, CELLS / 4 - 1, |heap, from| heap.load(MUTATOR, HERE, from, 0))
}

/// A cycle, the moves of what it left, and a cycle that heals the words of what moved.
fn cycles_with_moves() -> Result<Duration, Fault> {
    let mut heap = filled(CELLS, Dead::ThreeQuarters)?;
    let heap = black_box(&mut heap);
    let time = Instant::now();
    cycle(heap)?;
    heap.select()?;
    while heap.move_next(WORKER)?.is_some() {}
    heap.end_move()?;
    cycle(heap)?;
    Ok(time.elapsed())
}

/// The scans of a mark, and its end.
fn end_mark(heap: &mut Heap) -> Result<(), Fault> {
    while heap.scan(WORKER)?.is_some() {}
    heap.end_mark()?;
    Ok(())
}
