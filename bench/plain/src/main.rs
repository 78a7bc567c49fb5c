//! The shapes of `ref_bench` in plain Rust, to compare the compilers' code: nanoseconds, the least of nine runs. With
//! the word `script` it runs a script instead, as `refrun run` does, and with `strength` it prints how strongly each
//! object of a graph text is reachable, as `refrun strength` does; with `ordinary` it does so as plain Rust is written
//! first. With `long` it prints a long script, or with `long 65536` one of a larger heap.

mod graph;
mod long_script;
mod ordinary;
mod script;
mod word_runs;
mod words;

use std::collections::{HashSet, VecDeque};
use std::sync::{Condvar, Mutex};
use std::thread;
use std::time::{Duration, Instant};

const RUNS: usize = 9;
const NOTICES: u32 = 100_000;
const CALLS: u32 = 200_000;

/// As large as a notice.
#[derive(Clone, Copy)]
struct Letter {
    object: u32,
    _rest: [u64; 4],
}

#[derive(Default)]
struct Lists {
    standing: VecDeque<Letter>,
    seen: HashSet<u32>,
    is_closed: bool,
}

impl Lists {
    fn put(&mut self, letter: Letter) {
        if self.seen.insert(letter.object) && !self.is_closed {
            self.standing.push_back(letter);
        }
    }
}

#[derive(Default)]
struct Queue {
    lists: Mutex<Lists>,
    came: Condvar,
}

impl Queue {
    fn put(&self, letter: Letter) {
        self.lists.lock().unwrap().put(letter);
        self.came.notify_one();
    }

    fn take(&self) -> Option<Letter> {
        let bare = |lists: &mut Lists| lists.standing.is_empty() && !lists.is_closed;
        let mut lists = self.came.wait_while(self.lists.lock().unwrap(), bare).unwrap();
        lists.standing.pop_front()
    }

    fn close(&self) {
        self.lists.lock().unwrap().is_closed = true;
        self.came.notify_all();
    }
}

fn letter(object: u32) -> Letter {
    Letter { object, _rest: [0; 4] }
}

fn alone() {
    let mut lists = Lists::default();
    for object in 0..NOTICES {
        lists.put(letter(object));
    }
    for _ in 0..NOTICES {
        std::hint::black_box(lists.standing.pop_front());
    }
}

fn alone_under_a_lock() {
    let queue = Queue::default();
    for object in 0..NOTICES {
        queue.put(letter(object));
    }
    for _ in 0..NOTICES {
        std::hint::black_box(queue.take());
    }
}

fn among(pairs: u32) {
    let queue = Queue::default();
    thread::scope(|takers| {
        for _ in 0..pairs {
            takers.spawn(|| while queue.take().is_some() {});
        }
        thread::scope(|putters| {
            for pair in 0..pairs {
                let queue = &queue;
                let each = NOTICES / pairs;
                putters.spawn(move || (pair * each..(pair + 1) * each).for_each(|object| queue.put(letter(object))));
            }
        });
        queue.close();
    });
}

/// Copies of one slot into another under a lock.
fn calls(threads: u32) {
    let slots = Mutex::new(vec![[0u32; 16]; 8]);
    thread::scope(|scope| {
        for number in 0..threads as usize {
            let slots = &slots;
            scope.spawn(move || {
                for _ in 0..CALLS / threads {
                    let own = &mut slots.lock().unwrap()[number];
                    own[1] = std::hint::black_box(own[0]);
                }
            });
        }
    });
}

fn least(name: &str, count: u32, run: impl Fn()) {
    least_of(name, count, || {
        let begin = Instant::now();
        run();
        begin.elapsed()
    });
}

/// Of runs that tell themselves how long so many calls took.
fn least_of(name: &str, count: u32, mut run: impl FnMut() -> Duration) {
    let time = |_| run().as_nanos() as f64 / f64::from(count);
    let least = (0..RUNS).map(time).fold(f64::INFINITY, f64::min);
    println!("{name:<54} {least:>8.1} ns");
}

fn main() {
    let words: Vec<String> = std::env::args().skip(1).collect();
    match words.iter().map(String::as_str).collect::<Vec<&str>>()[..] {
        [] => measure(),
        ["script"] => end(script::run()),
        ["strength"] => end(graph::run()),
        ["ordinary"] => ordinary::run().unwrap(),
        ["long"] => long_script::print(1, 4_096),
        ["long", "65536"] => long_script::print(2, 65_536),
        _ => std::process::exit(3),
    }
}

/// Tells what is wrong with the text that was read, if anything is.
fn end(run: Result<(), script::TextFault>) {
    if let Err(fault) = run {
        eprintln!("refrun: {fault}");
        std::process::exit(3);
    }
}

fn measure() {
    least("rustc: queue, a put or poll", 2 * NOTICES, alone);
    least("rustc: lock, deque, set, one thread, a put or poll", 2 * NOTICES, alone_under_a_lock);
    for pairs in [1, 2, 4] {
        let name = format!("rustc: lock, deque, set, {pairs} putting, {pairs} taking, a notice");
        least(&name, NOTICES, || among(pairs));
    }
    word_runs::all();
    for threads in [1, 2, 4, 8] {
        least(&format!("rustc: slots under a lock, {threads} calling, a call"), CALLS, || calls(threads));
    }
}
