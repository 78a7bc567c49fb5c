//! How strongly each object of a graph text is reachable, printed as `refrun strength` prints it, in Rust as one writes
//! it first: the text is split by the methods of `str`, objects stand in a `Vec` in the order of their lines, a number
//! is looked up in a table or, from 2^20 on, in a `HashMap`, and rows are written by `writeln!`. It tells no faults, so
//! that it takes well-formed texts alone.

use std::collections::{HashMap, VecDeque};
use std::error::Error;
use std::io::{self, BufWriter, Read, Write};
use std::ops::Range;

const MOST_NEAR: usize = 1 << 20;

/// From strong on, in their order.
const STRENGTHS: [&str; 5] = ["strong", "soft", "weak", "phantom", "unreachable"];
const STRONG: usize = 0;
const SOFT: usize = 1;
const WEAK: usize = 2;
const PHANTOM: usize = 3;
const UNREACHABLE: usize = 4;

struct Object {
    number: u32,
    /// How strongly it holds its referent, and that, if it is a reference.
    link: Option<(usize, Option<u32>)>,
    /// Where its fields stand in the list of all.
    fields: Range<u32>,
    reach: usize,
}

#[derive(Default)]
struct Graph {
    objects: Vec<Object>,
    fields: Vec<Option<u32>>,
    roots: Vec<u32>,
    /// By number, one more than the place of its object.
    near: Vec<u32>,
    far: HashMap<u32, u32>,
}

type Outcome<T> = Result<T, Box<dyn Error>>;

/// Reads a graph text, and prints the listing of its objects.
pub fn run() -> Outcome<()> {
    let mut text = String::new();
    io::stdin().lock().read_to_string(&mut text)?;
    let mut graph = Graph::default();
    for line in text.lines().filter(|line| !line.starts_with('#')).skip(1) {
        graph.add(line)?;
    }
    graph.search();
    graph.write()
}

/// An object's number, or none where the word is `-`.
fn object_or_none(word: &str) -> Outcome<Option<u32>> {
    Ok(if word == "-" { None } else { Some(word.parse()?) })
}

impl Graph {
    /// Adds what a line says.
    fn add(&mut self, line: &str) -> Outcome<()> {
        let mut words = line.split_ascii_whitespace();
        let Some(name) = words.next() else { return Ok(()) };
        let number = words.next().ok_or("missing word")?.parse()?;
        if name == "root" {
            self.roots.push(number);
            return Ok(());
        }
        let link = match STRENGTHS.iter().position(|strength| *strength == name) {
            Some(strength) => Some((strength, object_or_none(words.next().ok_or("missing word")?)?)),
            None => None,
        };
        let begin = self.fields.len() as u32;
        for word in words {
            self.fields.push(object_or_none(word)?);
        }
        self.objects.push(Object { number, link, fields: begin..self.fields.len() as u32, reach: UNREACHABLE });
        self.enter(number, self.objects.len() as u32);
        Ok(())
    }

    fn enter(&mut self, number: u32, next: u32) {
        let at = number as usize;
        if at >= MOST_NEAR {
            self.far.insert(number, next);
            return;
        }
        if at >= self.near.len() {
            self.near.resize(at + 1, 0);
        }
        self.near[at] = next;
    }

    /// The place of an object, if there is one of this number.
    fn place(&self, number: u32) -> Option<usize> {
        let next = match self.near.get(number as usize) {
            Some(next) => *next,
            None => *self.far.get(&number)?,
        };
        (next as usize).checked_sub(1)
    }

    /// Finds how strongly each object is reachable: first what paths of fields lead to from the roots, then what else
    /// they lead to through soft references, and through weak ones.
    fn search(&mut self) {
        let mut begins = [const { Vec::new() }; 4];
        begins[STRONG] = std::mem::take(&mut self.roots);
        for strength in [STRONG, SOFT, WEAK] {
            let mut reached = VecDeque::new();
            for number in std::mem::take(&mut begins[strength]) {
                self.reach(number, strength, &mut reached);
            }
            while let Some(place) = reached.pop_front() {
                for at in self.objects[place].fields.clone() {
                    if let Some(number) = self.fields[at as usize] {
                        self.reach(number, strength, &mut reached);
                    }
                }
                match self.objects[place].link {
                    Some((held, Some(number))) if held <= strength => self.reach(number, strength, &mut reached),
                    Some((held, Some(number))) => begins[held].push(number),
                    _ => {}
                }
            }
        }
        for number in std::mem::take(&mut begins[PHANTOM]) {
            self.reach(number, PHANTOM, &mut VecDeque::new());
        }
    }

    fn reach(&mut self, number: u32, strength: usize, reached: &mut VecDeque<usize>) {
        let Some(place) = self.place(number) else { return };
        if self.objects[place].reach == UNREACHABLE {
            self.objects[place].reach = strength;
            reached.push_back(place);
        }
    }

    /// Writes a line for each object, by number.
    fn write(&mut self) -> Outcome<()> {
        self.objects.sort_unstable_by_key(|object| object.number);
        let mut output = BufWriter::new(io::stdout().lock());
        for object in &self.objects {
            writeln!(output, "{} {}", object.number, STRENGTHS[object.reach])?;
        }
        Ok(output.flush()?)
    }
}
