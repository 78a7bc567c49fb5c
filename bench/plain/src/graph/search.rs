//! The searches that tell how strongly each object is reachable. Each goes on from those before it.

use super::object::{Object, PHANTOM, SOFT, STRONG, UNREACHABLE, WEAK};
use super::objects::Objects;
use super::Graph;
use std::collections::VecDeque;
use std::mem::take;

struct Search<'a> {
    objects: Objects,
    fields: &'a [u32],
    /// What was reached and not gone on from. First in, first out, so that what is next is known long before.
    reached: VecDeque<Object>,
    /// By strength: the numbers that the search for it begins with, the roots or referents that were found before.
    begins: [Vec<u32>; 5],
}

/// The objects of the graph, each with how strongly it is reachable.
pub fn searched(graph: Graph) -> Objects {
    let mut begins = [const { Vec::new() }; 5];
    begins[STRONG as usize] = graph.roots;
    let mut search = Search { objects: graph.objects, fields: &graph.fields, reached: VecDeque::new(), begins };
    for strength in [STRONG, SOFT, WEAK] {
        search.go_on(strength);
    }
    search.begin(PHANTOM);
    search.objects
}

impl Search<'_> {
    /// Reaches what a path leads to that also goes through referents of this strength.
    fn go_on(&mut self, strength: u32) {
        self.begin(strength);
        while let Some(object) = self.reached.pop_front() {
            let mut numbers = object.numbers(self.fields);
            if object.kind() > strength {
                let (referent, fields) = numbers.split_first().expect("a reference has a referent");
                self.begins[object.kind() as usize].push(*referent);
                numbers = fields;
            }
            for number in numbers {
                self.reach(*number, strength);
            }
        }
    }

    fn begin(&mut self, strength: u32) {
        for number in take(&mut self.begins[strength as usize]) {
            self.reach(number, strength);
        }
    }

    #[inline(always)]
    fn reach(&mut self, number: u32, strength: u32) {
        let Some(place) = self.objects.place(number) else { return };
        let object = Object(*place);
        if object.strength() == UNREACHABLE {
            *place = object.with_strength(strength).0;
            self.reached.push_back(object);
        }
    }
}
