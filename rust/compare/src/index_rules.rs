//! The index of a list by document 02's rule, and what other rules would have built.

use crate::differ::Case;
use model::cube::{Cube, PLACE, encoded_places};
use model::index::Starts;

/// How cubes are counted and ordered, how a group's start is counted, and what is written.
pub struct Rule {
    pub name: &'static str,
    /// The number of literals that a cube is said to have.
    literals: fn(&Cube) -> usize,
    /// What entries are ordered by: from the number of literals and the place.
    order: fn(usize, usize) -> (usize, usize),
    /// The start of a group, by the cubes with fewer literals, with as many, and all.
    start: fn(usize, usize, usize) -> usize,
    /// What is written for a place.
    place: fn(usize) -> usize,
    /// Whether the rest of the index buffer is cleared.
    clears: bool,
}

pub const DOCUMENT: Rule = Rule {
    name: "document 02's",
    literals: |cube| cube.iter().filter(|&&code| code < 2).count(),
    order: |number, place| (number, place),
    start: |fewer, _, _| fewer,
    place: |place| place,
    clears: false,
};

const LAST: usize = usize::MAX;

/// A plain literal alone is a bit of the value mask.
pub const BY_VALUE: Rule = Rule {
    name: "the literals of the value mask",
    literals: |cube| cube.iter().filter(|&&code| code == 1).count(),
    ..DOCUMENT
};

pub const OTHERS: [Rule; 11] = [
    Rule { name: "by place alone", order: |_, place| (0, place), ..DOCUMENT },
    Rule { name: "places descending", order: |number, place| (number, LAST - place), ..DOCUMENT },
    Rule { name: "by number descending", order: |number, place| (LAST - number, place), ..DOCUMENT },
    Rule { name: "starts in bytes", start: |fewer, _, _| PLACE * fewer, ..DOCUMENT },
    Rule { name: "starts counted from the end", start: |fewer, _, all| all - fewer, ..DOCUMENT },
    Rule { name: "ends for starts", start: |fewer, with, _| fewer + with, ..DOCUMENT },
    Rule {
        name: "0 for the start of an empty group",
        start: |fewer, with, _| if with == 0 { 0 } else { fewer },
        ..DOCUMENT
    },
    BY_VALUE,
    Rule { name: "a place's bytes exchanged", place: |place| place % 256 * 256 + place / 256, ..DOCUMENT },
    Rule { name: "a place's low byte alone", place: |place| place % 256, ..DOCUMENT },
    Rule { name: "the rest of the index cleared", clears: true, ..DOCUMENT },
];

impl Rule {
    /// Entries and starts.
    pub fn index(&self, list: &[Cube]) -> (Vec<usize>, Starts) {
        let numbers: Vec<usize> = list.iter().map(self.literals).collect();
        let mut places: Vec<usize> = (0..list.len()).collect();
        places.sort_by_key(|&place| (self.order)(numbers[place], place));
        let mut with = [0; 33];
        for number in numbers {
            with[number] += 1;
        }
        let mut fewer = 0;
        let starts = with.map(|with| {
            let start = (self.start)(fewer, with, list.len());
            fewer += with;
            start as u64
        });
        (places.into_iter().map(self.place).collect(), starts)
    }

    /// What is left in an index buffer that is long enough, and the starts.
    pub fn outcome(&self, case: &Case, list: &[Cube]) -> (Vec<u8>, Starts) {
        let (places, starts) = self.index(list);
        let mut out = case.out.clone();
        let (front, rest) = out.split_at_mut(PLACE * places.len());
        front.copy_from_slice(&encoded_places(&places));
        if self.clears {
            rest.fill(0);
        }
        (out, starts)
    }
}
