//! The labels whose reasons were asked for, and how often another outcome would have come of a rule that is not document
//! 02's: such a rule would be seen in the comparison.

use crate::counts::{Counts, unmet, write_lines};
use crate::differ::Case;
use crate::lengths::{LENGTHS, length};
use model::cube::{PLACE, encoded_places, reasons};
use std::fmt;

/// The reasons of a label, and the buffer that is lent for them.
struct Label {
    records: usize,
    places: Vec<usize>,
    lent: Vec<u8>,
}

/// The buffer as it is left and the number that is answered; nothing if the buffer is too short.
type Outcome = Option<(Vec<u8>, usize)>;

impl Label {
    fn of(case: &Case) -> Label {
        let list = case.cubes();
        Label { records: list.len(), places: reasons(&list, case.number), lent: case.out.clone() }
    }

    /// The outcome with these places written, in a buffer that must be long enough for so many.
    fn written(&self, places: &[usize], room_for: usize) -> Outcome {
        let mut out = self.lent.clone();
        (PLACE * room_for <= out.len()).then(|| {
            out[..PLACE * places.len()].copy_from_slice(&encoded_places(places));
            (out, places.len())
        })
    }

    /// The outcome with something else for each place.
    fn each(&self, other: fn(usize) -> usize) -> Outcome {
        let others: Vec<usize> = self.places.iter().map(|&place| other(place)).collect();
        self.written(&others, self.records)
    }
}

type Rule = fn(&Label) -> Outcome;

const BY_PLACES: Rule = |label| label.written(&label.places, label.records);

const OTHERS: [(&str, Rule); 6] = [
    ("room by true products", |label| label.written(&label.places, label.places.len())),
    ("all records counted", |label| BY_PLACES(label).map(|(out, _)| (out, label.records))),
    ("the rest cleared", |label| {
        BY_PLACES(label).map(|(mut out, number)| {
            out[PLACE * number..].fill(0);
            (out, number)
        })
    }),
    ("places descending", |label| {
        let descending: Vec<usize> = label.places.iter().rev().copied().collect();
        label.written(&descending, label.records)
    }),
    ("a place's bytes exchanged", |label| label.each(|place| place % 256 * 256 + place / 256)),
    ("a place's low byte alone", |label| label.each(|place| place % 256)),
];

const NUMBERS: [&str; 4] = ["none", "one", "two", "three or more"];

/// Labels by the number of their reasons, buffers by their length, and the rules that would have had another outcome.
#[derive(Default)]
pub struct Labels {
    numbers: [u64; NUMBERS.len()],
    lengths: [u64; LENGTHS.len()],
    another: [u64; OTHERS.len()],
}

impl Labels {
    /// Adds a call of reasons, if it came as far as its buffer.
    pub fn add(&mut self, case: &Case, answer: &[u64; 8]) {
        let label = match answer[0] {
            0 | 5 => Label::of(case),
            _ => return,
        };
        if answer[0] == 0 {
            self.numbers[label.places.len().min(3)] += 1;
        }
        self.lengths[length(&label.lent, PLACE * label.records)] += 1;
        for (count, (_, rule)) in self.another.iter_mut().zip(OTHERS) {
            *count += u64::from(rule(&label) != BY_PLACES(&label));
        }
    }

    /// What was never met, and the rules that would never have been seen.
    pub fn amiss(&self) -> Vec<String> {
        unmet(&self.counts())
    }

    fn counts(&self) -> [Counts; 3] {
        let rules = OTHERS.map(|(name, _)| name);
        [
            ("labels by their reasons", NUMBERS.into_iter().zip(self.numbers).collect()),
            ("buffers for reasons", LENGTHS.into_iter().zip(self.lengths).collect()),
            ("another outcome of reasons by other rules", rules.into_iter().zip(self.another).collect()),
        ]
    }
}

impl fmt::Display for Labels {
    fn fmt(&self, f: &mut fmt::Formatter) -> fmt::Result {
        write_lines(f, &self.counts())
    }
}
