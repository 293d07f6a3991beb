//! The indexes that were built, and how often another outcome would have come of a rule that is not document 02's: such a rule
//! would be seen in the comparison.

use crate::counts::{Counts, unmet, write_lines};
use crate::differ::Case;
use crate::index_rules::{DOCUMENT, OTHERS};
use crate::lengths::{LENGTHS, length};
use model::cube::PLACE;
use model::index::Starts;
use std::fmt;

const ENTRIES: [&str; 5] = ["none", "one", "2 to 256", "257 to 4,095", "4,096"];

const GROUPS: [&str; 4] = ["none", "one", "two", "three or more"];

const ENDS: [&str; 4] = ["neither", "that of no literal", "that of 32", "both"];

/// Indexes by their entries and by their groups that are not empty, buffers by their length, and the rules that would have had
/// another outcome.
#[derive(Default)]
pub struct Indexes {
    entries: [u64; ENTRIES.len()],
    groups: [u64; GROUPS.len()],
    ends: [u64; ENDS.len()],
    lengths: [u64; LENGTHS.len()],
    another: [u64; OTHERS.len()],
}

impl Indexes {
    /// Adds a call of index, if it came as far as its buffer.
    pub fn add(&mut self, case: &Case, answer: &[u64; 8]) {
        if !matches!(answer[0], 0 | 5) {
            return;
        }
        let list = case.cubes();
        self.lengths[length(&case.out, PLACE * list.len())] += 1;
        if answer[0] == 5 {
            return;
        }
        let outcome = DOCUMENT.outcome(case, &list);
        self.add_built(list.len() as u64, &outcome.1);
        for (count, rule) in self.another.iter_mut().zip(OTHERS) {
            *count += u64::from(rule.outcome(case, &list) != outcome);
        }
    }

    fn add_built(&mut self, count: u64, starts: &Starts) {
        self.entries[match count {
            0 | 1 => count as usize,
            2..=256 => 2,
            4096 => 4,
            _ => 3,
        }] += 1;
        let next = starts[1..].iter().chain([&count]);
        let filled: Vec<bool> = starts.iter().zip(next).map(|(start, next)| start < next).collect();
        self.groups[filled.iter().filter(|&&filled| filled).count().min(3)] += 1;
        self.ends[usize::from(filled[0]) + 2 * usize::from(filled[32])] += 1;
    }

    /// What was never met, and the rules that would never have been seen.
    pub fn amiss(&self) -> Vec<String> {
        unmet(&self.counts())
    }

    fn counts(&self) -> [Counts; 5] {
        let rules = OTHERS.map(|rule| rule.name);
        [
            ("indexes by their entries", ENTRIES.into_iter().zip(self.entries).collect()),
            ("by their groups that are not empty", GROUPS.into_iter().zip(self.groups).collect()),
            ("of the first group and the last, not empty", ENDS.into_iter().zip(self.ends).collect()),
            ("buffers for indexes", LENGTHS.into_iter().zip(self.lengths).collect()),
            ("another outcome of index by other rules", rules.into_iter().zip(self.another).collect()),
        ]
    }
}

impl fmt::Display for Indexes {
    fn fmt(&self, f: &mut fmt::Formatter) -> fmt::Result {
        write_lines(f, &self.counts())
    }
}
