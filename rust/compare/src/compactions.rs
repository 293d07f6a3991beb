//! The scripts that were compacted, and how often another outcome would have come of a rule that is not document 02's: such a
//! rule would be seen in the comparison.

use crate::counts::{Counts, unmet, write_lines};
use crate::differ::Case;
use crate::lengths::{LENGTHS, length};
use crate::pair_rules::{Compaction, OTHERS};
use model::script::Step;
use std::fmt;

const KINDS: [&str; 3] = ["L steps", "turns", "a split and its join"];

const TOGETHER: [&str; 2] = ["as given", "by a removal"];

const NUMBERS: [&str; 4] = ["none", "one", "two", "three or more"];

const LEFT: [&str; 4] = ["none of none", "none", "fewer", "all"];

const NESTS: [&str; 4] = ["1", "2 to 9", "10 to 99", "100 to 512"];

const COUNTS: [&str; 3] = ["0", "1 to 4,095", "4,096"];

/// Scripts by their pairs, by the steps left and by their counts, pairs by their kind and by what brought them together,
/// buffers by their length, and the rules that would have had another outcome.
#[derive(Default)]
pub struct Compactions {
    kinds: [u64; KINDS.len()],
    together: [u64; TOGETHER.len()],
    numbers: [u64; NUMBERS.len()],
    left: [u64; LEFT.len()],
    nests: [u64; NESTS.len()],
    counts: [u64; COUNTS.len()],
    out: [u64; LENGTHS.len()],
    another: [u64; OTHERS.len()],
}

impl Compactions {
    /// Adds a call of compact, if it came as far as its buffer.
    pub fn add(&mut self, case: &Case, answer: &[u64; 8]) {
        let Some(compaction) = Compaction::of(case, answer) else { return };
        if let Some(left) = compaction.left {
            self.add_accepted(&compaction, left);
        }
        self.out[length(&case.out, case.script.len())] += 1;
        for (count, (_, rule)) in self.another.iter_mut().zip(OTHERS) {
            *count += u64::from(rule(&compaction));
        }
    }

    fn add_accepted(&mut self, compaction: &Compaction, left: usize) {
        let (given, pairs) = (compaction.script.len(), compaction.pairs());
        self.left[match left {
            _ if given == 0 => 0,
            0 => 1,
            _ if left < given => 2,
            _ => 3,
        }] += 1;
        self.numbers[pairs.len().min(3)] += 1;
        self.counts[match compaction.case.number {
            0 => 0,
            4096 => 2,
            _ => 1,
        }] += 1;
        for &(first, second) in &pairs {
            let kind = match compaction.script[first] {
                Step::L { .. } => 0,
                Step::Turn { .. } => 1,
                _ => 2,
            };
            self.kinds[kind] += 1;
            self.together[usize::from(first + 1 < second)] += 1;
        }
        let around = |place| pairs.iter().filter(|&&(first, second)| (first..second).contains(&place)).count();
        match (0..given).map(around).max().unwrap_or(0) {
            0 => {}
            1 => self.nests[0] += 1,
            2..=9 => self.nests[1] += 1,
            10..=99 => self.nests[2] += 1,
            _ => self.nests[3] += 1,
        }
    }

    /// What was never met, and the rules that would never have been seen.
    pub fn amiss(&self) -> Vec<String> {
        unmet(&self.counts())
    }

    fn counts(&self) -> [Counts; 8] {
        let rules = OTHERS.map(|(name, _)| name);
        [
            ("pairs that compact removes", KINDS.into_iter().zip(self.kinds).collect()),
            ("their steps in a row", TOGETHER.into_iter().zip(self.together).collect()),
            ("compacted scripts by their pairs", NUMBERS.into_iter().zip(self.numbers).collect()),
            ("by how deep pairs stand within pairs", NESTS.into_iter().zip(self.nests).collect()),
            ("by the steps left", LEFT.into_iter().zip(self.left).collect()),
            ("by the given count", COUNTS.into_iter().zip(self.counts).collect()),
            ("output buffers for compact", LENGTHS.into_iter().zip(self.out).collect()),
            ("another outcome of compact by other rules", rules.into_iter().zip(self.another).collect()),
        ]
    }
}

impl fmt::Display for Compactions {
    fn fmt(&self, f: &mut fmt::Formatter) -> fmt::Result {
        write_lines(f, &self.counts())
    }
}
