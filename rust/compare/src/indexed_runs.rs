//! The runs with an index, and how often another outcome would have come of a rule that is not document 02's: such a rule would be
//! seen in the comparison.

use crate::broken::AT_A_STEP;
use crate::counts::{Counts, unmet, write_lines};
use crate::differ::Case;
use crate::index_rules::DOCUMENT;
use crate::indexed_rules::{Kept, OTHERS};
use crate::lengths::{LENGTHS, length};
use model::cube::RECORD;
use model::script::Step;
use std::fmt;

const ENDS: [&str; 4] = ["no records", "fewer than at the peak", "as many as at the peak", "at capacity"];

const UNDONE: [&str; 3] = ["no L step", "L steps, the same index", "L steps, another index"];

const TOO_SHORT: [&str; 3] = ["work", "the index", "both"];

const REFUSED: [&str; 2] = ["before the first step", "at a step"];

/// Accepted runs by their ends and by what the undoing does to the index, refused ones by where they are, buffers by their length,
/// refusals by the buffer that is too short, and the rules that would have had another outcome.
#[derive(Default)]
pub struct IndexedRuns {
    ends: [u64; ENDS.len()],
    /// Of lists and scripts that are not long.
    undone: [u64; UNDONE.len()],
    refused: [u64; REFUSED.len()],
    work: [u64; LENGTHS.len()],
    index: [u64; LENGTHS.len()],
    too_short: [u64; TOO_SHORT.len()],
    another: [u64; OTHERS.len()],
}

impl IndexedRuns {
    /// Adds a call of run indexed, if it came as far as its buffers.
    pub fn add(&mut self, case: &Case, answer: &[u64; 8]) {
        let Some(kept) = Kept::of(case, answer) else { return };
        match answer[0] {
            0 => self.add_accepted(&kept),
            number => self.refused[usize::from(AT_A_STEP.contains(&number))] += 1,
        }
        if answer[0] == 5 {
            self.too_short[if kept.has_work() { 1 } else { 2 * usize::from(!kept.has_index()) }] += 1;
        }
        self.work[length(&case.work, RECORD * kept.count)] += 1;
        self.index[length(&case.out, kept.needed())] += 1;
        for (count, (_, rule)) in self.another.iter_mut().zip(OTHERS) {
            *count += u64::from(rule(&kept));
        }
    }

    fn add_accepted(&mut self, kept: &Kept) {
        let [_, _, count, peak, ..] = kept.answer;
        self.ends[match count {
            0 => 0,
            _ if count < peak => 1,
            _ if count < kept.capacity as u64 => 2,
            _ => 3,
        }] += 1;
        if let [.., before, after] = &kept.lists[..] {
            let has_l = kept.steps.iter().any(|step| matches!(step, Step::L { .. }));
            self.undone[usize::from(has_l) + usize::from(has_l && another_index(before, after))] += 1;
        }
    }

    /// What was never met, and the rules that would never have been seen.
    pub fn amiss(&self) -> Vec<String> {
        unmet(&self.counts())
    }

    fn counts(&self) -> [Counts; 7] {
        let rules = OTHERS.map(|(name, _)| name);
        [
            ("runs with an index by their ends", ENDS.into_iter().zip(self.ends).collect()),
            ("by their undoing", UNDONE.into_iter().zip(self.undone).collect()),
            ("refused behind the list", REFUSED.into_iter().zip(self.refused).collect()),
            ("work buffers of run indexed", LENGTHS.into_iter().zip(self.work).collect()),
            ("index buffers of run indexed", LENGTHS.into_iter().zip(self.index).collect()),
            ("5 of run indexed, by the buffer that is too short", TOO_SHORT.into_iter().zip(self.too_short).collect()),
            ("another outcome of run indexed by other rules", rules.into_iter().zip(self.another).collect()),
        ]
    }
}

fn another_index(before: &[Vec<u8>], after: &[Vec<u8>]) -> bool {
    DOCUMENT.index(before) != DOCUMENT.index(after)
}

impl fmt::Display for IndexedRuns {
    fn fmt(&self, f: &mut fmt::Formatter) -> fmt::Result {
        write_lines(f, &self.counts())
    }
}
