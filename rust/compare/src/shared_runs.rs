//! The scripts that were run and settled on shared lists, and how often another outcome would have come of a rule that is not document 02's: such a
//! rule would be seen in the comparison.

use crate::counts::{Counts, unmet, write_lines};
use crate::differ::{Call, Case};
use crate::lengths::{LENGTHS, length};
use crate::shared_broken::AT_A_SHARED_STEP;
use crate::shared_settles::SharedSettles;
use crate::shared_step_rules::{DOCUMENT, OTHERS, Outcome};
use crate::shared_values::is_plain;
use model::script::STEP;
use model::shared::{SHARED_RECORD, Step, decoded_step, step};
use std::fmt;

const ENDS: [&str; 4] = ["no records", "fewer than at the peak", "as many as at the peak", "at capacity"];

const MERGES: [&str; 4] = ["none", "one", "two", "three or more"];

const PLAIN: [&str; 2] = ["other outputs, or a merge", "the same outputs, no merge"];

const REFUSED: [&str; 2] = ["before the first step", "at a step"];

const UNEQUAL: [(u8, &str); 3] = [(1, "drop"), (2, "join"), (4, "turn")];

const UNFIT: [&str; 3] =
    ["equal cubes, equal outputs", "cubes that differ, equal outputs", "cubes and outputs that differ"];

/// Accepted scripts by their ends, by their merges and by whether a plain run must leave the same; refused ones by where they are, 22 by its step and 23
/// by its products; work buffers by their length; and the rules that would have had another outcome.
#[derive(Default)]
pub struct SharedRuns {
    ends: [u64; ENDS.len()],
    merges: [u64; MERGES.len()],
    plain: [u64; PLAIN.len()],
    refused: [u64; REFUSED.len()],
    unequal: [u64; UNEQUAL.len()],
    unfit: [u64; UNFIT.len()],
    work: [u64; LENGTHS.len()],
    another: [u64; OTHERS.len()],
    settles: SharedSettles,
}

impl SharedRuns {
    /// Records of a list and steps of a script that other rules are tried on: more would take too long.
    const MOST: usize = 64;

    /// Adds a call of shared run or shared settle, if it came as far as its buffers.
    pub fn add(&mut self, case: &Case, answer: &[u64; 8]) {
        let number = answer[0];
        if matches!(number, 1..=4) {
            return;
        }
        self.work[length(&case.work, case.input.len())] += 1;
        let at_a_step = AT_A_SHARED_STEP.contains(&number);
        match number {
            0 => self.add_accepted(case, answer),
            _ => self.refused[usize::from(at_a_step)] += 1,
        }
        let short =
            case.input.len() <= SharedRuns::MOST * SHARED_RECORD && case.script.len() <= SharedRuns::MOST * STEP;
        if short && (number == 0 || at_a_step) {
            self.add_outcome(case, answer);
        }
        if case.call == Call::SharedSettle {
            self.settles.add(case, answer, short);
        }
    }

    fn add_accepted(&mut self, case: &Case, answer: &[u64; 8]) {
        let (count, peak) = (answer[if case.call == Call::SharedRun { 2 } else { 4 }], answer[3]);
        self.ends[match count {
            0 => 0,
            _ if count < peak => 1,
            _ if count < (case.work.len() / SHARED_RECORD).min(4096) as u64 => 2,
            _ => 3,
        }] += 1;
        self.merges[case.script.chunks(STEP).filter(|step| step[0] == 6).count().min(3)] += 1;
        self.plain[usize::from(is_plain(case))] += 1;
    }

    fn add_outcome(&mut self, case: &Case, answer: &[u64; 8]) {
        let right = DOCUMENT.outcome(case);
        assert!(agrees(case, answer, &right), "a third way to the outcome\n{case}{answer:?} {right:?}");
        match answer[0] {
            22 => {
                let op = case.script[STEP * answer[1] as usize];
                let kind = UNEQUAL.iter().position(|(other, _)| *other == op).expect("a step with two products");
                self.unequal[kind] += 1;
            }
            23 => self.unfit[unfit(case, answer[1] as usize)] += 1,
            _ => {}
        }
        for (count, rule) in self.another.iter_mut().zip(&OTHERS) {
            *count += u64::from(rule.outcome(case) != right);
        }
    }

    /// What was never met, and the rules that would never have been seen.
    pub fn amiss(&self) -> Vec<String> {
        [unmet(&self.counts()), self.settles.amiss()].concat()
    }

    fn counts(&self) -> [Counts; 8] {
        let rules = OTHERS.map(|rule| rule.name);
        let ops = UNEQUAL.map(|(_, name)| name);
        [
            ("scripts on shared lists by their ends", ENDS.into_iter().zip(self.ends).collect()),
            ("by their merges", MERGES.into_iter().zip(self.merges).collect()),
            ("by outputs and merges", PLAIN.into_iter().zip(self.plain).collect()),
            ("refused behind the list", REFUSED.into_iter().zip(self.refused).collect()),
            ("22 by its step", ops.into_iter().zip(self.unequal).collect()),
            ("23 by its products", UNFIT.into_iter().zip(self.unfit).collect()),
            ("work buffers for shared lists", LENGTHS.into_iter().zip(self.work).collect()),
            (
                "another outcome of scripts on shared lists by other rules",
                rules.into_iter().zip(self.another).collect(),
            ),
        ]
    }
}

/// Which of [`UNFIT`] the products of the merge at a place are.
fn unfit(case: &Case, place: usize) -> usize {
    let mut list = case.products();
    let mut steps = case.script.chunks(STEP).filter_map(|bytes| decoded_step(case.n as usize, bytes));
    for done in steps.by_ref().take(place) {
        step(&mut list, done, 4096, 0).expect("a step in front of the refused one");
    }
    let Some(Step::Merge { i, j }) = steps.next() else { panic!("23 at a step that is no merge\n{case}") };
    match (list.cubes[i] == list.cubes[j], list.outputs[i] == list.outputs[j]) {
        (true, _) => 0,
        (false, true) => 1,
        (false, false) => 2,
    }
}

/// Whether an answer is that of an outcome.
fn agrees(case: &Case, answer: &[u64; 8], outcome: &Outcome) -> bool {
    let [number, place, third, peak, ..] = *answer;
    match outcome {
        Ok((_, words, highest)) => {
            let count = if case.call == Call::SharedRun { third } else { answer[4] };
            number == 0 && (count, peak) == (words.len() as u64, *highest as u64)
        }
        Err(refusal) => *refusal == (number, place as usize, third),
    }
}

impl fmt::Display for SharedRuns {
    fn fmt(&self, f: &mut fmt::Formatter) -> fmt::Result {
        write_lines(f, &self.counts())?;
        write!(f, "{}", self.settles)
    }
}
