//! The shared lists that were settled, and how often another list would have been burned by a rule that is not document 02's.

use crate::counts::{Counts, unmet, write_lines};
use crate::differ::Case;
use crate::lengths::{LENGTHS, length};
use crate::shared_step_rules::DOCUMENT;
use model::cost::{cost, standing};
use model::cube::Cube;
use model::shared::SHARED_RECORD;
use std::fmt;

const BURNED: [&str; 3] = ["the script's result, fewer products", "the script's result, as many", "the given list"];

const TOO_SMALL: [&str; 3] = ["work", "the output", "both"];

/// The cubes of the script's result, and those of the given list.
type Both<'a> = (&'a [Cube], &'a [Cube]);

/// Whether the script's result is burned.
type Rule = fn(Both) -> bool;

const BY_PRODUCTS: Rule = |(script, given)| script.len() <= given.len();

const OTHERS: [(&str, Rule); 6] = [
    ("the given list on a tie", |(script, given)| script.len() < given.len()),
    ("the script's result always", |_| true),
    ("the given list always", |_| false),
    ("the longer list", |(script, given)| script.len() >= given.len()),
    ("cost, then products", |(script, given)| standing(script) <= standing(given)),
    ("cost alone", |(script, given)| cost(script) <= cost(given)),
];

/// Settled lists by what was burned, output buffers by their length, refusals by the buffer that is too small, and the rules that would have burned
/// another list.
#[derive(Default)]
pub struct SharedSettles {
    burned: [u64; BURNED.len()],
    out: [u64; LENGTHS.len()],
    too_small: [u64; TOO_SMALL.len()],
    another: [u64; OTHERS.len()],
}

impl SharedSettles {
    /// Adds a call of shared settle that came as far as its buffers; of a short one other rules are tried.
    pub fn add(&mut self, case: &Case, answer: &[u64; 8], short: bool) {
        self.out[length(&case.out, case.input.len())] += 1;
        let fits = |buffer: &[u8]| buffer.len() / SHARED_RECORD >= case.input.len() / SHARED_RECORD;
        match answer[0] {
            5 => self.too_small[if fits(&case.work) { 1 } else { 2 * usize::from(!fits(&case.out)) }] += 1,
            0 => self.add_settled(case, answer, short),
            _ => {}
        }
    }

    fn add_settled(&mut self, case: &Case, answer: &[u64; 8], short: bool) {
        let [_, _, given, _, script, ..] = *answer;
        self.burned[match script {
            _ if script < given => 0,
            _ if script == given => 1,
            _ => 2,
        }] += 1;
        if !short {
            return;
        }
        let (cubes, words, _) = DOCUMENT.outcome(case).expect("a script that was not refused");
        let list = case.products();
        let both = (&cubes[..], &list.cubes[..]);
        let given: Vec<u32> = list.outputs.iter().map(|outputs| outputs.iter().map(|k| 1 << k).sum()).collect();
        let same = cubes == list.cubes && words == given;
        for (count, (_, rule)) in self.another.iter_mut().zip(OTHERS) {
            *count += u64::from(!same && rule(both) != BY_PRODUCTS(both));
        }
    }

    pub fn amiss(&self) -> Vec<String> {
        unmet(&self.counts())
    }

    fn counts(&self) -> [Counts; 4] {
        let rules = OTHERS.map(|(name, _)| name);
        [
            ("burned of shared lists", BURNED.into_iter().zip(self.burned).collect()),
            ("output buffers for shared lists", LENGTHS.into_iter().zip(self.out).collect()),
            (
                "5 of shared settle, by the buffer that is too small",
                TOO_SMALL.into_iter().zip(self.too_small).collect(),
            ),
            ("another shared list burned by other rules", rules.into_iter().zip(self.another).collect()),
        ]
    }
}

impl fmt::Display for SharedSettles {
    fn fmt(&self, f: &mut fmt::Formatter) -> fmt::Result {
        write_lines(f, &self.counts())
    }
}
