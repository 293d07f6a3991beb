//! Runs of scripts on shared lists by document 02's rules, and by others.

use crate::differ::Case;
use model::cube::Cube;
use model::script::{self, STEP, remove, undone};
use model::shared::{SHARED_RECORD, Step, decoded_step, plain};

/// What a merge needs, which outputs steps leave, and in which order refusals are tested.
pub struct Rule {
    pub name: &'static str,
    /// The outputs at i after a merge.
    merged: fn(u32, u32) -> u32,
    /// Whether it is i that a merge removes.
    removes_i: bool,
    /// Whether a merge needs equal cubes, and whether it needs different outputs; of equal ones both products go.
    needs_equal_cubes: bool,
    needs_different: bool,
    /// Whether drop, join and turn need equal outputs.
    needs_equal: [bool; 3],
    /// The outputs at i after a join, and at the place appended by a split.
    joined: fn(u32) -> u32,
    appended: fn(u32) -> u32,
    /// 22 before 16 to 19, and 23 before 11.
    outputs_first: bool,
    merge_first: bool,
    /// Whether 22 and 23 answer the number of differing variables too.
    answers_differing: bool,
    /// The bytes of a record that capacities go by.
    record: usize,
}

pub const DOCUMENT: Rule = Rule {
    name: "document 02's",
    merged: |a, b| a ^ b,
    removes_i: false,
    needs_equal_cubes: true,
    needs_different: true,
    needs_equal: [true; 3],
    joined: |a| a,
    appended: |a| a,
    outputs_first: false,
    merge_first: false,
    answers_differing: false,
    record: SHARED_RECORD,
};

pub const OTHERS: [Rule; 17] = [
    Rule { name: "merge by OR", merged: |a, b| a | b, ..DOCUMENT },
    Rule { name: "merge by AND", merged: |a, b| a & b, ..DOCUMENT },
    Rule { name: "merge that keeps i's outputs", merged: |a, _| a, ..DOCUMENT },
    Rule { name: "merge that takes j's outputs", merged: |_, b| b, ..DOCUMENT },
    Rule { name: "merge that removes i", removes_i: true, ..DOCUMENT },
    Rule { name: "merge of equal outputs drops both", needs_different: false, ..DOCUMENT },
    Rule { name: "merge of cubes that differ", needs_equal_cubes: false, ..DOCUMENT },
    Rule { name: "drop of different outputs", needs_equal: [false, true, true], ..DOCUMENT },
    Rule { name: "join of different outputs", needs_equal: [true, false, true], ..DOCUMENT },
    Rule { name: "turn of different outputs", needs_equal: [true, true, false], ..DOCUMENT },
    Rule { name: "join by the EXOR of the outputs", joined: |_| 0, ..DOCUMENT },
    Rule { name: "split whose second half has all outputs", appended: |_| u32::MAX, ..DOCUMENT },
    Rule { name: "split whose second half has none", appended: |_| 0, ..DOCUMENT },
    Rule { name: "22 before 16 to 19", outputs_first: true, ..DOCUMENT },
    Rule { name: "23 before 11", merge_first: true, ..DOCUMENT },
    Rule { name: "22 and 23 with the number of differing variables", answers_differing: true, ..DOCUMENT },
    Rule { name: "capacity by 8 bytes", record: 8, ..DOCUMENT },
];

/// The cubes, the outputs and the peak, or the refusal's number, place and third answer.
pub type Outcome = Result<(Vec<Cube>, Vec<u32>, usize), (u64, usize, u64)>;

/// A list on its way through a script.
struct Present<'a> {
    rule: &'a Rule,
    cubes: Vec<Cube>,
    words: Vec<u32>,
    capacity: usize,
}

impl Rule {
    /// The outcome of a call that keeps rules 1 to 9.
    pub fn outcome(&self, case: &Case) -> Outcome {
        let list = case.products();
        let steps: Vec<Step> =
            case.script.chunks(STEP).filter_map(|bytes| decoded_step(case.n as usize, bytes)).collect();
        let words = list.outputs.iter().map(|outputs| outputs.iter().map(|k| 1 << k).sum()).collect();
        let capacity = (case.work.len() / self.record).min(4096);
        let mut present = Present { rule: self, cubes: list.cubes, words, capacity };
        let mut peak = present.cubes.len();
        for (place, &step) in steps.iter().enumerate() {
            present.step(step).map_err(|(number, third)| (number, place, third))?;
            peak = peak.max(present.cubes.len());
        }
        Ok((undone(present.cubes, &plain(&steps)), present.words, peak))
    }

    /// The places of a step's two products, where it needs equal outputs.
    fn needing(&self, step: script::Step) -> Option<(usize, usize)> {
        let (k, i, j) = match step {
            script::Step::Drop { i, j } => (0, i, j),
            script::Step::Join { i, j } => (1, i, j),
            script::Step::Turn { i, j, .. } => (2, i, j),
            _ => return None,
        };
        self.needs_equal[k].then_some((i, j))
    }
}

impl Present<'_> {
    fn step(&mut self, step: Step) -> Result<(), (u64, u64)> {
        match step {
            Step::Plain(step) => self.plain(step),
            Step::Merge { i, j } => self.merge(i, j),
        }
    }

    fn plain(&mut self, step: script::Step) -> Result<(), (u64, u64)> {
        let unequal = self.rule.needing(step).filter(|&(i, j)| {
            let (a, b) = (self.words.get(i), self.words.get(j));
            a.is_some() && b.is_some() && a != b
        });
        let refusal = unequal.map(|(i, j)| (22, self.third(i, j)));
        if self.rule.outputs_first {
            refusal.map_or(Ok(()), Err)?;
        }
        script::step(&mut self.cubes, step, self.capacity, 0).map_err(|refusal| (refusal.number, refusal.differing))?;
        refusal.map_or(Ok(()), Err)?;
        match step {
            script::Step::Drop { i, j } => {
                remove(&mut self.words, i.max(j));
                remove(&mut self.words, i.min(j));
            }
            script::Step::Join { i, j } => {
                self.words[i] = (self.rule.joined)(self.words[i]);
                remove(&mut self.words, j);
            }
            script::Step::Split { i, .. } => self.words.push((self.rule.appended)(self.words[i])),
            _ => {}
        }
        Ok(())
    }

    fn merge(&mut self, i: usize, j: usize) -> Result<(), (u64, u64)> {
        if i >= self.words.len() || j >= self.words.len() {
            return Err((10, 0));
        }
        if i == j && !self.rule.merge_first {
            return Err((11, 0));
        }
        let apart = self.rule.needs_equal_cubes && self.cubes[i] != self.cubes[j];
        let equal = self.words[i] == self.words[j];
        if apart || equal && self.rule.needs_different {
            return Err((23, self.third(i, j)));
        }
        self.words[i] = (self.rule.merged)(self.words[i], self.words[j]);
        match (equal, self.rule.removes_i) {
            (true, _) => {
                self.remove(i.max(j));
                self.remove(i.min(j));
            }
            (false, false) => self.remove(j),
            (false, true) => {
                self.words[j] = self.words[i];
                self.remove(i);
            }
        }
        Ok(())
    }

    fn remove(&mut self, place: usize) {
        remove(&mut self.cubes, place);
        remove(&mut self.words, place);
    }

    fn third(&self, i: usize, j: usize) -> u64 {
        let apart = script::differing(&self.cubes[i], &self.cubes[j]).len() as u64;
        if self.rule.answers_differing { apart } else { 0 }
    }
}
