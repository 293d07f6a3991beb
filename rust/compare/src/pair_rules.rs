//! The pairs of a script by document 02's rule, and what other rules would have left.

use crate::differ::Case;
use model::script::{STEP, Step, decoded};

/// A call that came as far as its buffer.
pub struct Compaction<'a> {
    pub case: &'a Case,
    pub script: Vec<Step>,
    /// The number of steps left, if it was accepted.
    pub left: Option<usize>,
}

impl Compaction<'_> {
    /// Steps of a script of which other rules are looked at: a longer one would take too long.
    const STEPS: usize = 64;

    pub fn of<'a>(case: &'a Case, answer: &[u64; 8]) -> Option<Compaction<'a>> {
        let left = match *answer {
            [0, _, steps, ..] => Some(steps as usize),
            [5, ..] => None,
            _ => return None,
        };
        let script = case.script.chunks(STEP).filter_map(|bytes| decoded(case.n as usize, bytes)).collect();
        Some(Compaction { case, script, left })
    }

    /// The pairs that are removed, each by the places of its steps in the given script: a step is looked at beside the last
    /// one before it that is left.
    pub fn pairs(&self) -> Vec<(usize, usize)> {
        let (mut left, mut pairs) = (Vec::<(i64, usize)>::new(), Vec::new());
        let mut count = self.case.number as i64;
        for (place, &step) in self.script.iter().enumerate() {
            match left.last() {
                Some(&(before, other)) if is_pair(before, self.script[other], step) => {
                    left.pop();
                    pairs.push((other, place));
                }
                _ => left.push((count, place)),
            }
            count = counted(count, step);
        }
        pairs
    }

    /// The steps left where the count goes so, and these are pairs.
    fn left_by(&self, counted: impl Fn(i64, Step) -> i64, is_pair: impl Fn(i64, Step, Step) -> bool) -> Vec<Step> {
        let mut left = self.script.clone();
        while let Some(place) = self.first_pair(&left, &counted, &is_pair) {
            left.drain(place..place + 2);
        }
        left
    }

    fn first_pair(
        &self,
        script: &[Step],
        counted: impl Fn(i64, Step) -> i64,
        is_pair: impl Fn(i64, Step, Step) -> bool,
    ) -> Option<usize> {
        let mut count = self.case.number as i64;
        script.windows(2).position(|steps| {
            let before = count;
            count = counted(count, steps[0]);
            is_pair(before, steps[0], steps[1])
        })
    }

    /// Whether other steps would have been left of an accepted call, which is not too long.
    fn leaves_others(&self, others: impl Fn(&Self) -> Vec<Step>) -> bool {
        let looked_at = self.left.is_some() && self.script.len() <= Compaction::STEPS;
        looked_at && others(self) != self.left_by(counted, is_pair)
    }

    /// The same, where these are pairs too.
    fn with_pairs(&self, too: impl Fn(i64, Step, Step) -> bool) -> bool {
        self.leaves_others(|compaction| {
            compaction
                .left_by(counted, |before, first, second| is_pair(before, first, second) || too(before, first, second))
        })
    }
}

/// "Two equal L steps or two equal turns in a row, or a split followed at once by the join of its place with the place just
/// appended, named in that order."
fn is_pair(before: i64, first: Step, second: Step) -> bool {
    match (first, second) {
        (Step::L { .. } | Step::Turn { .. }, _) => first == second,
        (Step::Split { i, .. }, Step::Join { i: kept, j }) => i == kept && j as i64 == before,
        _ => false,
    }
}

/// "Counts along, never below zero."
fn counted(count: i64, step: Step) -> i64 {
    below_zero(count, step).max(0)
}

fn below_zero(count: i64, step: Step) -> i64 {
    match step {
        Step::Drop { .. } => count - 2,
        Step::Join { .. } => count - 1,
        Step::Split { .. } => count + 1,
        Step::Turn { .. } | Step::L { .. } => count,
    }
}

/// Whether another outcome would have come.
pub type Rule = fn(&Compaction) -> bool;

pub const OTHERS: [(&str, Rule); 15] = [
    ("no new start at the front", |compaction| {
        compaction.leaves_others(|compaction| {
            let (mut left, mut count, mut place) = (vec![], compaction.case.number as i64, 0);
            while let Some(&step) = compaction.script.get(place) {
                let next = compaction.script.get(place + 1);
                let paired = next.is_some_and(|&next| is_pair(count, step, next));
                if !paired {
                    left.push(step);
                    count = counted(count, step);
                }
                place += if paired { 2 } else { 1 };
            }
            left
        })
    }),
    ("the given count for every step", |compaction| {
        compaction.leaves_others(|compaction| compaction.left_by(|count, _| count, is_pair))
    }),
    ("the count below zero", |compaction| {
        compaction.leaves_others(|compaction| compaction.left_by(below_zero, is_pair))
    }),
    ("one less by a drop", |compaction| {
        let one_less = |count: i64, step| match step {
            Step::Drop { .. } => (count - 1).max(0),
            other => counted(count, other),
        };
        compaction.leaves_others(|compaction| compaction.left_by(one_less, is_pair))
    }),
    ("the count after the split", |compaction| {
        let after = |before, first, second| match first {
            Step::Split { .. } => is_pair(before + 1, first, second),
            _ => is_pair(before, first, second),
        };
        compaction.leaves_others(|compaction| compaction.left_by(counted, after))
    }),
    ("a join that names the places the other way", |compaction| {
        compaction.with_pairs(|before, first, second| match second {
            Step::Join { i, j } => is_pair(before, first, Step::Join { i: j, j: i }),
            _ => false,
        })
    }),
    ("a join of any place with the one just appended", |compaction| {
        compaction.with_pairs(|before, first, second| match (first, second) {
            (Step::Split { .. }, Step::Join { j, .. }) => j as i64 == before,
            _ => false,
        })
    }),
    ("the low byte of the place just appended", |compaction| {
        compaction.with_pairs(|before, first, second| match second {
            Step::Join { i, j } => is_pair(before % 256, first, Step::Join { i, j: j % 256 }),
            _ => false,
        })
    }),
    ("two equal splits", |compaction| {
        compaction.with_pairs(|_, first, second| first == second && matches!(first, Step::Split { .. }))
    }),
    ("two equal joins", |compaction| {
        compaction.with_pairs(|_, first, second| first == second && matches!(first, Step::Join { .. }))
    }),
    ("two equal drops", |compaction| {
        compaction.with_pairs(|_, first, second| first == second && matches!(first, Step::Drop { .. }))
    }),
    ("L steps with another literal", |compaction| {
        compaction.with_pairs(|_, first, second| match (first, second) {
            (Step::L { v, .. }, Step::L { v: other, .. }) => v == other,
            _ => false,
        })
    }),
    ("turns at another variable or place", |compaction| {
        compaction.with_pairs(|_, first, second| match (first, second) {
            (Step::Turn { v, i, j }, Step::Turn { v: w, i: k, j: l }) => {
                usize::from(v == w) + usize::from(i == k) + usize::from(j == l) == 2
            }
            _ => false,
        })
    }),
    ("the rest of out cleared", |compaction| {
        compaction.left.is_some_and(|left| compaction.case.out[STEP * left..].iter().any(|&byte| byte != 0))
    }),
    ("room for the steps left alone", |compaction| {
        let left = compaction.script.len() - 2 * compaction.pairs().len();
        compaction.left.is_none() && compaction.case.out.len() >= STEP * left
    }),
];
