//! Runs with an index, and whether another outcome would have come of a rule that is not document 02's.

use crate::broken::AT_A_STEP;
use crate::differ::Case;
use crate::index_rules::DOCUMENT;
use model::cube::{Cube, PLACE, RECORD, encoded_places};
use model::script::{STEP, STEPS, Step, decoded, step, undone};

/// A call that came as far as its index buffer.
pub struct Kept<'a> {
    pub case: &'a Case,
    pub answer: [u64; 8],
    pub count: usize,
    pub capacity: usize,
    pub steps: Vec<Step>,
    /// The lists from the given one to the one before the undoing, and the one after it. Of a long list or script, or a refused
    /// one, none.
    pub lists: Vec<Vec<Cube>>,
}

impl Kept<'_> {
    /// Records of a list and steps of a script whose lists are looked at: more would take too long.
    const MOST: usize = 64;

    pub fn of<'a>(case: &'a Case, answer: &[u64; 8]) -> Option<Kept<'a>> {
        if matches!(answer[0], 1..=4) {
            return None;
        }
        let given = case.cubes();
        let (count, capacity) = (given.len(), (case.work.len() / RECORD).min(4096));
        let whole = case.script.chunks_exact(STEP);
        let steps: Vec<Step> = whole.filter_map(|step| decoded(case.n as usize, step)).collect();
        let looked_at = answer[0] == 0 && count.max(steps.len()) <= Kept::MOST;
        let lists = if looked_at { lists(given, &steps, capacity) } else { vec![] };
        Some(Kept { case, answer: *answer, count, capacity, steps, lists })
    }

    pub fn needed(&self) -> usize {
        PLACE * self.capacity
    }

    pub fn has_work(&self) -> bool {
        self.capacity >= self.count
    }

    pub fn has_index(&self) -> bool {
        self.case.out.len() >= self.needed()
    }

    /// Refused for the index buffer alone.
    fn is_without_index(&self) -> bool {
        self.has_work() && !self.has_index()
    }

    /// Whether the list so many before the last has another index than the last.
    fn another_before(&self, before: usize) -> bool {
        let [.., last] = &self.lists[..] else { return false };
        let other = self.lists.len().checked_sub(1 + before).map(|k| &self.lists[k]);
        other.is_some_and(|other| DOCUMENT.index(other) != DOCUMENT.index(last))
    }

    /// What stands in an index buffer into which the index of every list was written, and nothing was cleared.
    fn uncleared(&self) -> Vec<u8> {
        let mut bytes = vec![0; self.case.out.len()];
        for list in &self.lists {
            bytes[..PLACE * list.len()].copy_from_slice(&encoded_places(&DOCUMENT.index(list).0));
        }
        bytes
    }

    fn script_is_bad(&self) -> bool {
        let length = self.case.script.len();
        !length.is_multiple_of(STEP) || length > STEP * STEPS || self.steps.len() != length / STEP
    }

    /// What is behind the entries of an accepted run.
    fn behind(&self, index: &[u8]) -> bool {
        let entries = self.answer[2] as usize;
        self.answer[0] == 0 && index[PLACE * entries..].iter().any(|&byte| byte != 0)
    }
}

fn lists(given: Vec<Cube>, steps: &[Step], capacity: usize) -> Vec<Vec<Cube>> {
    let mut lists = vec![given];
    for &each in steps {
        let mut next = lists[lists.len() - 1].clone();
        step(&mut next, each, capacity, 0).expect("a script that was not refused");
        lists.push(next);
    }
    let last = lists[lists.len() - 1].clone();
    lists.push(undone(last, steps));
    lists
}

/// Whether another outcome would have come.
type Rule = fn(&Kept) -> bool;

pub const OTHERS: [(&str, Rule); 10] = [
    ("nothing cleared behind the entries after a step", |kept| {
        !kept.lists.is_empty() && kept.behind(&kept.uncleared())
    }),
    ("the rest of the index as it was", |kept| kept.behind(&kept.case.out)),
    ("the index of the list before the undoing", |kept| kept.another_before(1)),
    ("of the list before the last step", |kept| kept.another_before(2)),
    ("of the given list", |kept| kept.another_before(kept.lists.len().saturating_sub(1))),
    ("room by the given count", |kept| kept.is_without_index() && kept.case.out.len() >= PLACE * kept.count),
    ("room for more than 4,096 entries", |kept| {
        kept.has_work() && kept.has_index() && kept.case.out.len() < PLACE * (kept.case.work.len() / RECORD)
    }),
    ("5 of the index after the script's refusals", |kept| kept.is_without_index() && kept.script_is_bad()),
    ("the index as it was after a refused step", |kept| {
        AT_A_STEP.contains(&kept.answer[0]) && kept.case.out.iter().any(|&byte| byte != 0)
    }),
    ("the entries alone cleared after a refused step", |kept| {
        AT_A_STEP.contains(&kept.answer[0]) && kept.case.out[kept.needed()..].iter().any(|&byte| byte != 0)
    }),
];
