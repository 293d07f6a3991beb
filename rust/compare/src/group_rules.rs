//! What group answers by document 02's rule, and what other rules would have answered.

use crate::differ::Case;
use crate::index_rules::{BY_VALUE, DOCUMENT};
use model::cube::{Cube, PLACE, decoded_places};
use model::index::{Starts, first_wrong, literals};

/// A call that came as far as its index: the list, its own index, and the one that is lent.
pub struct Asked<'a> {
    pub list: Vec<Cube>,
    pub right: (Vec<usize>, Starts),
    pub entries: Vec<usize>,
    pub starts: &'a Starts,
    /// What stands behind the entries.
    pub behind: &'a [u8],
    pub number: u64,
}

/// How many entries the run has and the one it begins at, or the number and the place of a refusal.
pub type Outcome = Result<(usize, usize), (u64, usize)>;

impl Asked<'_> {
    pub fn of<'a>(case: &'a Case, answer: &[u64; 8]) -> Option<Asked<'a>> {
        if !matches!(answer[0], 0 | 21 | 25) {
            return None;
        }
        let list = case.cubes();
        let (entries, behind) = case.out.split_at(PLACE * list.len());
        let (right, entries) = (DOCUMENT.index(&list), decoded_places(entries));
        Some(Asked { list, right, entries, starts: &case.starts, behind, number: case.number })
    }

    pub fn wrong_entry(&self) -> Option<usize> {
        first_wrong(&self.entries, &self.right.0)
    }

    pub fn wrong_start(&self) -> Option<usize> {
        first_wrong(self.starts, &self.right.1)
    }

    /// The outcome where these places are refused with 25, the first of them that there is.
    fn unless(&self, wrong: [Option<usize>; 2]) -> Outcome {
        match wrong.into_iter().flatten().next() {
            Some(place) => Err((25, place)),
            None => self.run(),
        }
    }

    /// The outcome where the index is this list's.
    fn run(&self) -> Outcome {
        if self.number > 32 {
            return Err((21, 0));
        }
        let m = self.number as usize;
        let (places, starts) = &self.right;
        let (start, next) = (starts[m] as usize, starts.get(m + 1).map_or(places.len(), |&next| next as usize));
        Ok((next - start, start))
    }

    /// The first entry whose cube has another number of literals than the right one's, or that is out of range.
    fn other_number(&self) -> Option<usize> {
        let number = |place: usize| self.list.get(place).map(literals);
        (0..self.list.len()).find(|&k| number(self.entries[k]) != number(self.right.0[k]))
    }
}

type Rule = fn(&Asked) -> Outcome;

pub const BY_INDEX: Rule = |asked| asked.unless([asked.wrong_entry(), asked.wrong_start()]);

pub const OTHERS: [(&str, Rule); 14] = [
    ("21 before 25", |asked| if asked.number > 32 { Err((21, 0)) } else { BY_INDEX(asked) }),
    ("starts before entries", |asked| asked.unless([asked.wrong_start(), asked.wrong_entry()])),
    ("the last wrong entry", |asked| {
        let wrong = |k: &usize| asked.entries[*k] != asked.right.0[*k];
        asked.unless([(0..asked.entries.len()).rev().find(wrong), asked.wrong_start()])
    }),
    ("the last wrong start", |asked| {
        let wrong = |m: &usize| asked.starts[*m] != asked.right.1[*m];
        asked.unless([asked.wrong_entry(), (0..33).rev().find(wrong)])
    }),
    ("a place in bytes", |asked| BY_INDEX(asked).map_err(|(number, place)| (number, PLACE * place))),
    ("the wrong entry for its number", |asked| {
        asked.unless([asked.wrong_entry().map(|k| asked.entries[k]), asked.wrong_start()])
    }),
    ("entries not looked at", |asked| asked.unless([None, asked.wrong_start()])),
    ("entries by their number of literals alone", |asked| asked.unless([asked.other_number(), asked.wrong_start()])),
    ("starts not looked at", |asked| asked.unless([asked.wrong_entry(), None])),
    ("the last start not looked at", |asked| {
        asked.unless([asked.wrong_entry(), asked.wrong_start().filter(|&m| m < 32)])
    }),
    ("zeros looked for behind the entries", |asked| {
        let behind = asked.behind.iter().any(|&byte| byte != 0).then_some(asked.list.len());
        asked.unless([asked.wrong_entry().or(behind), asked.wrong_start()])
    }),
    ("group 32 without its end", |asked| {
        BY_INDEX(asked).map(|(entries, start)| (if asked.number == 32 { 0 } else { entries }, start))
    }),
    ("the run in bytes", |asked| BY_INDEX(asked).map(|(entries, start)| (PLACE * entries, PLACE * start))),
    ("the literals of the value mask", |asked| {
        let right = BY_VALUE.index(&asked.list);
        asked.unless([first_wrong(&asked.entries, &right.0), first_wrong(asked.starts, &right.1)])
    }),
];
