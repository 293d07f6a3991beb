//! The groups that were asked for, the indexes that are not a list's, and how often another outcome would have come of a rule that
//! is not document 02's: such a rule would be seen in the comparison.

use crate::counts::{Counts, unmet, write_lines};
use crate::differ::Case;
use crate::group_rules::{Asked, BY_INDEX, OTHERS};
use crate::lengths::{LENGTHS, length};
use crate::wrong_indexes::WAYS;
use model::cube::PLACE;
use std::fmt;

const ENTRIES: [&str; 5] = ["none of none", "none", "one", "some", "all"];

const NUMBERS: [&str; 3] = ["0", "1 to 31", "32"];

const BEHIND: [&str; 2] = ["nothing", "other bytes than zeros"];

const WRONG: [&str; 3] = ["entries", "starts", "both"];

const PLACES: [&str; 3] = ["the first", "one between", "the last"];

/// Runs by their entries and, where they have some, by their number of literals; indexes by what is behind the entries and by their
/// length; those refused by what is wrong with them; and the rules that would have had another outcome.
#[derive(Default)]
pub struct Groups {
    entries: [u64; ENTRIES.len()],
    numbers: [u64; NUMBERS.len()],
    behind: [u64; BEHIND.len()],
    lengths: [u64; LENGTHS.len()],
    wrong: [u64; WRONG.len()],
    ways: [u64; WAYS.len()],
    wrong_entries: [u64; PLACES.len()],
    wrong_starts: [u64; PLACES.len()],
    another: [u64; OTHERS.len()],
}

impl Groups {
    /// Adds a call of group, if it came as far as its index.
    pub fn add(&mut self, case: &Case, answer: &[u64; 8]) {
        if matches!(answer[0], 0 | 5 | 21 | 25) {
            self.lengths[length(&case.out, PLACE * case.cubes().len())] += 1;
        }
        let Some(asked) = Asked::of(case, answer) else { return };
        match answer[0] {
            0 => self.add_run(&asked, answer[2] as usize),
            25 => self.add_wrong(&asked),
            _ => {}
        }
        let outcome = BY_INDEX(&asked);
        for (count, (_, rule)) in self.another.iter_mut().zip(OTHERS) {
            *count += u64::from(rule(&asked) != outcome);
        }
    }

    fn add_run(&mut self, asked: &Asked, entries: usize) {
        self.entries[match (entries, asked.list.len()) {
            (0, 0) => 0,
            (0, _) => 1,
            (all, count) if all == count => 4,
            (1, _) => 2,
            _ => 3,
        }] += 1;
        if entries > 0 {
            self.numbers[usize::from(asked.number > 0) + usize::from(asked.number == 32)] += 1;
        }
        self.behind[usize::from(asked.behind.iter().any(|&byte| byte != 0))] += 1;
    }

    fn add_wrong(&mut self, asked: &Asked) {
        let (entry, start) = (asked.wrong_entry(), asked.wrong_start());
        self.wrong[usize::from(start.is_some()) + usize::from(entry.is_some() && start.is_some())] += 1;
        match (entry, start) {
            (Some(entry), _) => self.wrong_entries[place(entry, asked.list.len())] += 1,
            (None, Some(start)) => self.wrong_starts[place(start, 33)] += 1,
            (None, None) => {}
        }
        for (count, (_, way)) in self.ways.iter_mut().zip(WAYS) {
            *count += u64::from(way(asked));
        }
    }

    /// What was never met, and the rules that would never have been seen.
    pub fn amiss(&self) -> Vec<String> {
        unmet(&self.counts())
    }

    fn counts(&self) -> [Counts; 9] {
        let (ways, rules) = (WAYS.map(|(name, _)| name), OTHERS.map(|(name, _)| name));
        [
            ("groups by their entries", ENTRIES.into_iter().zip(self.entries).collect()),
            ("those that are not empty, by their literals", NUMBERS.into_iter().zip(self.numbers).collect()),
            ("indexes of accepted groups, behind the entries", BEHIND.into_iter().zip(self.behind).collect()),
            ("lent indexes", LENGTHS.into_iter().zip(self.lengths).collect()),
            ("25 of group, by what is wrong", WRONG.into_iter().zip(self.wrong).collect()),
            ("and how", ways.into_iter().zip(self.ways).collect()),
            ("the first wrong entry", PLACES.into_iter().zip(self.wrong_entries).collect()),
            ("the first wrong start, with right entries", PLACES.into_iter().zip(self.wrong_starts).collect()),
            ("another outcome of group by other rules", rules.into_iter().zip(self.another).collect()),
        ]
    }
}

/// Which of [`PLACES`] one of so many is.
fn place(k: usize, count: usize) -> usize {
    if k == 0 { 0 } else { 1 + usize::from(k + 1 == count) }
}

impl fmt::Display for Groups {
    fn fmt(&self, f: &mut fmt::Formatter) -> fmt::Result {
        write_lines(f, &self.counts())
    }
}
