//! The shared lists that were checked and valued, and how often another answer would have come of a rule that is not document 02's: such a rule
//! would be seen in the comparison.

use crate::cases;
use crate::counts::{Counts, unmet, write_lines};
use crate::differ::{Call, Case};
use crate::shared_list_rules::{BY_BOTH, BY_PARITY, OTHER_CHECKS, OTHER_VALUES, Records, records};
use model::cube::is_true;
use model::shared::SHARED_RECORD;
use std::fmt;

const RECORDS: [&str; 5] = ["none", "one", "2 to 256", "257 to 4,095", "4,096"];

const BAD: [&str; 3] = ["its cube", "no outputs", "both"];

const PLACES: [&str; 3] = ["the first record", "one between", "the last"];

const ONES: [&str; 4] = ["none", "one", "2 to 31", "32"];

const TRUES: [&str; 4] = ["none", "one", "two", "three or more"];

/// Lists by their records, bad ones by what is wrong with the lowest bad record and by where it stands, words by their outputs that are 1 and by the
/// true products of their lists, and the rules that would have had another answer.
#[derive(Default)]
pub struct SharedLists {
    records: [u64; RECORDS.len()],
    bad: [u64; BAD.len()],
    places: [u64; PLACES.len()],
    ones: [u64; ONES.len()],
    trues: [u64; TRUES.len()],
    another_check: [u64; OTHER_CHECKS.len()],
    another_value: [u64; OTHER_VALUES.len()],
}

impl SharedLists {
    /// Adds a call of shared check or shared value.
    pub fn add(&mut self, case: &Case, answer: &[u64; 8]) {
        let count = case.input.len() / SHARED_RECORD;
        match answer[0] {
            0 => {
                self.records[match count {
                    0 | 1 => count,
                    2..=256 => 2,
                    cases::RECORDS => 4,
                    _ => 3,
                }] += 1
            }
            4 => {}
            _ => return,
        }
        let records = records(case);
        let bad = BY_BOTH(case, &records);
        if let Some(place) = bad {
            self.add_bad(&records, place);
        }
        for (count, (_, rule)) in self.another_check.iter_mut().zip(OTHER_CHECKS) {
            *count += u64::from(rule(case, &records) != bad);
        }
        if case.call == Call::SharedValue && answer[0] == 0 {
            self.add_word(case, records, answer[2]);
        }
    }

    fn add_bad(&mut self, records: &Records, place: usize) {
        let (cube, outputs) = &records[place];
        self.bad[match (cube, outputs) {
            (Some(_), _) => 1,
            (None, 0) => 2,
            (None, _) => 0,
        }] += 1;
        self.places[match place {
            0 => 0,
            _ if place + 1 < records.len() => 1,
            _ => 2,
        }] += 1;
    }

    fn add_word(&mut self, case: &Case, records: Records, word: u64) {
        let list: Vec<_> = records.into_iter().filter_map(|(cube, outputs)| Some((cube?, outputs))).collect();
        let trues = list.iter().filter(|(cube, _)| is_true(cube, case.number)).count();
        self.trues[trues.min(3)] += 1;
        self.ones[match word.count_ones() {
            0 => 0,
            1 => 1,
            32 => 3,
            _ => 2,
        }] += 1;
        let right = BY_PARITY(&list, case.number);
        assert_eq!(u64::from(right), word, "a third way to the word\n{case}");
        for (count, (_, rule)) in self.another_value.iter_mut().zip(OTHER_VALUES) {
            *count += u64::from(rule(&list, case.number) != right);
        }
    }

    /// What was never met, and the rules that would never have been seen.
    pub fn amiss(&self) -> Vec<String> {
        unmet(&self.counts())
    }

    fn counts(&self) -> [Counts; 7] {
        let (checks, values) = (OTHER_CHECKS.map(|(name, _)| name), OTHER_VALUES.map(|(name, _)| name));
        [
            ("shared lists by their records", RECORDS.into_iter().zip(self.records).collect()),
            ("the lowest bad record, by", BAD.into_iter().zip(self.bad).collect()),
            ("it is", PLACES.into_iter().zip(self.places).collect()),
            ("words by their outputs that are 1", ONES.into_iter().zip(self.ones).collect()),
            ("by their true products", TRUES.into_iter().zip(self.trues).collect()),
            ("another answer of shared check by other rules", checks.into_iter().zip(self.another_check).collect()),
            ("another word by other rules", values.into_iter().zip(self.another_value).collect()),
        ]
    }
}

impl fmt::Display for SharedLists {
    fn fmt(&self, f: &mut fmt::Formatter) -> fmt::Result {
        write_lines(f, &self.counts())
    }
}
