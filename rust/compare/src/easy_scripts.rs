//! The easy scripts that were written, and how often another outcome would have come of a rule that is not document 02's:
//! such a rule would be seen in the comparison.

use crate::counts::{Counts, unmet, write_lines};
use crate::differ::Case;
use crate::lengths::{LENGTHS, length};
use crate::paths::{Pair, Path, pairs};
use model::cube::{Cube, RECORD};
use model::script::{STEP, STEPS, Step};
use std::cmp::Reverse;
use std::fmt;

/// A call that came as far as its buffers.
struct Easy<'a> {
    case: &'a Case,
    records: usize,
    /// The number of steps and whether it has finished, if it was accepted.
    written: Option<(usize, bool)>,
    /// None of a long list.
    path: Option<Path>,
}

impl Easy<'_> {
    fn of<'a>(case: &'a Case, answer: &[u64; 8]) -> Option<Easy<'a>> {
        let written = match *answer {
            [0, _, steps, finished, ..] => Some((steps as usize, finished == 1)),
            [5, ..] => None,
            _ => return None,
        };
        let given = case.cubes();
        let path = (given.len() <= Path::RECORDS).then(|| Path::of(&given));
        Some(Easy { case, records: given.len(), written, path })
    }

    fn work_needed(&self) -> usize {
        RECORD * self.records
    }

    fn script_needed(&self) -> usize {
        STEP * self.records.min(STEPS)
    }

    fn has_work(&self) -> bool {
        self.case.work.len() >= self.work_needed()
    }

    fn has_script(&self) -> bool {
        self.case.script.len() >= self.script_needed()
    }

    /// The path of an accepted call.
    fn taken(&self) -> Option<&Path> {
        self.written.and(self.path.as_ref())
    }

    /// Whether an accepted call would have taken another pair, by a rule that is given a list and the i of the step before.
    fn takes_another(&self, rule: impl Fn(&[Cube], usize) -> Option<Pair>) -> bool {
        self.taken().is_some_and(|path| path.takes_another(rule))
    }

    /// Whether there were bytes other than zero where an accepted call has zeros behind the end list.
    fn clears(&self) -> bool {
        let behind = |path: &Path| &self.case.work[RECORD * path.end().len()..];
        self.taken().is_some_and(|path| behind(path).iter().any(|&byte| byte != 0))
    }
}

/// Whether another outcome would have come.
type Rule = fn(&Easy) -> bool;

const OTHERS: [(&str, Rule); 9] = [
    ("the lowest j before the lowest i", |easy| {
        easy.takes_another(|list, _| pairs(list, 1).min_by_key(|&(i, j)| (j, i)))
    }),
    ("the highest j", |easy| easy.takes_another(|list, _| pairs(list, 1).min_by_key(|&(i, j)| (i, Reverse(j))))),
    ("a pair that differs in two variables", |easy| easy.takes_another(|list, _| pairs(list, 2).next())),
    ("no look in front of the last i", |easy| {
        easy.takes_another(|list, last| pairs(list, 1).find(|&(i, _)| i >= last))
    }),
    ("the rest of work left", |easy| easy.clears()),
    ("finished always", |easy| easy.written.is_some_and(|(_, finished)| !finished)),
    ("finished below 1,024 steps alone", |easy| easy.written == Some((STEPS, true))),
    ("room for a step of every record", |easy| easy.written.is_some() && easy.case.script.len() < STEP * easy.records),
    ("room for the written steps alone", |easy| {
        let written = easy.path.as_ref().map(|path| path.steps().len());
        easy.has_work() && !easy.has_script() && written.is_some_and(|steps| easy.case.script.len() >= STEP * steps)
    }),
];

const OPERATIONS: [&str; 2] = ["drops", "joins"];

const NUMBERS: [&str; 4] = ["none", "one", "two", "three or more"];

const ENDS: [&str; 3] = ["finished", "finished after 1,024 steps", "stopped there"];

const TOO_SHORT: [&str; 3] = ["work", "the script's", "both"];

/// Scripts by their steps and their ends, buffers by their length, refusals by the buffer that is too short, and the rules
/// that would have had another outcome.
#[derive(Default)]
pub struct EasyScripts {
    /// Of lists that are not long.
    operations: [u64; OPERATIONS.len()],
    numbers: [u64; NUMBERS.len()],
    ends: [u64; ENDS.len()],
    work: [u64; LENGTHS.len()],
    script: [u64; LENGTHS.len()],
    too_short: [u64; TOO_SHORT.len()],
    another: [u64; OTHERS.len()],
}

impl EasyScripts {
    /// Adds a call of write script, if it came as far as its buffers.
    pub fn add(&mut self, case: &Case, answer: &[u64; 8]) {
        let Some(easy) = Easy::of(case, answer) else { return };
        match easy.written {
            Some((steps, finished)) => {
                self.numbers[steps.min(3)] += 1;
                self.ends[if !finished { 2 } else { usize::from(steps == STEPS) }] += 1;
            }
            None => self.too_short[if easy.has_work() { 1 } else { 2 * usize::from(!easy.has_script()) }] += 1,
        }
        for step in easy.taken().into_iter().flat_map(Path::steps) {
            self.operations[usize::from(matches!(step, Step::Join { .. }))] += 1;
        }
        self.work[length(&case.work, easy.work_needed())] += 1;
        self.script[length(&case.script, easy.script_needed())] += 1;
        for (count, (_, rule)) in self.another.iter_mut().zip(OTHERS) {
            *count += u64::from(rule(&easy));
        }
    }

    /// What was never met, and the rules that would never have been seen.
    pub fn amiss(&self) -> Vec<String> {
        unmet(&self.counts())
    }

    fn counts(&self) -> [Counts; 7] {
        let rules = OTHERS.map(|(name, _)| name);
        [
            ("steps of easy scripts", OPERATIONS.into_iter().zip(self.operations).collect()),
            ("easy scripts by their steps", NUMBERS.into_iter().zip(self.numbers).collect()),
            ("easy scripts by their ends", ENDS.into_iter().zip(self.ends).collect()),
            ("work buffers for easy scripts", LENGTHS.into_iter().zip(self.work).collect()),
            ("script buffers for easy scripts", LENGTHS.into_iter().zip(self.script).collect()),
            ("5 of write script, by the buffer that is too short", TOO_SHORT.into_iter().zip(self.too_short).collect()),
            ("another outcome of write script by other rules", rules.into_iter().zip(self.another).collect()),
        ]
    }
}

impl fmt::Display for EasyScripts {
    fn fmt(&self, f: &mut fmt::Formatter) -> fmt::Result {
        write_lines(f, &self.counts())
    }
}
