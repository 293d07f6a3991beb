//! What calls on maps of several lists would have come to by rules that are not document 02's.

use crate::callers::by_model;
use crate::differ::{After, Call, Case};
use crate::map_broken::{Broken, needed, scripts_add_up};
use crate::map_lists::NO_LIST;
use crate::map_parts::end_to_end;
use crate::map_reason_rules::REASONS;
use crate::map_settle_rules::SETTLES;
use model::cube::RECORD;
use model::selector::{MOST_LISTS, PerList};

/// A call on a map, what it has left, and the rules that it breaks.
pub struct Told<'a> {
    pub case: &'a Case,
    pub after: &'a After,
    pub broken: &'a [Broken],
}

/// Whether another outcome would have come.
pub type Rule = (&'static str, fn(&Told) -> bool);

impl Told<'_> {
    /// Records and steps that a call may have to be made once more by the model: more would take too long.
    const MOST: usize = 100;

    pub fn is_accepted(&self) -> bool {
        self.after.answer[0] == 0
    }

    /// Whether it is refused with this number, and for no list.
    pub fn is(&self, number: u64) -> bool {
        [self.after.answer[0], self.after.answer[3]] == [number, NO_LIST]
    }

    /// The list that is refused.
    pub fn list(&self) -> Option<usize> {
        let [number, _, _, list, ..] = self.after.answer;
        (number != 0 && list != NO_LIST).then_some(list as usize)
    }

    fn also(&self, number: u64) -> bool {
        self.broken.contains(&(number, None))
    }

    /// What the model makes of another case, where this one is short.
    pub fn instead(&self, other: impl FnOnce() -> Case) -> Option<After> {
        let Case { input, script, n, .. } = self.case;
        let short = input.len() + script.len() <= RECORD * Told::MOST && !(7..=8).contains(n);
        short.then(|| by_model(&other()))
    }

    /// The records of the lists in front of one.
    pub fn records_before(&self, list: usize) -> usize {
        self.case.lists()[..list].iter().map(|list| list.len() / RECORD).sum()
    }

    /// What an output that is just long enough would have had in it, where the one that was lent is too short and the map is accepted but for that.
    pub fn with_room(&self) -> Option<After> {
        let refused = self.is(5).then_some(self.case)?;
        let left = self.instead(|| Case { out: vec![0; needed(refused)], ..refused.clone() })?;
        (left.answer[0] == 0).then_some(left)
    }

    /// What the lists in front of the refused one would have left, if there were no others.
    pub fn before_the_refused(&self) -> Option<After> {
        let lists = self.list().filter(|&list| list > 0)?;
        let first =
            |parts: Vec<&[u8]>| end_to_end(&parts[..lists].iter().map(|part| part.to_vec()).collect::<Vec<_>>());
        self.instead(|| {
            let (input, lengths) = first(self.case.lists());
            let (script, script_lengths) = first(self.case.scripts());
            Case { input, lengths, script, script_lengths, ..self.case.clone() }
        })
    }
}

/// Numbers that are added up.
pub fn ends(numbers: &PerList, lists: usize) -> PerList {
    std::array::from_fn(|k| if k < lists { numbers[..=k].iter().sum() } else { 0 })
}

pub fn is_garbage(bytes: &[u8]) -> bool {
    bytes.iter().any(|&byte| byte != 0)
}

fn sum(lengths: &[u64]) -> u128 {
    lengths.iter().map(|&length| u128::from(length)).sum()
}

/// Whether lengths that don't add up do so by another rule for their sum.
fn else_adds_up(told: &Told, rule: fn(&[u64], usize) -> bool) -> bool {
    let Case { input, lengths, script, script_lengths, call, .. } = told.case;
    let one_a_list = *call != Call::SettleMap || lengths.len() == script_lengths.len();
    told.is(26) && one_a_list && rule(lengths, input.len()) && rule(script_lengths, script.len())
}

/// Of all three calls.
const EVERY: [Rule; 12] = [
    ("26 before 24", |told| told.is(24) && told.also(26)),
    ("no list taken", |told| told.is(24) && told.case.lengths.is_empty()),
    ("thirteen lists taken", |told| told.is(24) && told.case.lengths.len() == MOST_LISTS + 1),
    ("twelve lists refused", |told| !told.is(24) && told.case.lengths.len() == MOST_LISTS),
    ("lengths added modulo 2^64", |told| {
        else_adds_up(told, |lengths, bytes| {
            lengths.iter().fold(0u64, |sum, &one| sum.wrapping_add(one)) == bytes as u64
        })
    }),
    ("bytes left over", |told| {
        told.is(26) && scripts_add_up(told.case) && sum(&told.case.lengths) < told.case.input.len() as u128
    }),
    ("the last list as long as the bytes go", |told| {
        let front = &told.case.lengths[..told.case.lengths.len().saturating_sub(1)];
        told.is(26) && scripts_add_up(told.case) && sum(front) <= told.case.input.len() as u128
    }),
    ("list 0 where no list is refused", |told| told.after.answer[3] == NO_LIST),
    ("the list counted from 1", |told| told.list().is_some()),
    ("the last refused list", |told| {
        let after = |list: usize| told.broken.iter().any(|(_, of)| of.is_some_and(|of| of > list));
        told.list().is_some_and(after)
    }),
    ("a record's place counted over all lists", |told| {
        told.after.answer[0] == 4 && told.list().is_some_and(|list| told.records_before(list) > 0)
    }),
    ("1 to 4 of all lists before the rest", |told| {
        let later = |list: usize| told.broken.iter().any(|&(number, of)| number <= 4 && of > Some(list));
        told.after.answer[0] > 4 && told.list().is_some_and(later)
    }),
];

/// Of the two that take a label.
const LABELLED: [Rule; 4] = [
    ("6 before 1 to 4", |told| {
        matches!(told.after.answer[0], 2..=4) && told.broken.iter().any(|&(number, _)| number == 6)
    }),
    ("one bit for all lists", |told| {
        told.is_accepted() && told.after.answer[2] != u64::from(told.after.answer[2].count_ones() % 2)
    }),
    ("bit k from list k + 1", |told| told.is_accepted() && told.after.answer[2] != told.after.answer[2] >> 1),
    ("list 0 for the last bit", |told| {
        let (slot, lists) = (told.after.answer[2], told.case.lengths.len());
        told.is_accepted() && (0..lists).any(|k| slot >> k & 1 != slot >> (lists - 1 - k) & 1)
    }),
];

/// Of the two that have an output.
const WRITING: [Rule; 6] = [
    ("5 for the output before 26", |told| told.is(26) && told.also(5)),
    ("5 for the output before 24", |told| told.is(24) && told.also(5)),
    ("5 for the output after the lists", |told| told.is(5) && told.broken.len() > 1),
    ("the output as it was where a list is refused", |told| told.list().is_some() && is_garbage(&told.case.out)),
    ("the numbers as they were where a list is refused", |told| {
        told.list().is_some() && told.case.numbers != [0; MOST_LISTS]
    }),
    ("the numbers as they were after the last list's", |told| {
        told.is_accepted() && told.case.numbers[told.case.lengths.len()..].iter().any(|&number| number != 0)
    }),
];

/// The rules that a call is tried with.
pub fn rules(call: Call) -> Vec<Rule> {
    match call {
        Call::Slot => [&EVERY[..], &LABELLED].concat(),
        Call::SettleMap => [&EVERY[..], &WRITING, &SETTLES].concat(),
        _ => [&EVERY[..], &LABELLED, &WRITING, &REASONS].concat(),
    }
}
