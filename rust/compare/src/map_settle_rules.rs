//! What the settling of a map of several lists would have come to by rules that are not document 02's.

use crate::broken::AT_A_STEP;
use crate::differ::{After, Case};
use crate::map_lists::{burned, cost};
use crate::map_parts::{add_up, end_to_end};
use crate::map_rules::{Rule, Told, ends, is_garbage};
use model::cube::RECORD;
use model::script::STEP;

/// Whether an accepted map has another outcome with other scripts: list k with that of another list.
fn with_scripts(told: &Told, of: fn(usize, usize) -> usize) -> bool {
    let scripts = told.case.scripts();
    let others: Vec<Vec<u8>> = (0..scripts.len()).map(|k| scripts[of(k, scripts.len())].to_vec()).collect();
    let (script, script_lengths) = end_to_end(&others);
    let same = |other: After| other.answer == told.after.answer && other.out == told.after.out;
    let accepted = told.is_accepted().then_some(told);
    let other = accepted.and_then(|told| told.instead(|| Case { script, script_lengths, ..told.case.clone() }));
    other.is_some_and(|other| !same(other))
}

/// Products, and those of them without a literal, by list.
fn products(lists: &[&[u8]]) -> Vec<(u64, u64)> {
    let bare = |record: &&[u8]| record[..RECORD / 2] == [0; RECORD / 2];
    let of = |list: &&[u8]| (list.chunks(RECORD).len() as u64, list.chunks(RECORD).filter(bare).count() as u64);
    lists.iter().map(of).collect()
}

/// Whether an accepted map costs something else by another rule.
fn else_costs(told: &Told, rule: fn(&[(u64, u64)]) -> u64) -> bool {
    told.is_accepted() && rule(&products(&burned(told.case, told.after))) != told.after.answer[2]
}

/// The work buffer's capacity.
fn capacity(told: &Told) -> usize {
    (told.case.work.len() / RECORD).min(4096)
}

/// The records of all lists.
fn records(told: &Told) -> usize {
    told.records_before(told.case.lengths.len())
}

/// Whether the map's own tests are passed.
fn comes_to_its_lists(told: &Told) -> bool {
    told.is_accepted() || told.list().is_some()
}

pub const SETTLES: [Rule; 22] = [
    ("a script of the list before", |told| with_scripts(told, |k, lists| (k + lists - 1) % lists)),
    ("the first script for all lists", |told| with_scripts(told, |_, _| 0)),
    ("any number of scripts", |told| {
        let Case { input, lengths, script, script_lengths, .. } = told.case;
        told.is(26) && add_up(lengths, input.len()) && add_up(script_lengths, script.len())
    }),
    ("the lengths of scripts not looked at", |told| {
        let Case { input, lengths, script_lengths, .. } = told.case;
        told.is(26) && add_up(lengths, input.len()) && lengths.len() == script_lengths.len()
    }),
    ("no zeros after the last burned list", |told| {
        let end = told.after.numbers.iter().sum::<u64>() as usize;
        told.is_accepted() && is_garbage(&told.case.out[end..])
    }),
    ("burned lists where the given ones stood", |told| {
        let lists = told.case.lists();
        let at = |k: usize| lists[..k].iter().map(|list| list.len()).sum::<usize>();
        let stood = |(k, list): (usize, &[u8])| told.after.out[at(k)..].starts_with(list);
        told.is_accepted() && !burned(told.case, told.after).into_iter().enumerate().all(stood)
    }),
    ("the lengths of the given lists", |told| {
        told.is_accepted() && told.after.numbers[..told.case.lengths.len()] != told.case.lengths
    }),
    ("lengths in records", |told| told.is_accepted() && told.after.numbers.iter().any(|&length| length != 0)),
    ("ends for lengths", |told| {
        told.is_accepted() && ends(&told.after.numbers, told.case.lengths.len()) != told.after.numbers
    }),
    ("products for the cost", |told| else_costs(told, |lists| lists.iter().map(|(products, _)| products).sum())),
    ("the constant free once for the whole map", |told| {
        else_costs(told, |lists| {
            let constants: u64 = lists.iter().map(|(_, constants)| constants).sum();
            lists.iter().map(|(products, _)| products).sum::<u64>() - constants.min(1)
        })
    }),
    ("the constant free each time", |told| {
        else_costs(told, |lists| lists.iter().map(|(products, constants)| products - constants).sum())
    }),
    ("the cost of the given lists", |told| {
        told.is_accepted() && told.case.lists().into_iter().map(cost).sum::<u64>() != told.after.answer[2]
    }),
    ("5 by the burned lists", |told| {
        told.with_room().is_some_and(|left| left.numbers.iter().sum::<u64>() <= told.case.out.len() as u64)
    }),
    ("room for the records", |told| told.is(5) && told.case.out.len() / RECORD >= records(told)),
    ("at most 4,096 records in the output", |told| comes_to_its_lists(told) && records(told) > 4096),
    ("work for all lists together", |told| told.is_accepted() && capacity(told) < records(told)),
    ("work as settle leaves it at a refused check", |told| {
        // Every list that was settled before it has cleared work.
        told.list() == Some(0) && told.after.answer[0] <= 9 && is_garbage(&told.case.work)
    }),
    ("lists settled before the refused one left in the output", |told| {
        told.before_the_refused().is_some_and(|left| is_garbage(&left.out))
    }),
    ("and their lengths", |told| {
        told.before_the_refused().is_some_and(|left| left.numbers.iter().any(|&length| length != 0))
    }),
    ("a step's place counted over all scripts", |told| {
        let steps = |list: usize| told.case.scripts()[..list].iter().map(|script| script.len() / STEP).sum::<usize>();
        let number = told.after.answer[0];
        (number == 9 || AT_A_STEP.contains(&number)) && told.list().is_some_and(|list| steps(list) > 0)
    }),
    ("no third answer", |told| told.list().is_some() && told.after.answer[2] != 0),
];
