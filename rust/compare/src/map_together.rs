//! Which rules maps of several lists break together, and for which of their lists they are refused.

use crate::differ::{Call, Case};
use crate::map_broken::{Broken, STEPS_OF_A_SCRIPT, class, of_a_list, of_the_map};
use crate::map_lists::NO_LIST;
use model::refusal::ORDERS;
use model::selector::MOST_LISTS;
use std::collections::BTreeMap;
use std::fmt;

pub const CALLS: [Call; 3] = [Call::Slot, Call::SettleMap, Call::MapReasons];

/// Where the other rule is broken.
#[derive(Clone, Copy, PartialEq, Eq, PartialOrd, Ord)]
enum Where {
    TheMap,
    AList,
    TheSameList,
    ALaterList,
}

#[derive(Default)]
pub struct MapTogether {
    /// By call, the number that is answered, and another that was not, though its rule was broken too.
    met: BTreeMap<(usize, u64, Where, u64), u64>,
    /// By call and number, the list that is refused.
    lists: BTreeMap<(usize, u64), [u64; MOST_LISTS]>,
    /// The first call that was refused with another number, or for another list, than the first of the rules that it breaks.
    out_of_order: Option<String>,
}

impl MapTogether {
    pub fn add(&mut self, case: &Case, answer: &[u64; 8], broken: &[Broken]) {
        let call = case.call as usize;
        let Some(&(first, list)) = broken.first() else { return self.expect(answer[0] == 0, case, answer) };
        let number = list.map_or(NO_LIST, |list| list as u64);
        self.expect([answer[0], answer[3]] == [first, number], case, answer);
        if let Some(list) = list {
            self.lists.entry((call, first)).or_default()[list] += 1;
        }
        for &(other, of) in &broken[1..] {
            let at = match (list, of) {
                (_, None) => Where::TheMap,
                (None, Some(_)) => Where::AList,
                (Some(list), Some(of)) if list == of => Where::TheSameList,
                _ => Where::ALaterList,
            };
            *self.met.entry((call, class(first), at, class(other))).or_default() += 1;
        }
    }

    fn expect(&mut self, first: bool, case: &Case, answer: &[u64; 8]) {
        if !first {
            self.out_of_order.get_or_insert_with(|| format!("not the first of the broken rules: {answer:?}\n{case}"));
        }
    }

    fn met(&self, call: Call, first: u64, at: Where, other: u64) -> u64 {
        self.met.get(&(call as usize, first, at, other)).copied().unwrap_or(0)
    }

    /// The pairs of an order and the lists that were not met, and a wrong order.
    pub fn amiss(&self) -> Vec<String> {
        let mut amiss = Vec::new();
        for call in CALLS {
            let name = ORDERS[call as usize].0;
            for (first, at, others) in pairs(call) {
                let unmet = others.into_iter().filter(|&other| self.met(call, first, at, other) == 0);
                let not_met = |other| format!("{name}: {} before {} {} not met", rule(first), rule(other), place(at));
                amiss.extend(unmet.map(not_met));
            }
            for (number, lists) in self.of_lists(call) {
                // The number of variables and the label are those of all lists, so that the first is refused for them.
                let last = if matches!(number, 1 | 6) { 1 } else { MOST_LISTS };
                let unmet = (0..MOST_LISTS).filter(|&k| (lists[k] > 0) != (k < last));
                amiss.extend(unmet.map(|k| format!("{name}: {number} of list {k} met {} times", lists[k])));
            }
        }
        amiss.extend(self.out_of_order.clone());
        amiss
    }

    /// By each number of a list, how often each list was refused with it.
    fn of_lists(&self, call: Call) -> impl Iterator<Item = (u64, [u64; MOST_LISTS])> {
        let map = of_the_map(call).len();
        let numbers = ORDERS[call as usize].1[map..].iter();
        numbers.map(move |&number| (number, self.lists.get(&(call as usize, number)).copied().unwrap_or_default()))
    }
}

/// The rules that can be broken together: the first, and where which others are.
fn pairs(call: Call) -> Vec<(u64, Where, Vec<u64>)> {
    let (map, list) = (of_the_map(call), of_a_list(call));
    let mut pairs = Vec::new();
    for (k, &first) in map.iter().enumerate() {
        pairs.push((first, Where::TheMap, map[k + 1..].to_vec()));
        pairs.push((first, Where::AList, list.to_vec()));
    }
    for (k, &first) in list.iter().enumerate() {
        // A step is looked at where nothing else is broken; 1 is broken by all lists or by none.
        let others = list[k + 1..].iter().copied().filter(|&other| other != STEPS_OF_A_SCRIPT);
        pairs.push((first, Where::TheSameList, others.collect()));
        let not = if first == 1 { STEPS_OF_A_SCRIPT } else { 1 };
        pairs.push((first, Where::ALaterList, list.iter().copied().filter(|&other| other != not).collect()));
    }
    pairs.retain(|(_, _, others)| !others.is_empty());
    pairs
}

/// A rule by its number, or those of the steps.
fn rule(number: u64) -> String {
    if number == STEPS_OF_A_SCRIPT { "a step".into() } else { number.to_string() }
}

fn place(at: Where) -> &'static str {
    match at {
        Where::TheMap => "of the map",
        Where::AList => "of a list",
        Where::TheSameList => "of the same list",
        Where::ALaterList => "of a list after it",
    }
}

impl fmt::Display for MapTogether {
    fn fmt(&self, f: &mut fmt::Formatter) -> fmt::Result {
        for call in CALLS {
            let name = ORDERS[call as usize].0;
            for (number, lists) in self.of_lists(call) {
                writeln!(f, "{name} refused by {number}, by the number of the list: {lists:?}")?;
            }
            for (first, at, others) in pairs(call) {
                let others =
                    others.iter().map(|&other| format!("{} {}", rule(other), self.met(call, first, at, other)));
                let others = others.collect::<Vec<_>>().join(", ");
                writeln!(f, "{name} refused by {}, and broken too {}: {others}", rule(first), place(at))?;
            }
        }
        Ok(())
    }
}
