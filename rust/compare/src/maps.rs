//! The maps of several lists that were asked for slots, settled and asked for reasons, and how often another outcome would have come of a rule that is not
//! document 02's: such a rule would be seen in the comparison.

use crate::counts::{Counts, unmet, write_lines};
use crate::differ::{After, Call, Case};
use crate::lengths::{LENGTHS, length};
use crate::map_broken::{broken, needed, scripts_add_up};
use crate::map_lists::{burned, cost};
use crate::map_parts::add_up;
use crate::map_rules::{Told, rules};
use crate::map_together::{CALLS, MapTogether};
use model::cube::RECORD;
use model::selector::MOST_LISTS;
use std::fmt;

const LISTS: [&str; 3] = ["one", "2 to 11", "12"];

const TOO_MANY: [&str; 3] = ["no list", "13", "more"];

const RECORDS: [&str; 4] = ["none", "1 to 64", "65 to 4,096", "more than 4,096"];

const NOT_ADDED_UP: [&str; 4] =
    ["the lists alone", "the scripts alone", "both", "another number of scripts, whose lengths add up"];

const SLOTS: [&str; 3] = ["no bit set", "some", "all"];

const TOO_SHORT: [&str; 2] = ["the output", "work"];

const COSTS: [&str; 3] = ["nothing", "as much as the given one", "less"];

/// What is counted of every call.
struct OfCall {
    call: Call,
    lists: [u64; LISTS.len()],
    too_many: [u64; TOO_MANY.len()],
    records: [u64; RECORDS.len()],
    out: [u64; LENGTHS.len()],
    another: Vec<(&'static str, u64)>,
}

/// Maps by the number and the records of their lists, slots by their bits, settled maps by their cost, refused ones by what is wrong with them, and the
/// rules that would have had another outcome.
pub struct Maps {
    each: [OfCall; CALLS.len()],
    not_added_up: [u64; NOT_ADDED_UP.len()],
    slots: [u64; SLOTS.len()],
    too_short: [u64; TOO_SHORT.len()],
    costs: [u64; COSTS.len()],
    together: MapTogether,
}

impl Default for Maps {
    fn default() -> Maps {
        let each = CALLS.map(|call| OfCall {
            call,
            lists: Default::default(),
            too_many: Default::default(),
            records: Default::default(),
            out: Default::default(),
            another: rules(call).iter().map(|(name, _)| (*name, 0)).collect(),
        });
        let (not_added_up, slots, too_short, costs) = Default::default();
        Maps { each, not_added_up, slots, too_short, costs, together: MapTogether::default() }
    }
}

impl OfCall {
    fn add(&mut self, told: &Told) {
        let (case, lists) = (told.case, told.case.lengths.len());
        match lists {
            _ if told.is(24) => {
                self.too_many[if lists == 0 { 0 } else { 1 + usize::from(lists > MOST_LISTS + 1) }] += 1
            }
            _ if !told.is_accepted() => {}
            _ => {
                self.lists[usize::from(lists > 1) + usize::from(lists == MOST_LISTS)] += 1;
                self.records[match case.input.len() / RECORD {
                    0 => 0,
                    1..=64 => 1,
                    65..=4096 => 2,
                    _ => 3,
                }] += 1;
            }
        }
        if !told.is(24) && !told.is(26) {
            self.out[length(&case.out, needed(case))] += 1;
        }
        for ((_, count), (_, rule)) in self.another.iter_mut().zip(rules(self.call)) {
            *count += u64::from(rule(told));
        }
    }

    fn counts(&self) -> Vec<Counts> {
        let [lists, too_many, records, out, another] = match self.call {
            Call::Slot => SLOT_LINES,
            Call::SettleMap => SETTLE_LINES,
            _ => REASON_LINES,
        };
        let mut counts = vec![
            (lists, LISTS.into_iter().zip(self.lists).collect()),
            (too_many, TOO_MANY.into_iter().zip(self.too_many).collect()),
            (records, RECORDS.into_iter().zip(self.records).collect()),
        ];
        if self.call != Call::Slot {
            counts.push((out, LENGTHS.into_iter().zip(self.out).collect()));
        }
        counts.push((another, self.another.clone()));
        counts
    }
}

const SLOT_LINES: [&str; 5] = [
    "maps asked for a slot, by their lists",
    "24 of slot",
    "by the records of all lists",
    "",
    "another outcome of slot by other rules",
];

const SETTLE_LINES: [&str; 5] = [
    "settled maps by their lists",
    "24 of settle map",
    "by the records of all lists",
    "output buffers of settle map",
    "another outcome of settle map by other rules",
];

const REASON_LINES: [&str; 5] = [
    "maps asked for reasons, by their lists",
    "24 of map reasons",
    "by the records of all lists",
    "output buffers of map reasons",
    "another outcome of map reasons by other rules",
];

impl Maps {
    pub fn add(&mut self, case: &Case, after: &After) {
        let broken = if after.answer[0] == 0 { vec![] } else { broken(case) };
        let told = Told { case, after, broken: &broken };
        self.together.add(case, &after.answer, &broken);
        let each = self.each.iter_mut().find(|each| each.call == case.call).expect("a call on a map");
        each.add(&told);
        match case.call {
            Call::SettleMap => self.add_settled(&told),
            _ if told.is_accepted() => {
                let slot = after.answer[2];
                let all = slot + 1 == 1 << case.lengths.len();
                self.slots[usize::from(slot > 0) + usize::from(all)] += 1;
            }
            _ => {}
        }
    }

    fn add_settled(&mut self, told: &Told) {
        let Case { input, lengths, script, script_lengths, .. } = told.case;
        if told.is(26) {
            let lists = add_up(lengths, input.len());
            self.not_added_up[match (lists, scripts_add_up(told.case)) {
                (false, true) => 0,
                (true, _) if !add_up(script_lengths, script.len()) => 1,
                (true, _) => 3,
                (false, false) => 2,
            }] += 1;
        }
        if told.after.answer[0] == 5 {
            self.too_short[usize::from(told.list().is_some())] += 1;
        }
        if told.is_accepted() {
            let [now, given] = [burned(told.case, told.after), told.case.lists()]
                .map(|lists| lists.into_iter().map(cost).sum::<u64>());
            self.costs[match now {
                0 => 0,
                _ if now == given => 1,
                _ => 2,
            }] += 1;
        }
    }

    /// What was never met, and the rules that would never have been seen.
    pub fn amiss(&self) -> Vec<String> {
        [unmet(&self.counts()), self.together.amiss()].concat()
    }

    fn counts(&self) -> Vec<Counts> {
        let mut counts: Vec<Counts> = self.each.iter().flat_map(OfCall::counts).collect();
        counts.extend([
            ("slots by their bits", SLOTS.into_iter().zip(self.slots).collect()),
            ("26 of settle map, by what does not add up", NOT_ADDED_UP.into_iter().zip(self.not_added_up).collect()),
            ("5 of settle map, by the buffer that is too short", TOO_SHORT.into_iter().zip(self.too_short).collect()),
            ("settled maps cost", COSTS.into_iter().zip(self.costs).collect()),
        ]);
        counts
    }
}

impl fmt::Display for Maps {
    fn fmt(&self, f: &mut fmt::Formatter) -> fmt::Result {
        write_lines(f, &self.counts())?;
        write!(f, "{}", self.together)
    }
}
