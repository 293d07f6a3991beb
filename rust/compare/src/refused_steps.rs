//! What the refused calls say of their steps: how many variables differed, and which rules were broken together.

use crate::broken::{self, AT_A_STEP, TOGETHER, can_differ_in};
use crate::differ::{Call, Case};
use crate::shared_broken::{self, AT_A_SHARED_STEP, SHARED_TOGETHER};
use model::refusal::ORDERS;
use std::collections::BTreeMap;
use std::fmt;
use std::ops::RangeInclusive;

/// The calls that do steps on plain lists, and those that do on shared ones.
const PLAIN: [Call; 3] = [Call::Run, Call::Settle, Call::RunIndexed];
const SHARED: [Call; 2] = [Call::SharedRun, Call::SharedSettle];

/// The refusals that say how many variables differ.
const CUBES: [u64; 4] = [16, 17, 18, 19];

/// The numbers of differing variables that are counted together.
const COLUMNS: [RangeInclusive<u64>; 7] = [0..=0, 1..=1, 2..=2, 3..=3, 4..=15, 16..=31, 32..=32];

#[derive(Default)]
pub struct RefusedSteps {
    /// Refusals at a step by whether steps were done before it.
    at_the_first_step: u64,
    at_a_later_step: u64,
    /// By call, refusal number and number of differing variables; all refusals of all calls.
    differing: BTreeMap<(usize, u64, u64), u64>,
    /// By call, the number that is answered and another that was not, though its rule was broken too.
    together: BTreeMap<(usize, u64, u64), u64>,
    /// The first step that was refused with another number than the first of the rules that it breaks.
    out_of_order: Option<String>,
}

impl RefusedSteps {
    pub fn add(&mut self, case: &Case, answer: &[u64; 8]) {
        let (call, [number, place, differing, ..]) = (case.call as usize, *answer);
        *self.differing.entry((call, number, differing)).or_default() += 1;
        let at_a_step = refusals(case.call).contains(&number);
        if !at_a_step && number != 9 || !with_steps().any(|other| other == case.call) {
            return;
        }
        let broken = match case.call.is_shared() {
            true => shared_broken::broken_in(case, place as usize),
            false => broken::broken_in(case, place as usize),
        };
        if at_a_step && broken.first() != Some(&number) {
            let difference = || format!("a step that breaks {broken:?} is answered {answer:?}\n{case}");
            self.out_of_order.get_or_insert_with(difference);
        }
        for &other in broken.iter().filter(|&&other| other != number) {
            *self.together.entry((call, number, other)).or_default() += 1;
        }
        match place {
            _ if !at_a_step => {}
            0 => self.at_the_first_step += 1,
            _ => self.at_a_later_step += 1,
        }
    }

    /// Numbers of differing variables that a refusal can't have; numbers that it can have and rules broken together that
    /// were not met; and a wrong order.
    pub fn amiss(&self) -> Vec<String> {
        let mut amiss = Vec::new();
        for (&(call, number, differing), count) in &self.differing {
            if !can_differ_in(number, differing) {
                amiss.push(format!("{}: {number} with {differing} differing met {count} times", ORDERS[call].0));
            }
        }
        for call in with_steps() {
            let name = ORDERS[call as usize].0;
            for (number, column) in CUBES.iter().flat_map(|&number| COLUMNS.map(|column| (number, column))) {
                if can_differ_in(number, *column.end()) && self.met_differing(call, number, &column) == 0 {
                    amiss.push(format!("{name}: {number} with {} differing not met", heading(&column)));
                }
            }
            for (first, other) in pairs(call).filter(|&pair| self.met_together(call, pair) == 0) {
                amiss.push(format!("{name}: {first} before {other} not met"));
            }
        }
        amiss.extend(self.out_of_order.clone());
        amiss
    }

    fn met_differing(&self, call: Call, number: u64, column: &RangeInclusive<u64>) -> u64 {
        column.clone().filter_map(|differing| self.differing.get(&(call as usize, number, differing))).sum()
    }

    fn met_together(&self, call: Call, (first, other): (u64, u64)) -> u64 {
        self.together.get(&(call as usize, first, other)).copied().unwrap_or(0)
    }
}

fn with_steps() -> impl Iterator<Item = Call> {
    PLAIN.into_iter().chain(SHARED)
}

/// The refusals at a step of a call.
fn refusals(call: Call) -> &'static [u64] {
    if call.is_shared() { &AT_A_SHARED_STEP } else { &AT_A_STEP }
}

/// What one step can break together; and 9, which is tested of all steps before the first is done.
fn pairs(call: Call) -> impl Iterator<Item = (u64, u64)> {
    let of_shared = SHARED_TOGETHER.into_iter().filter(move |_| call.is_shared());
    TOGETHER.into_iter().chain(of_shared).chain(refusals(call).iter().map(|&number| (9, number)))
}

fn heading(column: &RangeInclusive<u64>) -> String {
    let (least, most) = (column.start(), column.end());
    if least == most { least.to_string() } else { format!("{least} to {most}") }
}

impl fmt::Display for RefusedSteps {
    fn fmt(&self, f: &mut fmt::Formatter) -> fmt::Result {
        writeln!(f, "refused at the first step: {}, at a later one: {}", self.at_the_first_step, self.at_a_later_step)?;
        let line = |f: &mut fmt::Formatter, name: &str, number: &str, cells: Vec<String>| {
            let cells: String = cells.iter().map(|cell| format!("{cell:>9}")).collect();
            writeln!(f, "{name:13}{number:>12}{cells}")
        };
        line(f, "differing", "refusal", COLUMNS.iter().map(heading).collect())?;
        for (call, number) in with_steps().flat_map(|call| CUBES.map(|number| (call, number))) {
            let cells = COLUMNS.iter().map(|column| self.met_differing(call, number, column).to_string());
            line(f, ORDERS[call as usize].0, &number.to_string(), cells.collect())?;
        }
        let firsts = [9, 10, 11, 16, 17, 18, 19];
        for (calls, first) in [&PLAIN[..], &SHARED].iter().flat_map(|calls| firsts.map(|first| (calls, first))) {
            let others: Vec<(u64, u64)> = pairs(calls[0]).filter(|pair| pair.0 == first).collect();
            if others.is_empty() {
                continue;
            }
            line(f, "before", &first.to_string(), others.iter().map(|pair| pair.1.to_string()).collect())?;
            for &call in *calls {
                let cells = others.iter().map(|&pair| self.met_together(call, pair).to_string());
                line(f, ORDERS[call as usize].0, "both broken", cells.collect())?;
            }
        }
        Ok(())
    }
}
