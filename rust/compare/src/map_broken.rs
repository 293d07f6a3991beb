//! The rules that a map of several lists breaks, each looked at by itself: the first of them is answered, of the map before the lists, and of the lists in
//! turn.

use crate::broken::AT_A_STEP;
use crate::callers::by_model;
use crate::differ::{Call, Case};
use crate::map_parts::add_up;
use model::cube::{PLACE, RECORD, decoded};
use model::script::{self, STEP, STEPS};
use model::selector::MOST_LISTS;

/// A rule that is broken: the number, and the list that it is broken by.
pub type Broken = (u64, Option<usize>);

/// All refusals at a step as one, by the first of them.
pub const STEPS_OF_A_SCRIPT: u64 = AT_A_STEP[0];

/// The rules that a list is tested by, in their order; the last of settle are those of its steps.
pub fn of_a_list(call: Call) -> &'static [u64] {
    match call {
        Call::SettleMap => &[1, 2, 3, 4, 5, 7, 8, 9, STEPS_OF_A_SCRIPT],
        _ => &[1, 2, 3, 4, 6],
    }
}

/// The rules that a map is tested by before its lists are.
pub fn of_the_map(call: Call) -> &'static [u64] {
    if call == Call::Slot { &[24, 26] } else { &[24, 26, 5] }
}

/// In the order in which they are tested. Where the lengths don't add up the lists are what they cut out of the bytes that are there. A step is looked at
/// where the list and its script break nothing else.
pub fn broken(case: &Case) -> Vec<Broken> {
    let lists = case.lists().len();
    let map = of_the_map(case.call).iter().filter(|&&number| is_broken(case, number)).map(|&number| (number, None));
    map.chain((0..lists).flat_map(|k| broken_by_list(case, k))).collect()
}

fn is_broken(case: &Case, number: u64) -> bool {
    let count = case.lengths.len();
    match number {
        24 => count == 0 || count > MOST_LISTS,
        26 => !add_up(&case.lengths, case.input.len()) || !scripts_add_up(case),
        _ => case.out.len() < needed(case),
    }
}

/// Also where a call takes none.
pub fn scripts_add_up(case: &Case) -> bool {
    let one_a_list = case.call != Call::SettleMap || case.script_lengths.len() == case.lengths.len();
    one_a_list && add_up(&case.script_lengths, case.script.len())
}

/// The bytes that the output must have.
pub fn needed(case: &Case) -> usize {
    match case.call {
        Call::Slot => 0,
        Call::SettleMap => case.input.len(),
        _ => case.lists().iter().map(|list| PLACE * (list.len() / RECORD)).sum(),
    }
}

fn broken_by_list(case: &Case, k: usize) -> Vec<Broken> {
    let (records, odd) = case.lists()[k].as_chunks::<RECORD>();
    let (steps, odd_steps) = case.scripts()[k].as_chunks::<STEP>();
    let n = case.n.min(32) as usize;
    let breaks = |number: u64| match number {
        1 => case.n > 32,
        2 => !odd.is_empty(),
        3 => records.len() > 4096,
        4 => records.iter().any(|record| decoded(n, record).is_none()),
        5 => (case.work.len() / RECORD).min(4096) < records.len(),
        6 => case.number >> n != 0,
        7 => !odd_steps.is_empty(),
        8 => steps.len() > STEPS,
        9 => steps.iter().any(|step| script::decoded(n, step).is_none()),
        _ => false,
    };
    let met: Vec<u64> = of_a_list(case.call).iter().copied().filter(|&number| breaks(number)).collect();
    let at_a_step = (met.is_empty() && !steps.is_empty()).then(|| by_model(&case.alone(k)).answer[0]);
    met.into_iter().chain(at_a_step.filter(|&number| number != 0)).map(|number| (number, Some(k))).collect()
}

/// The number of a rule as [`of_a_list`] has it.
pub fn class(number: u64) -> u64 {
    if AT_A_STEP.contains(&number) { STEPS_OF_A_SCRIPT } else { number }
}
