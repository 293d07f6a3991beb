//! Compact: every set of faults together, and short scripts whole.

use crate::compactions::Compactions;
use crate::differ::{Call, Case, compare, empty};
use crate::exhaustive::damaged_steps;
use model::refusal::ORDERS;
use model::script::{STEP, Step, encoded};

pub fn all() -> Result<(), String> {
    faults_together()?;
    short_scripts()?;
    good_and_bad_scripts()
}

fn case(n: u64, count: u64, script: Vec<u8>, room: usize) -> Case {
    let out = vec![0xc3; room];
    Case { number: count, script, out, ..empty(Call::Compact, n) }
}

/// Input with each set of the faults that the call tests for: the answer is the first of its order.
fn faults_together() -> Result<(), String> {
    let (name, order) = ORDERS[Call::Compact as usize];
    for set in 0..1u32 << order.len() {
        let has = |k: usize| set >> k & 1 == 1;
        let case = with_faults(std::array::from_fn(has));
        let expected = (0..order.len()).find(|&k| has(k)).map_or(0, |k| order[k]);
        let answer = compare(&case)?;
        if answer[0] != expected {
            return Err(format!("with {expected} first the answer is {answer:?}\n{case}"));
        }
    }
    println!("{name}: all {} sets of the faults {order:?}", 1 << order.len());
    Ok(())
}

/// In the order of the faults.
fn with_faults([variables, count, length, steps, step, out]: [bool; 6]) -> Case {
    let mut script = encoded(Step::L { v: 2, literal: 1 }).repeat(if steps { 1025 } else { 3 });
    if step {
        script[2 * STEP] = 6;
    }
    script.extend(length.then_some(0));
    let room = script.len() - usize::from(out);
    case(if variables { 33 } else { 3 }, if count { 4097 } else { 3 }, script, room)
}

/// L steps, turns, splits and a drop, two or one of each, and the joins that splits at places 0 and 1 can be undone by: before
/// the last split of four steps, the count is at most 5.
fn steps() -> Vec<[u8; STEP]> {
    let ls = [0, 1].map(|v| Step::L { v, literal: 0 });
    let turns = [(0, 1), (1, 0)].map(|(i, j)| Step::Turn { v: 0, i, j });
    let splits = [0, 1].map(|k| Step::Split { v: k, i: k });
    let joins = (0..2).flat_map(|i| (0..6).map(move |j| Step::Join { i, j }));
    let others = [ls, turns, splits].concat().into_iter().chain([Step::Drop { i: 0, j: 1 }]);
    others.chain(joins).map(encoded).collect()
}

/// All scripts of up to so many of these steps.
fn scripts(steps: &[[u8; STEP]], most: usize) -> Vec<Vec<u8>> {
    let longer = |script: &Vec<u8>| steps.iter().map(|step| [&script[..], step].concat()).collect::<Vec<_>>();
    let mut scripts = vec![vec![vec![]]];
    for length in 0..most {
        let next = scripts[length].iter().flat_map(longer).collect();
        scripts.push(next);
    }
    scripts.concat()
}

/// Every script of up to 4 steps, for lists of up to 3 records.
fn short_scripts() -> Result<(), String> {
    let steps = steps();
    let scripts = scripts(&steps, 4);
    let mut compactions = Compactions::default();
    let (mut calls, mut given, mut left) = (0, 0, 0);
    for (count, script) in (0..4).flat_map(|count| scripts.iter().map(move |script| (count, script))) {
        let case = case(2, count, script.clone(), script.len() + 3);
        let answer = compare(&case)?;
        compactions.add(&case, &answer);
        calls += 1;
        given += (script.len() / STEP) as u64;
        left += answer[2];
    }
    println!("{} scripts of {} steps, {calls} calls; {given} steps given, {left} left", scripts.len(), steps.len());
    print!("{compactions}");
    let expected = 4 * left_of_all(steps.len() as u64);
    if left == expected { Ok(()) } else { Err(format!("not {expected} steps left")) }
}

/// How many steps are left of all scripts of up to 4 of a steps, for one count. Wherever the count is, each of the 4 L steps and
/// turns is undone by itself, and each of the 2 splits by one of the joins. So of two steps 6 pairs vanish. Of three, 6 a have
/// their pair in front and 6 a - 4 behind alone, since three equal ones have it in both. Of four, 36 are a pair after a pair and
/// 4 * 5 + 2 * 6 a pair within another; and of the others 6 (a^2 - 6) have their pair in front, and 6 a^2 - 4 a - 32 each in the
/// middle and at the end.
fn left_of_all(a: u64) -> u64 {
    let (vanish, one_left) = (36 + 32, 6 * a + 6 * a - 4);
    let two_left = 6 * (a * a - 6) + 2 * (6 * a * a - 4 * a - 32);
    let of_two = 2 * (a.pow(2) - 6);
    let of_three = 3 * (a.pow(3) - one_left) + one_left;
    let of_four = 4 * (a.pow(4) - two_left - vanish) + 2 * two_left;
    a + of_two + of_three + of_four
}

/// Every script of up to 2 steps, good and bad, for a list of 3 records, in buffers of each length up to a step longer.
fn good_and_bad_scripts() -> Result<(), String> {
    let (good, damaged) = (steps(), damaged_steps());
    let scripts = scripts(&[&good[..], &damaged].concat(), 2);
    let (mut calls, mut accepted) = (0, 0);
    for (script, room) in scripts.iter().flat_map(|script| (0..=script.len() + STEP).map(move |room| (script, room))) {
        calls += 1;
        accepted += u64::from(compare(&case(2, 3, script.clone(), room))?[0] == 0);
    }
    println!("{} scripts, good and bad, {calls} calls, {accepted} of them accepted", scripts.len());
    // Three of the damaged steps are at places past the first byte, and good. A script fits into 9 of the buffers.
    let good = good.len() as u64 + 3;
    let expected = 9 * (1 + good + good * good);
    if accepted == expected { Ok(()) } else { Err(format!("{accepted} calls accepted, and not {expected}")) }
}
