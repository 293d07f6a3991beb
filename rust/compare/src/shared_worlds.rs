//! Shared lists: small worlds, whole.

use crate::differ::{Call, Case, compare, empty};
use crate::exhaustive::cubes_over;
use crate::shared_broken::broken;
use crate::shared_cases::outputs;
use model::script::Step::{Drop, Join, L, Split, Turn};
use model::shared::Step::{self, Merge, Plain};
use model::shared::{SHARED_RECORD, Shared, encoded_list, encoded_step};
use std::collections::BTreeMap;

pub fn all() -> Result<(), String> {
    good_and_bad_lists()?;
    values()?;
    for n in 0..4 {
        let variables: Vec<usize> = (0..n).collect();
        two_products_over(n, &variables, &variables)?;
    }
    two_products_over(32, &[0, 16, 31], &[0, 15, 16, 31])?;
    short_scripts(1, 4)?;
    short_scripts(2, 3)
}

/// All products with literals at these variables alone, and with the first output, the second or both.
fn products_over(n: usize, variables: &[usize]) -> Vec<Shared> {
    let cubes = cubes_over(n, variables);
    let pairs = cubes.iter().flat_map(|cube| (1..4).map(move |word| (cube.clone(), outputs(word))));
    pairs.map(|product| [product].into_iter().collect()).collect()
}

/// All lists of up to 2 such products over n variables.
fn lists_over(n: usize) -> Vec<Vec<u8>> {
    let variables: Vec<usize> = (0..n).collect();
    let records: Vec<Vec<u8>> = products_over(n, &variables).iter().map(encoded_list).collect();
    short_lists(&records)
}

fn short_lists(records: &[Vec<u8>]) -> Vec<Vec<u8>> {
    let pairs = records.iter().flat_map(|a| records.iter().map(move |b| [&a[..], b].concat()));
    [vec![]].into_iter().chain(records.iter().cloned()).chain(pairs).collect()
}

/// Every list of up to 2 records, good and bad, over at most 2 variables, with masks of the first three variables and outputs that have a bit in the
/// first byte, in the second, in the last, or none.
fn good_and_bad_lists() -> Result<(), String> {
    let masks = (0..64u32).map(|k| (k % 8, k / 8));
    let words = [0u32, 1, 0x100, 0x8000_0000];
    let record = |seen: u32, value: u32, word: u32| [seen, value, word].map(u32::to_le_bytes).concat();
    let records: Vec<Vec<u8>> = masks.flat_map(|(s, v)| words.map(|word| record(s, v, word))).collect();
    let lists = short_lists(&records);
    for n in 0..3 {
        let mut met: BTreeMap<[u64; 2], u64> = BTreeMap::new();
        for input in &lists {
            for call in [Call::SharedCheck, Call::SharedValue] {
                let [number, place, ..] = compare(&Case { input: input.clone(), ..empty(call, n) })?;
                *met.entry([number, place]).or_default() += 1;
            }
        }
        println!(
            "{} lists, good and bad, over {n} variables, checked and valued; number and place: {met:?}",
            lists.len()
        );
        // Of 3^n cubes and 3 words the good records are made.
        let (all, good) = (records.len() as u64, 3 * 3u64.pow(n as u32));
        let bad = all - good;
        let expected = [([0, 0], 1 + good + good * good), ([4, 0], bad + bad * all), ([4, 1], good * bad)];
        let expected: BTreeMap<[u64; 2], u64> =
            expected.into_iter().map(|(answer, count)| (answer, 2 * count)).collect();
        if met != expected {
            return Err(format!("{met:?}, and not {expected:?}"));
        }
    }
    Ok(())
}

/// Every list of up to 2 products over at most 2 variables at every assignment, and at the first that is too high.
fn values() -> Result<(), String> {
    for n in 0..3 {
        let (mut calls, mut ones, mut refused) = (0u64, [0u64; 32], 0u64);
        for (input, number) in lists_over(n).iter().flat_map(|list| (0..=1 << n).map(move |a| (list, a))) {
            let answer = compare(&Case { input: input.clone(), number, ..empty(Call::SharedValue, n as u64) })?;
            calls += 1;
            refused += u64::from(answer[0] == 6);
            if answer[0] == 0 {
                for (k, count) in ones.iter_mut().enumerate() {
                    *count += answer[2] >> k & 1;
                }
            }
        }
        println!(
            "values over {n} variables: {calls} calls, refused 6: {refused}; outputs that are 1: {:?}",
            &ones[..3]
        );
        // Of the products, 2^n cubes are true at an assignment, with 2 of the 3 words each; one of two products is odd.
        let (labels, all) = (1u64 << n, 3 * 3u64.pow(n as u32));
        let trues = 2 * labels;
        let of_one = labels * (trues + 2 * trues * (all - trues));
        let mut expected = [0; 32];
        expected[..2].fill(of_one);
        if (ones, refused) != (expected, 1 + all + all * all) {
            return Err(format!("not {of_one} each"));
        }
    }
    Ok(())
}

/// Every drop, join, turn and merge on every list of two products, at all places up to the first that is outside, run and settled. How often each number
/// is answered with each third answer is also counted without any step; and each answer is the first of the rules that the step breaks.
fn two_products_over(n: usize, variables: &[usize], turns: &[usize]) -> Result<(), String> {
    let products = products_over(n, variables);
    let mut met: BTreeMap<[u64; 2], u64> = BTreeMap::new();
    let mut sets: BTreeMap<Vec<u64>, u64> = BTreeMap::new();
    for (a, b) in products.iter().flat_map(|a| products.iter().map(move |b| (a, b))) {
        let list = Shared { cubes: [&a.cubes[..], &b.cubes].concat(), outputs: [&a.outputs[..], &b.outputs].concat() };
        let input = encoded_list(&list);
        for step in steps_on_two(turns) {
            let buffer = vec![0x5a; input.len()];
            let (script, out) = (encoded_step(step).to_vec(), buffer.clone());
            let run = Case { input: input.clone(), script, work: buffer, ..empty(Call::SharedRun, n as u64) };
            let settle = Case { call: Call::SharedSettle, out, ..run.clone() };
            let broken = broken(&list, step, 2);
            for case in [run, settle] {
                let [number, _, third, ..] = compare(&case)?;
                *met.entry([number, if number == 0 { 0 } else { third }]).or_default() += 1;
                if broken.first().copied().unwrap_or(0) != number {
                    return Err(format!("a step that breaks {broken:?} is answered {number}\n{case}"));
                }
            }
            *sets.entry(broken).or_default() += 2;
        }
    }
    let expected = expected_of_two_products(variables.len() as u32, turns.len() as u64);
    let answers: Vec<String> =
        met.iter().map(|([number, third], count)| format!("{number} {third}: {count}")).collect();
    let calls: u64 = met.values().sum();
    println!(
        "over {} of {n} variables, {calls} calls; number and third answer: {}",
        variables.len(),
        answers.join(", ")
    );
    println!("rules that a step breaks together: {sets:?}");
    if met == expected { Ok(()) } else { Err(format!("{met:?}, and not {expected:?}")) }
}

/// Each of them at each two places from 0 to 2; and no split, which a full buffer refuses.
fn steps_on_two(turns: &[usize]) -> Vec<Step> {
    let places = (0..9).map(|k| (k / 3, k % 3));
    let steps = places.flat_map(|(i, j)| {
        let turns = turns.iter().map(move |&v| Plain(Turn { v, i, j }));
        [Plain(Drop { i, j }), Plain(Join { i, j }), Merge { i, j }].into_iter().chain(turns)
    });
    steps.collect()
}

/// As for two cubes: of the 9 pairs of places 5 have one outside, 2 are of one place with itself, and 2 are of both products; of the pairs of cubes over m
/// variables, 3^m 2^d (m over d) differ in d variables. Of the 9 pairs of outputs 3 are equal.
fn expected_of_two_products(m: u32, turns: u64) -> BTreeMap<[u64; 2], u64> {
    let mut expected: BTreeMap<[u64; 2], u64> = BTreeMap::new();
    let mut add = |number, third, count: u64| {
        if count > 0 {
            *expected.entry([number, third]).or_default() += 2 * count;
        }
    };
    let (steps, lists) = (3 + turns, 9 * 9u64.pow(m));
    add(10, 0, 5 * steps * lists);
    add(11, 0, 2 * steps * lists);
    let mut chosen = 1;
    for d in 0..=m {
        let pairs = 2 * 3u64.pow(m) * 2u64.pow(d) * chosen;
        chosen = chosen * u64::from(m - d) / u64::from(d + 1);
        let third = u64::from(d);
        // A step that the cubes allow, so many times: with equal outputs it is done.
        let mut allowed = |times: u64| {
            add(0, 0, 3 * times * pairs);
            add(22, 0, 6 * times * pairs);
        };
        match d {
            0 | 1 => allowed(1),
            2 => allowed(2),
            _ => {}
        }
        add(16, third, if d == 0 { 0 } else { 9 * pairs });
        add(17, third, if d == 1 { 0 } else { 9 * pairs });
        add(18, third, if d == 2 { 0 } else { 9 * turns * pairs });
        add(19, third, if d == 2 { 9 * (turns - 2) * pairs } else { 0 });
        add(0, 0, if d == 0 { 6 * pairs } else { 0 });
        add(23, 0, if d == 0 { 3 * pairs } else { 9 * pairs });
    }
    expected
}

/// Every list of up to 2 products over n variables with every script of up to 2 steps at places below `places`, well-formed and damaged, run and settled,
/// in buffers that just hold the list and in longer ones.
fn short_scripts(n: usize, places: usize) -> Result<(), String> {
    let (lists, steps, damaged) = (lists_over(n), steps(n, places), damaged_steps(n as u8));
    let all = [steps.clone(), damaged.clone()].concat();
    let pairs = all.iter().flat_map(|first| all.iter().map(move |second| [*first, *second].concat()));
    let scripts: Vec<Vec<u8>> = [vec![]].into_iter().chain(all.iter().map(|step| step.to_vec())).chain(pairs).collect();
    let mut met = [0u64; 26];
    for (input, script) in lists.iter().flat_map(|list| scripts.iter().map(move |script| (list, script))) {
        for more in [0, SHARED_RECORD + 7] {
            let (work, out) = (vec![0x5a; input.len() + more], vec![0xc3; input.len() + more]);
            let (input, script) = (input.clone(), script.clone());
            let run = Case { input, script, work, ..empty(Call::SharedRun, n as u64) };
            let settle = Case { call: Call::SharedSettle, out, ..run.clone() };
            met[compare(&run)?[0] as usize] += 1;
            met[compare(&settle)?[0] as usize] += 1;
        }
    }
    println!(
        "over {n} variables {} lists, {} scripts of {} well-formed and {} damaged steps, 2 buffer lengths, run and settled: {} calls",
        lists.len(),
        scripts.len(),
        steps.len(),
        damaged.len(),
        met.iter().sum::<u64>()
    );
    let refused: Vec<String> =
        (1..met.len()).filter(|&number| met[number] > 0).map(|number| format!("{number}: {}", met[number])).collect();
    println!("accepted {}; refused {}", met[0], refused.join(", "));
    // 9 is answered where a step is damaged, whatever the list.
    let (good, bad) = (steps.len() as u64, damaged.len() as u64);
    let with_damage = bad + (good + bad).pow(2) - good.pow(2);
    let expected = 4 * lists.len() as u64 * with_damage;
    if met[9] == expected { Ok(()) } else { Err(format!("9 answered {} times, and not {expected}", met[9])) }
}

/// All steps over n variables at these places.
fn steps(n: usize, places: usize) -> Vec<[u8; 8]> {
    let mut steps = Vec::new();
    for (i, j) in (0..places * places).map(|k| (k / places, k % places)) {
        steps.extend([Plain(Drop { i, j }), Plain(Join { i, j }), Merge { i, j }]);
        steps.extend((0..n).map(|v| Plain(Turn { v, i, j })));
    }
    steps.extend((0..places * n).map(|k| Plain(Split { v: k % n, i: k / n })));
    steps.extend((0..2 * n).map(|k| Plain(L { v: k / 2, literal: k as u8 % 2 })));
    steps.into_iter().map(encoded_step).collect()
}

/// Unknown operations, and operations with a field at a value that it must not have.
fn damaged_steps(n: u8) -> Vec<[u8; 8]> {
    vec![
        [0, 0, 0, 0, 1, 0, 0, 0],
        [7, 0, 0, 0, 1, 0, 0, 0],
        [6, 1, 0, 0, 1, 0, 0, 0],
        [6, 0, 0, 0, 1, 0, 1, 0],
        [6, 0, 0, 0, 1, 0, 0, 1],
        [1, 1, 0, 0, 1, 0, 0, 0],
        [2, 0, 0, 0, 1, 0, 1, 0],
        [3, n, 0, 0, 0, 0, 0, 0],
        [3, 0, 0, 0, 1, 0, 0, 0],
        [4, n, 0, 0, 1, 0, 0, 0],
        [5, n, 0, 0, 0, 0, 0, 0],
        [5, 0, 0, 0, 0, 0, 2, 0],
        [5, 0, 1, 0, 0, 0, 0, 0],
    ]
}
