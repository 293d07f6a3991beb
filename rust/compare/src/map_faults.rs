//! Maps of several lists: every set of faults together, and each refusal at every list.

use crate::differ::{Call, Case, compare, empty};
use crate::map_broken::{Broken, needed};
use crate::map_lists::NO_LIST;
use crate::map_parts::end_to_end;
use model::cube::{RECORD, encoded_list, read};
use model::refusal::ORDERS;
use model::script::Step::{self, Drop, Join, L, Split, Turn};
use model::script::{STEP, encoded};
use model::selector::MOST_LISTS;

pub fn all() -> Result<(), String> {
    for how in &HOW[..3] {
        every_set(Call::Slot, how, &[&MAP[..2], &of(0, &[1, 2, 3, 4, 6]), &of(1, &[2, 3, 4])].concat())?;
        every_set(Call::MapReasons, how, &[&MAP[..], &of(0, &[1, 2, 3, 4, 6]), &of(1, &[2, 3, 4])].concat())?;
    }
    for ((number, _), how) in AT_A_STEP.iter().zip(HOW.iter().cycle()) {
        let list = of(0, &[1, 2, 3, 4, 5, 7, 8, 9, *number]);
        every_set(Call::SettleMap, how, &[&MAP[..], &list].concat())?;
    }
    every_set(
        Call::SettleMap,
        &HOW[0],
        &[of(0, &[2, 4, 5, 8, 9, 16]), of(1, &[3, 4, 5, 7, 9, 13]), of(2, &[2, 11])].concat(),
    )?;
    every_list()
}

/// The rules of the map itself.
const MAP: [Broken; 3] = [(24, None), (26, None), (5, None)];

/// Rules of a list.
fn of(list: usize, numbers: &[u64]) -> Vec<Broken> {
    numbers.iter().map(|&number| (number, Some(list))).collect()
}

/// How many lists there are where that is wrong, and what is done to the lengths where they are.
struct How {
    lists: usize,
    name: &'static str,
    damage: fn(&mut Case),
}

/// The last three are of scripts.
const HOW: [How; 6] = [
    How { lists: 0, name: "a byte more than the lengths", damage: |case| case.input.push(0) },
    How { lists: 13, name: "a byte less", damage: |case| case.input.truncate(case.input.len() - 1) },
    How { lists: 13, name: "as many bytes modulo 2^64", damage: |case| around(&mut case.lengths) },
    How { lists: 0, name: "a byte more than the scripts' lengths", damage: |case| case.script.push(0) },
    How { lists: 14, name: "as many modulo 2^64", damage: |case| around(&mut case.script_lengths) },
    How { lists: 13, name: "a script more", damage: |case| case.script_lengths.push(0) },
];

/// Adds 2^63 to the first two.
fn around(lengths: &mut [u64]) {
    lengths.iter_mut().take(2).for_each(|length| *length ^= 1 << 63);
}

/// As many as the work buffer holds.
const CUBES: [&str; 4] = ["10-", "10-", "11-", "111"];

/// Steps that a list of these cubes refuses.
const AT_A_STEP: [(u64, Step); 7] = [
    (10, Drop { i: 0, j: 4 }),
    (11, Join { i: 1, j: 1 }),
    (16, Drop { i: 0, j: 2 }),
    (17, Join { i: 0, j: 1 }),
    (18, Turn { v: 0, i: 0, j: 2 }),
    (19, Turn { v: 0, i: 0, j: 3 }),
    (13, Split { v: 0, i: 0 }),
];

/// A list with these faults.
fn list(faults: &[u64]) -> Vec<u8> {
    let count = match faults {
        _ if faults.contains(&3) => 4097,
        _ if faults.contains(&5) => CUBES.len() + 1,
        _ => CUBES.len(),
    };
    let cubes: Vec<_> = CUBES.iter().cycle().take(count).map(|cube| read(cube)).collect();
    let mut list = encoded_list(&cubes);
    if faults.contains(&4) {
        list[2 * RECORD] = 0;
    }
    list.extend(faults.contains(&2).then_some(1));
    list
}

/// A script of L steps with these faults; one at a step is at its first.
fn script(faults: &[u64]) -> Vec<u8> {
    let mut script = encoded(L { v: 2, literal: 1 }).repeat(if faults.contains(&8) { 1025 } else { 3 });
    for (_, step) in AT_A_STEP.iter().filter(|(number, _)| faults.contains(number)) {
        script[..STEP].copy_from_slice(&encoded(*step));
    }
    if faults.contains(&9) {
        script[2 * STEP] = 6;
    }
    script.extend(faults.contains(&7).then_some(0));
    script
}

/// A map of so many lists with these faults.
fn map(call: Call, lists: usize, how: &How, faults: &[Broken]) -> Case {
    let has = |number| faults.iter().any(|&(other, of)| other == number && of.is_none_or(|of| of == 0));
    let of = |k: usize| faults.iter().filter(|(_, of)| *of == Some(k)).map(|(number, _)| *number).collect::<Vec<_>>();
    let (input, lengths) = end_to_end(&(0..lists).map(|k| list(&of(k))).collect::<Vec<_>>());
    let number = if has(6) { 8 } else { 5 };
    let mut case = Case { input, lengths, number, ..empty(call, if has(1) { 33 } else { 3 }) };
    if call == Call::SettleMap {
        (case.script, case.script_lengths) = end_to_end(&(0..lists).map(|k| script(&of(k))).collect::<Vec<_>>());
        case.work = vec![0x5a; RECORD * CUBES.len()];
    }
    if call != Call::Slot {
        case.out = vec![0xc3; needed(&case) - usize::from(faults.contains(&(5, None)))];
        case.numbers = [9; MOST_LISTS];
    }
    if faults.contains(&(24, None)) {
        case.lengths.resize(how.lists, 0);
        if call == Call::SettleMap {
            case.script_lengths.resize(how.lists, 0);
        }
    }
    if faults.contains(&(26, None)) {
        (how.damage)(&mut case);
    }
    case
}

/// Makes a call with each set of faults: the answer is the first of their order, with the list that it is of.
fn every_set(call: Call, how: &How, order: &[Broken]) -> Result<(), String> {
    let lists = 1 + order.iter().filter_map(|(_, of)| *of).max().expect("a rule of a list");
    for set in 0..1u32 << order.len() {
        let faults: Vec<Broken> = (0..order.len()).filter(|k| set >> k & 1 == 1).map(|k| order[k]).collect();
        // A map of one list more, which is good.
        expect(&map(call, lists + 1, how, &faults), faults.first())?;
    }
    let named: Vec<String> = order
        .iter()
        .map(|(number, of)| of.map_or(format!("{number}"), |of| format!("{number} of list {of}")))
        .collect();
    let with = match order.starts_with(&MAP[..2]) {
        true => format!(", 24 by {} lists, 26 by {}", how.lists, how.name),
        false => String::new(),
    };
    let name = ORDERS[call as usize].0;
    println!("{name}{with}: all {} sets of the faults {}", 1u32 << order.len(), named.join(", "));
    Ok(())
}

fn expect(case: &Case, first: Option<&Broken>) -> Result<(), String> {
    let answer = compare(case)?;
    let expected = match first {
        Some((number, of)) => [*number, of.map_or(NO_LIST, |of| of as u64)],
        None => [0, 0],
    };
    match [answer[0], answer[3]] == expected {
        true => Ok(()),
        false => Err(format!("with {expected:?} first the answer is {answer:?}\n{case}")),
    }
}

/// Each refusal at each of twelve lists, with another one, or the same, at all lists after it.
fn every_list() -> Result<(), String> {
    let mut calls = 0;
    for call in [Call::Slot, Call::SettleMap, Call::MapReasons] {
        let of_settle = || [5, 7, 8, 9].into_iter().chain(AT_A_STEP.map(|(number, _)| number));
        let numbers: Vec<u64> = [2, 3, 4].into_iter().chain(of_settle().filter(|_| call == Call::SettleMap)).collect();
        for (k, &first) in (0..MOST_LISTS).flat_map(|k| numbers.iter().map(move |first| (k, first))) {
            for &second in &numbers {
                let later = (k + 1..MOST_LISTS).map(|k| (second, Some(k)));
                let faults: Vec<Broken> = [(first, Some(k))].into_iter().chain(later).collect();
                expect(&map(call, MOST_LISTS, &HOW[0], &faults), faults.first())?;
                calls += 1;
            }
        }
    }
    println!(
        "each refusal at each of twelve lists, with each at all lists after it: {calls} calls, the first list is refused"
    );
    // 3 numbers of slot and of reasons, 14 of settle, at 12 lists.
    if calls == 12 * (2 * 3 * 3 + 14 * 14) { Ok(()) } else { Err("not all of them".into()) }
}
