//! Index, group and run indexed: every set of faults together, and small worlds whole.

use crate::differ::{Call, Case, compare, compared, empty};
use crate::exhaustive;
use crate::indexes::Indexes;
use crate::per_record::PerRecord;
use crate::sets::each_set;
use crate::writer::lists_over;
use model::cube::{PLACE, RECORD, encoded_list, encoded_places};
use model::index::Starts;
use model::script::{STEP, Step, encoded};

pub fn all() -> Result<(), String> {
    INDEX.faults_together()?;
    group_faults_together()?;
    run_faults_together()?;
    good_and_bad_lists()?;
    good_lists()?;
    short_indexes()?;
    starts_off_by_one()?;
    short_lists_and_scripts()
}

const INDEX: PerRecord = PerRecord { call: Call::Index, limit: 32, from: RECORD, to: PLACE, far: &[15, 16, 31] };

/// 25 by a wrong entry, by a wrong start and by both.
fn group_faults_together() -> Result<(), String> {
    for (of, entry, start) in [
        ("group, 25 by an entry", true, false),
        ("group, 25 by a start", false, true),
        ("group, 25 by both", true, true),
    ] {
        each_set(of, [1, 2, 3, 4, 5, 25, 21], |[variables, length, records, record, room, index, number]| {
            let input = list(length, records, record);
            let mut places: Vec<usize> = (0..input.len() / RECORD).collect();
            let count = places.len() as u64;
            places[1] = if index && entry { 2 } else { 1 };
            let mut out = encoded_places(&places);
            out.truncate(out.len() - usize::from(room));
            let mut starts = [count; 33];
            starts[..3].fill(0);
            starts[31] += u64::from(index && start);
            let number = if number { 33 } else { 2 };
            Case { input, number, out, starts, ..empty(Call::Group, if variables { 33 } else { 3 }) }
        })?;
    }
    Ok(())
}

/// Two literals in each record; with these faults.
fn list(length: bool, records: bool, record: bool) -> Vec<u8> {
    let mut input = encoded_list(&vec![vec![1, 0, 2]; if records { 4097 } else { 3 }]);
    if record {
        input[2 * RECORD] = 0;
    }
    input.extend(length.then_some(0));
    input
}

/// 5 is of the work buffer and then of the index; the last fault is a step at a place outside.
fn run_faults_together() -> Result<(), String> {
    let order = [1, 2, 3, 4, 5, 5, 7, 8, 9, 10];
    each_set("run_indexed", order, |[variables, length, records, record, work, room, odd, steps, step, outside]| {
        let mut script = encoded(Step::L { v: 2, literal: 1 }).repeat(if steps { 1025 } else { 3 });
        if outside {
            script[..STEP].copy_from_slice(&encoded(Step::Join { i: 0, j: 3 }));
        }
        if step {
            script[2 * STEP] = 6;
        }
        script.extend(odd.then_some(0));
        Case {
            input: list(length, records, record),
            script,
            work: vec![0x5a; 3 * RECORD - usize::from(work)],
            // A work buffer that is too short has a capacity of two.
            out: vec![0xc3; if room { 2 * PLACE - 1 } else { 3 * PLACE }],
            starts: [9; 33],
            ..empty(Call::RunIndexed, if variables { 33 } else { 3 })
        }
    })
}

/// Every list of up to 2 records over at most 2 variables, good and bad, in index buffers of 0 to 5 bytes.
fn good_and_bad_lists() -> Result<(), String> {
    let lists = INDEX.short_lists();
    let (mut calls, mut accepted) = (0, 0);
    for (n, list) in (0..3).flat_map(|n| lists.iter().map(move |list| (n, list))) {
        for room in 0..6 {
            calls += 1;
            accepted += u64::from(compare(&INDEX.case(n, list, 0, room))?[0] == 0);
        }
    }
    println!("{} lists, good and bad, {calls} calls of index, {accepted} of them accepted", lists.len());
    // Lists of 0, 1 and 2 records fit into 6, 4 and 2 of the buffers, and over n variables there are 3^n cubes.
    let good: u64 = (0..3).map(|n| 6 + 4 * 3u64.pow(n) + 2 * 9u64.pow(n)).sum();
    if accepted == good { Ok(()) } else { Err(format!("{accepted} calls accepted, and not {good}")) }
}

/// Every list of up to 3 cubes over at most 2 variables.
fn all_lists() -> impl Iterator<Item = (u64, Vec<u8>)> {
    (0..3).flat_map(|n| lists_over(n).into_iter().map(move |list| (n as u64, list)))
}

/// Their indexes, in buffers of each length from two entries too short to one longer; and all groups of those.
fn good_lists() -> Result<(), String> {
    let mut indexes = Indexes::default();
    let (mut lists, mut calls, mut accepted, mut in_the_last) = (0, 0, 0, 0);
    for (n, list) in all_lists() {
        lists += 1;
        let needed = INDEX.room(list.len());
        for room in needed.saturating_sub(2 * PLACE)..=needed + PLACE {
            let case = INDEX.case(n, &list, 0, room);
            let after = compared(&case)?;
            indexes.add(&case, &after.answer);
            calls += 1;
            if after.answer[0] == 0 {
                accepted += 1;
                in_the_last += after.answer[2] - after.starts[n as usize];
            }
        }
    }
    println!(
        "{lists} lists, {calls} calls of index, {accepted} of them accepted; {in_the_last} cubes with all literals"
    );
    print!("{indexes}");
    // A list fits into 3 of the buffers. Of the cubes over n variables 2^n have all literals; with a = 3^n, lists of up to 3 cubes
    // have a + 2 a^2 + 3 a^3 cubes all together.
    let cubes = |n| 2u64.pow(n) * (1 + 2 * 3u64.pow(n) + 3 * 9u64.pow(n));
    let expected = (3 * lists, 3 * (0..3).map(cubes).sum::<u64>());
    if (accepted, in_the_last) == expected { Ok(()) } else { Err(format!("accepted, cubes: not {expected:?}")) }
}

/// The starts that index gives a list.
fn built(n: u64, list: &[u8]) -> Result<Starts, String> {
    Ok(compared(&INDEX.case(n, list, 0, INDEX.room(list.len())))?.starts)
}

/// All indexes of so many entries, each from 0 to 3.
fn indexes_of(entries: usize) -> impl Iterator<Item = Vec<u8>> {
    let places = move |k: usize| (0..entries).map(|entry| k >> (2 * entry) & 3).collect::<Vec<_>>();
    (0..1 << (2 * entries)).map(move |k| encoded_places(&places(k)))
}

/// Every list of up to 3 cubes over at most 2 variables, with its own starts and every index of as many entries from 0 to 3, asked
/// for each number from 0 to 33.
fn short_indexes() -> Result<(), String> {
    let (mut calls, mut met) = (0, [0; 26]);
    let (mut places, mut expected, mut expected_places) = (0, [0; 26], 0);
    for (n, input) in all_lists() {
        let (count, starts) = ((input.len() / RECORD) as u32, built(n, &input)?);
        for (out, number) in indexes_of(count as usize).flat_map(|out| (0..34).map(move |number| (out.clone(), number)))
        {
            let case = Case { input: input.clone(), number, out, starts, ..empty(Call::Group, n) };
            let [number, place, ..] = compare(&case)?;
            calls += 1;
            met[number as usize] += 1;
            places += place;
        }
        // One index is right; 3 4^(c - 1 - k) of c entries have entry k as the first that is wrong.
        expected[0] += 33;
        expected[21] += 1;
        expected[25] += 34 * (4u64.pow(count) - 1);
        expected_places += (0..count).map(|k| 34 * 3 * 4u64.pow(count - 1 - k) * u64::from(k)).sum::<u64>();
    }
    println!("{calls} calls of group, accepted {}; refused 21: {}, 25: {}", met[0], met[21], met[25]);
    if (met, places) == (expected, expected_places) {
        Ok(())
    } else {
        Err(format!("{met:?}, and not {expected:?}, or other places"))
    }
}

/// The same lists with their own entries, and each of the starts one too high and one too low.
fn starts_off_by_one() -> Result<(), String> {
    let mut calls = 0;
    for (n, input) in all_lists() {
        let after = compared(&INDEX.case(n, &input, 0, INDEX.room(input.len())))?;
        for (m, by, number) in (0..33).flat_map(|m| [(m, 1, 2), (m, u64::MAX, 33)]) {
            let mut starts = after.starts;
            starts[m] = starts[m].wrapping_add(by);
            let (input, out) = (input.clone(), after.out.clone());
            let case = Case { input, number, out, starts, ..empty(Call::Group, n) };
            let answer = compare(&case)?;
            calls += 1;
            if answer[..3] != [25, m as u64, 0] {
                return Err(format!("with a wrong start of group {m} the answer is {answer:?}\n{case}"));
            }
        }
    }
    println!("{calls} calls of group with one start off by one, all refused there");
    Ok(())
}

/// Every list of up to 2 cubes over 2 variables with every script of up to 2 steps, in buffers that just hold the list and in longer
/// ones. Each is also run without an index.
fn short_lists_and_scripts() -> Result<(), String> {
    let (lists, scripts) = (exhaustive::lists(), exhaustive::scripts());
    let mut met = [0u64; 26];
    for (list, script) in lists.iter().flat_map(|list| scripts.iter().map(move |script| (list, script))) {
        let input = encoded_list(list);
        for (more, behind) in [(0, 0), (RECORD + 7, 3)] {
            let out = vec![0xc3; PLACE * (list.len() + more / RECORD) + behind];
            let (input, work) = (input.clone(), vec![0x5a; input.len() + more]);
            let case = Case { input, script: script.clone(), work, out, starts: [9; 33], ..empty(Call::RunIndexed, 2) };
            met[compare(&case)?[0] as usize] += 1;
        }
    }
    let calls = met.iter().sum::<u64>();
    println!("{} lists, {} scripts, 2 buffer lengths: {calls} calls of run indexed", lists.len(), scripts.len());
    let refused: Vec<String> =
        (1..met.len()).filter(|&number| met[number] > 0).map(|number| format!("{number}: {}", met[number])).collect();
    println!("accepted {}; refused {}", met[0], refused.join(", "));
    Ok(())
}
