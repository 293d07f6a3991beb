//! Write script: every set of faults together, and short lists whole, in buffers of all lengths near those that they need.

use crate::differ::{Call, Case, compare, empty};
use crate::easy_scripts::EasyScripts;
use crate::exhaustive::cubes_over;
use crate::per_record::PerRecord;
use model::cube::{RECORD, encoded, encoded_list};
use model::refusal::ORDERS;
use model::script::STEP;

pub fn all() -> Result<(), String> {
    faults_together()?;
    good_lists()?;
    good_and_bad_lists()
}

const WRITER: PerRecord = PerRecord { call: Call::WriteScript, limit: 32, from: RECORD, to: STEP, far: &[15, 16, 31] };

fn case(n: u64, input: &[u8], work: usize, script: usize) -> Case {
    let (work, script) = (vec![0x5a; work], vec![0xc3; script]);
    Case { input: input.to_vec(), script, work, ..empty(WRITER.call, n) }
}

/// Input with each set of the faults that the call tests for, where 5 is of the work buffer and then of the script buffer: the
/// answer is the first of its order.
fn faults_together() -> Result<(), String> {
    let order = ORDERS[WRITER.call as usize].1;
    for set in 0..1u32 << order.len() {
        let has = |k: usize| set >> k & 1 == 1;
        let case = with_faults(std::array::from_fn(has));
        let expected = (0..order.len()).find(|&k| has(k)).map_or(0, |k| order[k]);
        let answer = compare(&case)?;
        if answer[0] != expected {
            return Err(format!("with {expected} first the answer is {answer:?}\n{case}"));
        }
    }
    println!("{}: all {} sets of the faults {order:?}", WRITER.name(), 1 << order.len());
    Ok(())
}

/// In the order of the faults.
fn with_faults([variables, length, records, record, work, script]: [bool; 6]) -> Case {
    let mut input = encoded_list(&vec![vec![1, 0, 2]; if records { 4097 } else { 3 }]);
    if record {
        input[2 * RECORD] = 0;
    }
    input.extend(length.then_some(0));
    let n = if variables { 33 } else { 3 };
    case(n, &input, 3 * RECORD - usize::from(work), 3 * STEP - usize::from(script))
}

/// Every list of up to 3 cubes over at most 2 variables. The script buffer has each length from a step too short to a step
/// longer, the work buffer those at which its capacity changes.
fn good_lists() -> Result<(), String> {
    let mut scripts = EasyScripts::default();
    let (mut lists, mut calls, mut accepted, mut steps) = (0, 0, 0, 0);
    for (n, list) in (0..3).flat_map(|n| lists_over(n).into_iter().map(move |list| (n as u64, list))) {
        lists += 1;
        for (work, script) in rooms(list.len()) {
            let case = case(n, &list, work, script);
            let answer = compare(&case)?;
            scripts.add(&case, &answer);
            calls += 1;
            if answer[0] == 0 {
                accepted += 1;
                steps += answer[2];
            }
        }
    }
    println!("{lists} lists, {calls} calls, {accepted} of them accepted; {steps} steps");
    print!("{scripts}");
    // A list fits into 3 of the work buffers and 9 of the script buffers. The lists of two cubes over 0, 1 and 2 variables have
    // 1, 9 and 45 steps all together, those of three cubes 1, 45 and 1,017.
    let expected = (27 * lists, 27 * (1 + 9 + 45 + 1 + 45 + 1017));
    if (accepted, steps) == expected { Ok(()) } else { Err(format!("accepted, steps: not {expected:?}")) }
}

/// The bytes of every list of up to 3 cubes.
pub fn lists_over(n: usize) -> Vec<Vec<u8>> {
    let variables: Vec<usize> = (0..n).collect();
    let records: Vec<[u8; RECORD]> = cubes_over(n, &variables).iter().map(encoded).collect();
    let longer = |list: &Vec<u8>| records.iter().map(|record| [&list[..], record].concat()).collect::<Vec<_>>();
    let mut lists = vec![vec![vec![]]];
    for _ in 0..3 {
        let next = lists[lists.len() - 1].iter().flat_map(longer).collect();
        lists.push(next);
    }
    lists.concat()
}

/// Lengths of a work and a script buffer, where both need so many bytes.
fn rooms(needed: usize) -> Vec<(usize, usize)> {
    let shorter = [8, 1].into_iter().filter_map(|bytes| needed.checked_sub(bytes));
    let work = shorter.chain([needed, needed + 7, needed + 8]);
    work.flat_map(|work| (needed.saturating_sub(8)..=needed + 8).map(move |script| (work, script))).collect()
}

/// Every list of up to 2 records over at most 2 variables, good and bad, in buffers that are just long enough, and with one of
/// them, or both, a byte too short.
fn good_and_bad_lists() -> Result<(), String> {
    let lists = WRITER.short_lists();
    let (mut calls, mut accepted) = (0, 0);
    for (n, list) in (0..3).flat_map(|n| lists.iter().map(move |list| (n, list))) {
        let lengths = [Some(list.len()), list.len().checked_sub(1)];
        let rooms = lengths.into_iter().flatten().flat_map(|work| lengths.map(|script| (work, script)));
        for (work, script) in rooms.filter_map(|(work, script)| Some((work, script?))) {
            calls += 1;
            accepted += u32::from(compare(&case(n, list, work, script))?[0] == 0);
        }
    }
    println!("{} lists, good and bad, {calls} calls, {accepted} of them accepted", lists.len());
    // Of 3^n cubes there are 1 + 3^n + 9^n lists.
    let good: u32 = (0..3).map(|n| 1 + 3u32.pow(n) + 9u32.pow(n)).sum();
    if accepted == good { Ok(()) } else { Err(format!("{accepted} calls accepted, and not {good}")) }
}
