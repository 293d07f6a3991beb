//! Calls on shared lists: every set of faults together.

use crate::differ::{Call, Case, compare, empty};
use crate::sets::{each_set, every_set};
use crate::shared_cases::outputs;
use model::cube::{RECORD, read};
use model::script::STEP;
use model::script::Step::{Drop, Join, L, Split, Turn};
use model::shared::Step::{self, Merge, Plain};
use model::shared::{SHARED_RECORD, encoded_list, encoded_step};

pub fn all() -> Result<(), String> {
    for bad in [Bad::Cube, Bad::Outputs, Bad::Both] {
        lists(bad)?;
    }
    for (number, step) in AT_A_STEP {
        scripts(number, step)?;
    }
    let numbers: Vec<u64> = AT_A_STEP.iter().map(|(number, _)| *number).collect();
    println!("shared_run: all 512 sets of the faults 1, 2, 3, 4, 5, 7, 8, 9 and one of {numbers:?} at the first step");
    println!("shared_settle: all 1024 sets of these and another 5");
    refused_in_turn()
}

/// What makes a record bad.
#[derive(Clone, Copy, Debug)]
enum Bad {
    Cube,
    Outputs,
    Both,
}

const PRODUCTS: [(&str, u32); 5] = [("10-", 1), ("10-", 3), ("10-", 1), ("11-", 3), ("111", 1)];

/// Steps that this list refuses, with the number that is first. Those by 16 to 19 also break 22.
const AT_A_STEP: [(u64, Step); 17] = [
    (10, Plain(Drop { i: 0, j: 5 })),
    (10, Plain(Join { i: 5, j: 5 })),
    (10, Merge { i: 5, j: 5 }),
    (10, Merge { i: 0, j: 5 }),
    (11, Plain(Turn { v: 0, i: 1, j: 1 })),
    (11, Merge { i: 1, j: 1 }),
    (16, Plain(Drop { i: 0, j: 3 })),
    (17, Plain(Join { i: 1, j: 4 })),
    (18, Plain(Turn { v: 1, i: 0, j: 3 })),
    (19, Plain(Turn { v: 0, i: 1, j: 4 })),
    (22, Plain(Drop { i: 0, j: 1 })),
    (22, Plain(Join { i: 0, j: 3 })),
    (22, Plain(Turn { v: 1, i: 1, j: 4 })),
    (23, Merge { i: 0, j: 2 }),
    (23, Merge { i: 1, j: 3 }),
    (23, Merge { i: 0, j: 3 }),
    (13, Plain(Split { v: 0, i: 0 })),
];

/// The list, or a longer one, with these faults.
fn list(length: bool, records: bool, record: bool, bad: Bad) -> Vec<u8> {
    let products = PRODUCTS.iter().cycle().take(if records { 4097 } else { PRODUCTS.len() });
    let mut input = encoded_list(&products.map(|&(cube, word)| (read(cube), outputs(word))).collect());
    if record {
        let (cube, outputs) = input[2 * SHARED_RECORD..][..SHARED_RECORD].split_at_mut(RECORD);
        if !matches!(bad, Bad::Outputs) {
            cube[0] = 0;
        }
        if !matches!(bad, Bad::Cube) {
            outputs.fill(0);
        }
    }
    input.extend(length.then_some(1));
    input
}

fn variables(too_many: bool) -> u64 {
    if too_many { 33 } else { 3 }
}

fn lists(bad: Bad) -> Result<(), String> {
    let by = |call: &str| format!("{call}, 4 by {}", format!("{bad:?}").to_lowercase());
    each_set(&by("shared_check"), [1, 2, 3, 4], |[many, length, records, record]| Case {
        input: list(length, records, record, bad),
        ..empty(Call::SharedCheck, variables(many))
    })?;
    each_set(&by("shared_value"), [1, 2, 3, 4, 6], |[many, length, records, record, label]| Case {
        input: list(length, records, record, bad),
        number: if label { 1 << 3 } else { 5 },
        ..empty(Call::SharedValue, variables(many))
    })
}

/// In front of L steps, of which the third can break 9: it is a merge with a variable.
fn script(odd: bool, steps: bool, bad: bool, first: Option<Step>) -> Vec<u8> {
    let l = encoded_step(Plain(L { v: 2, literal: 1 }));
    let mut script = l.repeat(if steps { 1025 } else { 3 });
    if let Some(step) = first {
        script[..STEP].copy_from_slice(&encoded_step(step));
    }
    if bad {
        script[2 * STEP..][..STEP].copy_from_slice(&[6, 1, 0, 0, 1, 0, 0, 0]);
    }
    script.extend(odd.then_some(0));
    script
}

/// A buffer that just holds the list, or is a byte too short.
fn room(short: bool) -> Vec<u8> {
    vec![0x5a; PRODUCTS.len() * SHARED_RECORD - usize::from(short)]
}

/// The last fault is this step; the first 5 of settle is of the work buffer, the second of the output.
fn scripts(number: u64, step: Step) -> Result<(), String> {
    let order = [1, 2, 3, 4, 5, 7, 8, 9, number];
    every_set(order, |[many, length, records, record, work, odd, steps, bad, last]| Case {
        input: list(length, records, record, Bad::Outputs),
        script: script(odd, steps, bad, last.then_some(step)),
        work: room(work),
        ..empty(Call::SharedRun, variables(many))
    })?;
    let order = [1, 2, 3, 4, 5, 5, 7, 8, 9, number];
    every_set(order, |[many, length, records, record, work, out, odd, steps, bad, last]| Case {
        input: list(length, records, record, Bad::Both),
        script: script(odd, steps, bad, last.then_some(step)),
        work: room(work),
        out: room(out),
        ..empty(Call::SharedSettle, variables(many))
    })
}

/// Each two of these steps: the first of them is refused, whatever comes after it.
fn refused_in_turn() -> Result<(), String> {
    for ((number, first), (_, second)) in AT_A_STEP.iter().flat_map(|a| AT_A_STEP.iter().map(move |b| (a, b))) {
        let script = [encoded_step(*first), encoded_step(*second)].concat();
        for call in [Call::SharedRun, Call::SharedSettle] {
            let input = list(false, false, false, Bad::Cube);
            let case = Case { input, script: script.clone(), work: room(false), out: room(false), ..empty(call, 3) };
            let answer = compare(&case)?;
            if answer[..2] != [*number, 0] {
                return Err(format!("with {number} first the answer is {answer:?}\n{case}"));
            }
        }
    }
    println!("each two of {} refused steps, run and settled: the first is refused", AT_A_STEP.len());
    Ok(())
}
