//! What is the same in write tree and write kronecker, which write a list for a truth vector.

use crate::differ::{Call, Case, compared, empty};
use crate::kronecker_rules;
use crate::replays::expect;
use model::cube::{Cube, RECORD};
use model::refusal::ORDERS;
use model::trees;

pub fn most_variables(call: Call) -> u64 {
    if call == Call::WriteKronecker { 6 } else { 8 }
}

/// The list that a call writes for a vector.
pub fn list(call: Call, vector: &[u8]) -> Vec<Cube> {
    if call == Call::WriteKronecker { kronecker_rules::DOCUMENT.list(vector) } else { trees::list(vector) }
}

pub fn case(call: Call, n: u64, input: Vec<u8>, room: usize) -> Case {
    Case { input, out: vec![0xc3; room], ..empty(call, n) }
}

/// The vectors of all functions of n variables, from the constant 0 on: bit a of a function's number is its value at a.
pub fn functions(n: u64) -> impl Iterator<Item = Vec<u8>> {
    (0..1u64 << (1 << n)).map(move |number| (0..1 << n).map(|a| (number >> a & 1) as u8).collect())
}

/// How many functions of n variables cost nothing, and how many one product. The first are the constants 0 and 1; the others the
/// cubes that have a literal, alone and with the constant, where a cube of one literal and the constant are the other literal.
pub fn of_cost_0_and_1(n: u64) -> [u64; 2] {
    let cubes = 3u64.pow(n as u32) - 1;
    [2, 2 * cubes - 2 * n]
}

/// Input with each set of the faults that the call tests for, where 14 is of the vector's length and then of a byte: the answer
/// is the first of its order, and its place.
pub fn faults_together(call: Call) -> Result<(), String> {
    for set in 0..1u32 << 4 {
        let faults: [bool; 4] = std::array::from_fn(|k| set >> k & 1 == 1);
        let case = with_faults(call, faults);
        let expected = match faults {
            [true, ..] => [1, 0],
            [_, true, ..] => [14, 8],
            [_, _, true, _] => [14, 5],
            [.., true] => [5, 0],
            _ => [0, 0],
        };
        let after = compared(&case)?;
        expect(after.answer[..2] == expected, "not the first of the order", &case, &after)?;
    }
    let (name, order) = ORDERS[call as usize];
    println!("{name}: all 16 sets of the faults {order:?}, 14 of the length and of a byte");
    Ok(())
}

/// In the order of the faults: without them, the list of two minterms of three variables.
fn with_faults(call: Call, [variables, length, byte, room]: [bool; 4]) -> Case {
    let n = if variables { most_variables(call) + 1 } else { 3 };
    let mut input = vec![0; 1 << n];
    input[0] = 1;
    input[7] = 1;
    if byte {
        input[5] = 2;
    }
    input.extend(length.then_some(0));
    case(call, n, input, 2 * RECORD - usize::from(room))
}

/// Every function of n variables in output buffers of each length from a record too short to a record longer.
pub fn in_every_room(call: Call, n: u64) -> Result<(), String> {
    let (mut calls, mut accepted) = (0, 0);
    for input in functions(n) {
        let needed = RECORD * list(call, &input).len();
        for room in needed.saturating_sub(RECORD)..=needed + RECORD {
            calls += 1;
            accepted += u64::from(compared(&case(call, n, input.clone(), room))?.answer[0] == 0);
        }
    }
    println!("in output buffers of every length near, {calls} calls, {accepted} of them accepted");
    // A list fits into 9 of the buffers.
    let expected = 9 << (1 << n);
    if accepted == expected { Ok(()) } else { Err(format!("not {expected} calls accepted")) }
}
