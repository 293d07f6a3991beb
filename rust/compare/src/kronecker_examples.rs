//! Document 02, Ten: vectors, and the cost, the choice and the products of their Kronecker forms. Which products is compared with the
//! model.

use crate::differ::{Call, Case};
use crate::examples::{Example, in_room, on_bits, on_script, parity, records};
use model::cube::RECORD;

pub fn all() -> Vec<Example> {
    [few_variables(), three_variables(), many_variables(), settled(), refused()].concat()
}

fn kronecker(n: u64, vector: &[u8], cost: u64, choice: u64, products: u64) -> Example {
    (on_bits(Call::WriteKronecker, n, vector, 0), vec![0, 0, cost, choice, products, 0, 0, 0])
}

fn few_variables() -> Vec<Example> {
    vec![
        kronecker(0, &[0], 0, 0, 0),
        kronecker(0, &[1], 0, 0, 1),
        kronecker(1, &[0, 0], 0, 0, 0),
        // Both Davio expansions write the constant, and the smaller digit is taken.
        kronecker(1, &[1, 1], 0, 1, 1),
        kronecker(1, &[0, 1], 1, 0, 1),
        kronecker(1, &[1, 0], 1, 0, 1),
        // The constant, free, and 00; and the constant and 11.
        kronecker(2, &[0, 1, 1, 1], 1, 8, 2),
        kronecker(2, &[1, 1, 1, 0], 1, 4, 2),
        // The constant and 01; and the constant and 10: variable 0 is the lowest digit.
        kronecker(2, &[1, 1, 0, 1], 1, 5, 2),
        kronecker(2, &[1, 0, 1, 1], 1, 7, 2),
        kronecker(2, &[0, 1, 1, 0], 2, 0, 2),
        kronecker(2, &[1, 1, 1, 1], 0, 4, 1),
    ]
}

fn three_variables() -> Vec<Example> {
    let not_parity: Vec<u8> = parity(3).iter().map(|bit| 1 - bit).collect();
    vec![
        kronecker(3, &[1, 0, 0, 0, 0, 0, 0, 1], 2, 0, 2),
        // -00 111, then -00 011, then 00- 111.
        kronecker(3, &[1, 1, 0, 0, 0, 0, 0, 1], 2, 1, 2),
        kronecker(3, &[1, 1, 0, 0, 0, 0, 1, 0], 2, 2, 2),
        kronecker(3, &[1, 0, 0, 0, 1, 0, 0, 1], 2, 9, 2),
        // A tree costs less than every choice.
        kronecker(3, &[0, 0, 1, 1, 1, 1, 1, 0], 3, 2, 3),
        (on_bits(Call::WriteTree, 3, &[0, 0, 1, 1, 1, 1, 1, 0], 0), vec![0, 0, 3, 2]),
        // A tie goes to the smallest choice, though larger ones have a product less.
        kronecker(3, &not_parity, 3, 13, 4),
        kronecker(3, &parity(3), 3, 13, 3),
    ]
}

fn many_variables() -> Vec<Example> {
    let all_but_the_last: Vec<u8> = (0..64).map(|a| u8::from(a < 63)).collect();
    let last: Vec<u8> = all_but_the_last.iter().map(|bit| 1 - bit).collect();
    let all_but_the_first: Vec<u8> = (0..64).map(|a| u8::from(a > 0)).collect();
    vec![
        kronecker(4, &parity(4), 4, 40, 4),
        kronecker(6, &parity(6), 6, 364, 6),
        kronecker(6, &[0; 64], 0, 0, 0),
        kronecker(6, &[1; 64], 0, 364, 1),
        kronecker(6, &last, 1, 0, 1),
        kronecker(6, &all_but_the_last, 1, 364, 2),
        // The last choice.
        kronecker(6, &all_but_the_first, 1, 728, 2),
        // Room for what is written is enough.
        (in_room(Call::WriteKronecker, 6, &all_but_the_first, 2 * RECORD), vec![0, 0, 1, 728, 2]),
        (in_room(Call::WriteKronecker, 6, &[0; 64], 0), vec![0, 0, 0, 0, 0]),
    ]
}

/// The Kronecker form costs as much as the form and the tree's list, has a product less, and is not burned.
fn settled() -> Vec<Example> {
    let settle: Case = on_script(Call::Settle, 3, &records(&["-00", "-10", "001"]), &[], 4096);
    vec![kronecker(3, &[1, 1, 1, 1, 1, 0, 0, 0], 2, 8, 2), (settle, vec![0, 0, 3, 3, 3, 3, 3, 3])]
}

fn refused() -> Vec<Example> {
    let refused = |n, vector: &[u8], room, number: u64, place: u64| {
        (in_room(Call::WriteKronecker, n, vector, room), vec![number, place, 0, 0, 0, 0, 0, 0])
    };
    vec![
        refused(7, &[1; 128], 4096, 1, 0),
        refused(7, &[2; 127], 0, 1, 0),
        refused(8, &[0; 256], 4096, 1, 0),
        refused(u64::MAX, &[], 0, 1, 0),
        refused(2, &[0, 1, 2], 0, 14, 4),
        refused(2, &[0, 1, 1, 1, 0], 99, 14, 4),
        refused(6, &[2; 63], 0, 14, 64),
        refused(2, &[0, 1, 2, 255], 0, 14, 2),
        refused(0, &[2], 8, 14, 0),
        refused(2, &[0, 1, 1, 1], 15, 5, 0),
        refused(2, &[0, 1, 1, 1], 8, 5, 0),
        // The constant is free, and there must be room for it all the same.
        refused(0, &[1], 7, 5, 0),
        refused(6, &[1; 64], 0, 5, 0),
        refused(6, &[1; 64], 7, 5, 0),
    ]
}
