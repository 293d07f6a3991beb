//! Document 02, Six: vectors, and the products and the cost of their trees; maps, and how many products are burned. Which ones is
//! compared with the model.

use crate::differ::Call;
use crate::examples::{Example, in_room, on_bits, on_script, parity, records};
use model::cube::RECORD;

pub fn all() -> Vec<Example> {
    [few_variables(), poor_under_every_polarity(), many_variables(), settled(), refused()].concat()
}

fn tree(n: u64, vector: &[u8], products: u64, cost: u64) -> Example {
    (on_bits(Call::WriteTree, n, vector, 0), vec![0, 0, products, cost, 0, 0, 0, 0])
}

fn few_variables() -> Vec<Example> {
    vec![
        tree(0, &[0], 0, 0),
        tree(0, &[1], 1, 0),
        tree(1, &[1, 1], 1, 0),
        tree(1, &[0, 1], 1, 1),
        tree(1, &[1, 0], 1, 1),
        // The constant, free, and 00; and the constant and 11.
        tree(2, &[0, 1, 1, 1], 2, 1),
        tree(2, &[1, 1, 1, 0], 2, 1),
        tree(2, &[0, 1, 1, 0], 2, 2),
        tree(2, &[1, 0, 0, 1], 2, 2),
        // Below a literal the constant is not free.
        tree(3, &[0, 0, 0, 1, 0, 1, 0, 1], 2, 2),
        // A tie goes to positive Davio, though negative Davio has a product less.
        tree(3, &[0, 1, 1, 0, 1, 0, 1, 0], 3, 2),
    ]
}

fn poor_under_every_polarity() -> Vec<Example> {
    let best = |vector: &[u8], p, size| (on_bits(Call::BestPolarity, 3, vector, 0), vec![0, 0, p, size]);
    let (ends, three) = ([1, 0, 0, 0, 0, 0, 0, 1], [1, 1, 0, 0, 0, 0, 0, 1]);
    vec![best(&ends, 1, 4), tree(3, &ends, 2, 2), best(&three, 1, 4), tree(3, &three, 2, 2)]
}

fn many_variables() -> Vec<Example> {
    let all_but_the_last: Vec<u8> = (0..256).map(|a| u8::from(a < 255)).collect();
    let last: Vec<u8> = all_but_the_last.iter().map(|bit| 1 - bit).collect();
    vec![
        tree(4, &parity(4), 4, 4),
        tree(8, &parity(8), 8, 8),
        tree(8, &[0; 256], 0, 0),
        tree(8, &[1; 256], 1, 0),
        tree(8, &last, 1, 1),
        tree(8, &all_but_the_last, 2, 1),
        // Room for what is written is enough.
        (in_room(Call::WriteTree, 8, &all_but_the_last, 2 * RECORD), vec![0, 0, 2, 1]),
        (in_room(Call::WriteTree, 8, &[0; 256], 0), vec![0, 0, 0, 0]),
    ]
}

fn settled() -> Vec<Example> {
    let settle = |n, list: &[&str]| on_script(Call::Settle, n, &records(list), &[], 4096);
    vec![
        // The tree's list is burned, of two products.
        (settle(3, &["000", "100", "111"]), vec![0, 0, 3, 3, 3, 1, 4, 2]),
        (on_script(Call::Settle, 3, &records(&["000", "100", "111"]), &[], 3), vec![0, 0, 3, 3, 3, 1, 4, 2]),
        (settle(3, &["00-", "1-1", "-01"]), vec![0, 0, 3, 3, 3, 1, 4, 2]),
        (settle(8, &["00------", "1-1-----", "-01-----"]), vec![0, 0, 3, 3, 3, 1, 4, 2]),
        // Above 8 variables there is no tree.
        (settle(9, &["00-------", "1-1------", "-01------"]), vec![0, 0, 3, 3, 3, u64::MAX, u64::MAX, 3]),
        // It stands as the form does, and as the given list does: each time the earlier one is burned.
        (settle(2, &["1-", "01", "11"]), vec![0, 0, 3, 3, 3, 0, 2, 2]),
        (settle(2, &["-0", "0-"]), vec![0, 0, 2, 2, 2, 0, 2, 2]),
        // It costs as much as the form, and has a product more.
        (settle(3, &["0--", "-01", "-1-", "---"]), vec![0, 0, 4, 4, 4, 7, 2, 2]),
    ]
}

fn refused() -> Vec<Example> {
    let refused = |n, vector: &[u8], room, number: u64, place: u64| {
        (in_room(Call::WriteTree, n, vector, room), vec![number, place, 0, 0, 0, 0, 0, 0])
    };
    vec![
        refused(9, &[1; 512], 4096, 1, 0),
        refused(9, &[2; 511], 0, 1, 0),
        refused(u64::MAX, &[], 0, 1, 0),
        refused(2, &[0, 1, 2], 0, 14, 4),
        refused(2, &[0, 1, 1, 1, 0], 99, 14, 4),
        refused(8, &[2; 255], 0, 14, 256),
        refused(2, &[0, 1, 2, 255], 0, 14, 2),
        refused(0, &[2], 8, 14, 0),
        refused(2, &[0, 1, 1, 1], 15, 5, 0),
        refused(2, &[0, 1, 1, 1], 8, 5, 0),
        // The constant is free, and there must be room for it all the same.
        refused(0, &[1], 7, 5, 0),
        refused(8, &[1; 256], 0, 5, 0),
    ]
}
