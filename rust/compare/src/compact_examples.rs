//! Document 02, Eleven: scripts, and how many of their steps are left. Which ones is compared with the model.

use crate::differ::{Call, Case, empty};
use crate::examples::Example;
use model::script::Step::{self, Drop, Join, L, Split, Turn};
use model::script::{STEP, STEPS, encoded_script};

pub fn all() -> Vec<Example> {
    [equal_steps(), splits_and_joins(), brought_together(), counted_along(), long(), refused()].concat()
}

const SAME: Step = L { v: 0, literal: 1 };
const TURN: Step = Turn { v: 0, i: 0, j: 1 };
const SPLIT: Step = Split { v: 1, i: 0 };

/// A script for a list of so many records, and the number of its steps that are left.
fn compacted(count: u64, script: &[Step], left: u64) -> Example {
    (in_room(32, count, encoded_script(script), STEP * script.len() + 3), vec![0, 0, left, 0, 0, 0, 0, 0])
}

fn in_room(n: u64, number: u64, script: Vec<u8>, room: usize) -> Case {
    Case { number, script, out: vec![7; room], ..empty(Call::Compact, n) }
}

fn equal_steps() -> Vec<Example> {
    vec![
        compacted(3, &[], 0),
        compacted(3, &[SAME], 1),
        compacted(3, &[SAME, SAME], 0),
        compacted(0, &[TURN, TURN], 0),
        compacted(3, &[SAME; 3], 1),
        compacted(3, &[TURN; 3], 1),
        compacted(3, &[SAME, SAME, TURN, TURN], 0),
        // One field differs.
        compacted(3, &[SAME, L { v: 0, literal: 0 }], 2),
        compacted(3, &[SAME, L { v: 1, literal: 1 }], 2),
        compacted(3, &[TURN, Turn { v: 1, i: 0, j: 1 }], 2),
        compacted(3, &[TURN, Turn { v: 0, i: 2, j: 1 }], 2),
        compacted(3, &[TURN, Turn { v: 0, i: 0, j: 2 }], 2),
        compacted(3, &[TURN, Turn { v: 0, i: 1, j: 0 }], 2),
        compacted(3, &[TURN, Turn { v: 0, i: 0, j: 257 }], 2),
        // On both sides of another.
        compacted(3, &[SAME, L { v: 1, literal: 1 }, SAME], 3),
        compacted(3, &[TURN, SAME, TURN], 3),
        // Equal, and no pair.
        compacted(3, &[SPLIT; 2], 2),
        compacted(3, &[Join { i: 0, j: 1 }; 2], 2),
        compacted(3, &[Drop { i: 0, j: 1 }; 2], 2),
    ]
}

fn splits_and_joins() -> Vec<Example> {
    vec![
        compacted(3, &[SPLIT, Join { i: 0, j: 3 }], 0),
        compacted(3, &[SPLIT, Join { i: 3, j: 0 }], 2),
        compacted(3, &[SPLIT, Join { i: 0, j: 2 }], 2),
        compacted(3, &[SPLIT, Join { i: 0, j: 4 }], 2),
        compacted(3, &[SPLIT, Join { i: 1, j: 3 }], 2),
        compacted(3, &[SPLIT, Join { i: 0, j: 259 }], 2),
        compacted(3, &[Join { i: 0, j: 3 }, SPLIT], 2),
        compacted(0, &[SPLIT, Join { i: 0, j: 0 }], 0),
        compacted(0, &[SPLIT, Join { i: 0, j: 1 }], 2),
        compacted(4096, &[Split { v: 31, i: 65535 }, Join { i: 65535, j: 4096 }], 0),
        compacted(4096, &[Split { v: 31, i: 65535 }, Join { i: 65535, j: 0 }], 2),
    ]
}

/// Pairs that a removal brings together.
fn brought_together() -> Vec<Example> {
    let other = Split { v: 0, i: 3 };
    vec![
        compacted(3, &[SAME, SPLIT, Join { i: 0, j: 3 }, SAME], 0),
        compacted(3, &[SPLIT, SAME, Join { i: 0, j: 3 }], 3),
        compacted(3, &[SPLIT, SAME, SAME, Join { i: 0, j: 3 }], 0),
        compacted(3, &[SPLIT, other, TURN, TURN, Join { i: 3, j: 4 }, Join { i: 0, j: 3 }], 0),
        compacted(3, &[SPLIT, other, TURN, TURN, Join { i: 3, j: 4 }, Join { i: 3, j: 0 }], 2),
    ]
}

fn counted_along() -> Vec<Example> {
    let drop = Drop { i: 0, j: 1 };
    vec![
        compacted(3, &[SPLIT, SPLIT, Join { i: 0, j: 4 }], 1),
        compacted(3, &[SPLIT, SPLIT, Join { i: 0, j: 3 }], 3),
        compacted(3, &[Join { i: 1, j: 2 }, SPLIT, Join { i: 0, j: 2 }], 1),
        compacted(3, &[drop, SPLIT, Join { i: 0, j: 1 }], 1),
        // Never below zero.
        compacted(1, &[drop, SPLIT, Join { i: 0, j: 0 }], 1),
        compacted(1, &[drop, SPLIT, Join { i: 0, j: 1 }], 3),
        compacted(0, &[Join { i: 0, j: 1 }, SPLIT, Join { i: 0, j: 0 }], 1),
        compacted(0, &[drop, drop, SPLIT, SPLIT, Join { i: 0, j: 1 }], 3),
    ]
}

fn long() -> Vec<Example> {
    let splits = (0..STEPS / 2).map(|k| Split { v: 0, i: k });
    let joins = (0..STEPS / 2).rev().map(|k| Join { i: k, j: 4096 + k });
    let nest: Vec<Step> = splits.chain(joins).collect();
    let apart: Vec<Step> = (0..STEPS).map(|k| L { v: k % 32, literal: 0 }).collect();
    vec![
        compacted(3, &[SAME; STEPS], 0),
        compacted(3, &[SAME; STEPS - 1], 1),
        compacted(3, &[TURN; STEPS], 0),
        compacted(0, &[SPLIT, Join { i: 0, j: 0 }].repeat(STEPS / 2), 0),
        compacted(4096, &nest, 0),
        compacted(4095, &nest, 1024),
        compacted(4096, &nest[1..], 1023),
        compacted(4096, &apart, 1024),
        // Splits that no list has room for: the count is 5,120 before the join.
        compacted(4096, &[SPLIT; STEPS], 1024),
    ]
}

fn refused() -> Vec<Example> {
    let good = encoded_script(&[SAME; 4]);
    let long = good.repeat(257);
    let bad = [good.clone(), vec![6, 0, 0, 0, 0, 0, 0, 0], vec![0; 8]].concat();
    let refused = |n, count, script: &[u8], room, number: u64, place: u64| {
        (in_room(n, count, script.to_vec(), room), vec![number, place, 0, 0, 0, 0, 0, 0])
    };
    vec![
        refused(33, 4097, &bad[1..], 0, 1, 0),
        refused(32, 4097, &bad[1..], 0, 3, 0),
        refused(32, 4096, &bad[1..], 0, 7, 0),
        refused(32, 4096, &[&long[..], &[0]].concat(), 0, 7, 0),
        refused(32, 4096, &long[..8 * 1025], 0, 8, 0),
        refused(32, 4096, &bad.repeat(171), 0, 8, 0),
        refused(32, 4096, &bad, 0, 9, 4),
        refused(0, 4096, &bad, 0, 9, 0),
        // There is nothing to write, and there must be room all the same.
        refused(32, 4096, &good, 0, 5, 0),
        refused(32, 4096, &good, 31, 5, 0),
        refused(32, 4096, &long[..8 * 1024], 8 * 1024 - 1, 5, 0),
        (in_room(32, 4096, long[..8 * 1024].to_vec(), 8 * 1024), vec![0, 0, 0]),
        (in_room(0, 4096, vec![], 0), vec![0, 0, 0]),
    ]
}
