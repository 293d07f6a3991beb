//! The calls on shared lists: their rows.

use crate::inputs::{
    exchanges, half_true_list, joins, joins_and_splits, merges, mixed, paired_list, record, shared_list, step, turns,
};
use crate::plain::{shared_check, shared_run, shared_settle, shared_value};
use crate::table::shared_row;
use crate::{RECORDS, STEPS, answered, small_map};
use druthmoy::words;
use std::hint::black_box;

const HALF: usize = RECORDS / 2;

/// The same outputs half the list further on, and others.
fn alike(place: usize) -> u32 {
    (place % HALF) as u32 + 1
}

fn unlike(place: usize) -> u32 {
    place as u32 + 1
}

pub fn rows(highest: &mut f64) {
    refused_lists();
    refused_steps();
    lists(highest);
    runs(highest);
    settling(highest);
}

/// Plain Rust's refusals of a list: no outputs, a bad cube, too high a label.
fn refused_lists() {
    let list = shared_list(&paired_list(64, 8, 1), unlike);
    let (mut without, mut bad) = (list.clone(), list.clone());
    without[12 * 40 + 8..][..4].fill(0);
    bad[12 * 50 + 3] = 1;
    for (list, a, expected) in [(&without, 256, [4, 40]), (&bad, 256, [4, 50]), (&list, 256, [6, 0])] {
        let library = words::shared_value(8, list, a);
        assert_eq!(library[..2], expected);
        assert_eq!(answered(|answer| shared_value(8, list, a, answer)), library);
    }
}

/// Plain Rust's refusals at a step: each number with its number of differing variables, and nothing left.
fn refused_steps() {
    let cubes = [record(0, 0), record(7, 0), record(7, 1), record(7, 7), record(0, 0), record(0, 0)].concat();
    let list = &shared_list(&cubes, |place| [1, 1, 3, 3, 3, 1][place]);
    let (drop, join, turn) = (|i, j| step(1, 0, i, j, 0), |i, j| step(2, 0, i, j, 0), |v, i, j| step(4, v, i, j, 0));
    let merge = |i, j| step(6, 0, i, j, 0);
    for (last, number, differing) in [
        (merge(0, 6), 10, 0),
        (merge(1, 1), 11, 0),
        (step(3, 0, 0, 0, 0), 13, 0),
        (drop(0, 2), 16, 3),
        (join(0, 4), 17, 0),
        (turn(1, 1, 2), 18, 1),
        (turn(0, 2, 3), 19, 2),
        (drop(0, 4), 22, 0),
        (join(1, 2), 22, 0),
        (merge(0, 5), 23, 0),
        (merge(0, 1), 23, 0),
    ] {
        let script = &[step(5, 0, 0, 0, 0), last].concat();
        let (mut work, mut plain_work) = (vec![7; 77], vec![7; 77]);
        let library = words::shared_run(3, list, script, &mut work);
        let plain = answered(|answer| shared_run(3, list, script, &mut plain_work, answer));
        assert_eq!(library, [number, 1, differing, 0, 0, 0, 0, 0]);
        assert_eq!((library, work), (plain, plain_work));
    }
}

fn lists(highest: &mut f64) {
    for (n, cubes, size) in [
        (4, paired_list(4, 4, 1), "4 records, n = 4"),
        (32, paired_list(RECORDS, 32, 1), "4,096 records, n = 32"),
        (32, half_true_list(RECORDS, 32, 5), "4,096 records, half true, n = 32"),
    ] {
        let list = &shared_list(&cubes, unlike);
        if !size.contains("true") {
            shared_row(
                highest,
                "shared check",
                size,
                |_, _| words::shared_check(n, black_box(list)),
                |_, _| answered(|answer| shared_check(n, black_box(list), answer)),
            );
        }
        shared_row(
            highest,
            "shared value",
            size,
            |_, _| words::shared_value(n, black_box(list), 5),
            |_, _| answered(|answer| shared_value(n, black_box(list), 5, answer)),
        );
    }
}

/// `1-` `-1` `11` `1-`, the last with other outputs; join 1 2, merge 0 2.
fn small_shared() -> (Vec<u8>, Vec<u8>) {
    let (cubes, _) = small_map();
    let list = shared_list(&[&cubes[..], &cubes[..8]].concat(), |place| [1, 6, 6, 3][place]);
    (list, [step(2, 0, 1, 2, 0), step(6, 0, 0, 2, 0)].concat())
}

fn runs(highest: &mut f64) {
    let (small, small_script) = small_shared();
    let equal = shared_list(&paired_list(RECORDS, 32, 0), unlike);
    let [one_apart, two_apart] = [1, 2].map(|apart| shared_list(&paired_list(RECORDS, 32, apart), alike));
    for (n, list, script, size) in [
        (2, &small, &small_script, "4 records, a join and a merge, n = 2"),
        (32, &one_apart, &joins(STEPS, HALF), "4,096 records, 1,024 joins, n = 32"),
        (32, &one_apart, &joins_and_splits(STEPS, HALF, 32), "4,096 records, 512 joins and 512 splits, n = 32"),
        (32, &two_apart, &turns(STEPS, HALF), "4,096 records, 1,024 turns, n = 32"),
        (32, &equal, &merges(STEPS, HALF), "4,096 records, 1,024 merges, n = 32"),
        (32, &one_apart, &exchanges(STEPS, 32), "4,096 records, 1,024 L steps, n = 32"),
    ] {
        shared_row(
            highest,
            "shared run",
            size,
            |work, _| words::shared_run(n, black_box(list), black_box(script), work),
            |work, _| answered(|answer| shared_run(n, black_box(list), black_box(script), work, answer)),
        );
    }
}

fn settling(highest: &mut f64) {
    let (small, small_script) = small_shared();
    let equal = shared_list(&paired_list(RECORDS, 32, 0), unlike);
    let one_apart = shared_list(&paired_list(RECORDS, 32, 1), alike);
    for (n, list, script, size) in [
        (2, &small, &small_script, "4 records, a join and a merge, n = 2"),
        (32, &equal, &merges(STEPS, HALF), "4,096 records, 1,024 merges, n = 32"),
        (32, &one_apart, &mixed(STEPS, HALF, 32), "4,096 records, 768 joins and 256 L steps, n = 32"),
    ] {
        shared_row(
            highest,
            "shared settle",
            size,
            |work, out| words::shared_settle(n, black_box(list), black_box(script), work, out),
            |work, out| answered(|answer| shared_settle(n, black_box(list), black_box(script), work, out, answer)),
        );
    }
}
