//! Index, group and run indexed: their rows.

use crate::inputs::{exchanges, paired_list, splits_and_joins, step, turns};
use crate::plain::{self, ByCounting, BySorting, Starts};
use crate::table::{Straightforward, row};
use crate::{RECORDS, STEPS, answered, small_map};
use druthmoy::words;
use std::hint::black_box;

const PLACE: usize = 2;

pub fn rows(highest: &mut f64) {
    refused_groups();
    refused_run();
    for (count, n, size) in [(4, 4, "4 records, n = 4"), (RECORDS, 32, "4,096 records, n = 32")] {
        index_row(highest, n.into(), &paired_list(count, n, 1), size);
    }
    for (count, n, number, entries, size) in [
        (4, 4, 3, 2, "4 records, the index tested, a run of 2, n = 4"),
        (RECORDS, 32, 16, 590, "4,096 records, the index tested, a run of 590, n = 32"),
        (RECORDS, 32, 0, 0, "4,096 records, the index tested, an empty run, n = 32"),
    ] {
        group_row(highest, n.into(), &paired_list(count, n, 1), (number, entries), size);
    }
    runs(highest);
}

/// Plain Rust's refusals of an index that is not the list's, and of a number of literals.
fn refused_groups() {
    let list = &paired_list(RECORDS, 32, 1);
    let (index, starts) = (&mut vec![7; PLACE * RECORDS], &mut [7; 33]);
    words::index(32, list, index, starts);
    let (mut exchanged, mut off) = (index.clone(), *starts);
    exchanged.swap(PLACE * 2000, PLACE * 2001);
    off[20] += 1;
    for (index, starts, number, expected) in [
        (&exchanged, &off, 33, [25, 2000]),
        (&*index, &off, 33, [25, 20]),
        (&*index, &*starts, 33, [21, 0]),
        (&index[1..].to_vec(), &*starts, 33, [5, 0]),
    ] {
        let library = words::group(32, list, index, starts, number);
        let same_way = answered(|answer| plain::group::<ByCounting>(32, list, index, starts, number, answer));
        let by_sorting = answered(|answer| plain::group::<BySorting>(32, list, index, starts, number, answer));
        assert_eq!(library[..2], expected);
        assert_eq!([same_way, by_sorting], [library; 2]);
    }
}

/// Plain Rust's refusal at a step leaves nothing in either buffer, nor in the starts.
fn refused_run() {
    let (list, _) = small_map();
    let script = [step(2, 0, 1, 2, 0), step(1, 0, 0, 1, 0)].concat();
    let (mut work, mut index, mut starts) = ([7; 27], [7; 9], [7; 33]);
    let library = words::run_indexed(2, &list, &script, &mut work, &mut index, &mut starts);
    assert_eq!((library[0], work, index, starts), (16, [0; 27], [0; 9], [0; 33]));
    let (mut work, mut index, mut starts) = ([7; 27], [7; 9], [7; 33]);
    let plain = answered(|answer| {
        plain::run_indexed::<ByCounting>(2, &list, &script, &mut work, &mut index, &mut starts, answer);
    });
    assert_eq!((plain, work, index, starts), (library, [0; 27], [0; 9], [0; 33]));
}

/// The starts go into words of their own, which the caller looks at.
fn with_starts(call: impl FnOnce(&mut Starts) -> plain::Words) -> plain::Words {
    let mut starts = [7; 33];
    let answer = call(&mut starts);
    black_box(&starts);
    answer
}

fn index_row(highest: &mut f64, n: u64, list: &[u8], size: &str) {
    let (library, same_way) = (&mut [7; 33], &mut [8; 33]);
    words::index(n, list, &mut vec![7; list.len()], library);
    plain::index::<ByCounting>(n, list, &mut vec![7; list.len()], same_way, &mut [0; 8]);
    assert_eq!(library, same_way, "index, {size}");
    row(
        highest,
        "index",
        size,
        |_, out| with_starts(|starts| words::index(n, black_box(list), out, starts)),
        |_, out| {
            with_starts(|starts| answered(|answer| plain::index::<ByCounting>(n, black_box(list), out, starts, answer)))
        },
        Straightforward::Another(|_: &mut [u8], out: &mut [u8]| {
            with_starts(|starts| answered(|answer| plain::index::<BySorting>(n, black_box(list), out, starts, answer)))
        }),
    );
}

fn group_row(highest: &mut f64, n: u64, list: &[u8], (number, entries): (u64, u64), size: &str) {
    let (index, starts) = (&mut vec![7; PLACE * (list.len() / 8)][..], &mut [7; 33]);
    words::index(n, list, index, starts);
    let (index, starts) = (&*index, &*starts);
    assert_eq!(words::group(n, list, index, starts, number)[2], entries, "{size}");
    row(
        highest,
        "group",
        size,
        |_, _| words::group(n, black_box(list), black_box(index), starts, number),
        |_, _| {
            answered(|answer| plain::group::<ByCounting>(n, black_box(list), black_box(index), starts, number, answer))
        },
        Straightforward::Another(|_: &mut [u8], _: &mut [u8]| {
            answered(|answer| plain::group::<BySorting>(n, black_box(list), black_box(index), starts, number, answer))
        }),
    );
}

fn runs(highest: &mut f64) {
    let half = RECORDS / 2;
    let (one_apart, two_apart) = (paired_list(RECORDS, 32, 1), paired_list(RECORDS, 32, 2));
    let (small, small_script) = small_map();
    for (n, list, script, size) in [
        (2, &small, &small_script, "3 records, 2 steps, n = 2"),
        (32, &two_apart, &turns(STEPS, half), "4,096 records, 1,024 turns, n = 32"),
        (
            32,
            &one_apart,
            &splits_and_joins(STEPS, half, 32),
            "4,096 records, 480 joins, 480 splits and 64 L steps, n = 32",
        ),
        (32, &one_apart, &exchanges(STEPS, 32), "4,096 records, 1,024 L steps, n = 32"),
    ] {
        run_row(highest, n, list, script, size);
    }
}

fn run_row(highest: &mut f64, n: u64, list: &[u8], script: &[u8], size: &str) {
    // As many entries as the work buffer has records.
    const INDEX: usize = PLACE * RECORDS;
    let library = |work: &mut [u8], out: &mut [u8], starts: &mut Starts| {
        words::run_indexed(n, black_box(list), black_box(script), work, &mut out[..INDEX], starts)
    };
    let same_way = |work: &mut [u8], out: &mut [u8], starts: &mut Starts| {
        let (list, script, index) = (black_box(list), black_box(script), &mut out[..INDEX]);
        answered(|answer| plain::run_indexed::<ByCounting>(n, list, script, work, index, starts, answer))
    };
    let starts = (&mut [7; 33], &mut [8; 33]);
    library(&mut vec![7; 8 * RECORDS], &mut [7; INDEX], starts.0);
    same_way(&mut vec![7; 8 * RECORDS], &mut [7; INDEX], starts.1);
    assert_eq!(starts.0, starts.1, "run indexed, {size}");
    let by_sorting = |work: &mut [u8], out: &mut [u8]| {
        let (list, script, index) = (black_box(list), black_box(script), &mut out[..INDEX]);
        with_starts(|starts| {
            answered(|answer| plain::run_indexed::<BySorting>(n, list, script, work, index, starts, answer))
        })
    };
    row(
        highest,
        "run indexed",
        size,
        |work, out| with_starts(|starts| library(work, out, starts)),
        |work, out| with_starts(|starts| same_way(work, out, starts)),
        // A sort after each of many steps would take too long.
        if n < 32 { Straightforward::Another(by_sorting) } else { Straightforward::NotMeasured },
    );
}
