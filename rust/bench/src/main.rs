//! Each call of the library beside plain Rust, on the same buffers, in one run: plain Rust with the same algorithm, and, where it is another
//! one, plain Rust as one would write it first.
//!
//! Prints a table in Markdown: medians of a call, and the library's over plain Rust's with the same algorithm. Before they are measured, all are
//! called once, and their answers and buffers must be equal. A second table has the calls of write script on long lists by passes over all pairs, a
//! third what pairs cost in a long script that is compacted.

mod compactor;
mod easy_lists;
mod idle_scripts;
mod indexing;
mod inputs;
mod maps;
mod measure;
mod plain;
mod sharing;
mod table;
mod writer;

use druthmoy::words;
use inputs::{
    bits, exchanges, few_records, half_true_list, joins, labels, literals, mixed, narrow_list, paired_list, record,
    step, turns,
};
use plain::{ByBytes, ByWords};
use std::hint::black_box;
use table::Straightforward::{Another, Same};
use table::{REFUSED, SAME_WAY, row};

const RECORDS: usize = 4096;
const STEPS: usize = 1024;

fn main() {
    if cfg!(feature = "standin") {
        println!("STAND-IN: the calls are answered by the model; the table says nothing of the library.\n");
    }
    refusals();
    println!("| call | size | library | plain Rust, same way | ratio | plain Rust, straightforward |");
    println!("|---|---|---:|---:|---:|---:|");
    let mut highest: f64 = 0.0;
    lists(&mut highest);
    reasons(&mut highest);
    converters(&mut highest);
    polarities(&mut highest);
    trees(&mut highest);
    scripts(&mut highest);
    settling(&mut highest);
    writer::rows(&mut highest);
    compactor::rows(&mut highest);
    indexing::rows(&mut highest);
    sharing::rows(&mut highest);
    maps::rows(&mut highest);
    println!("\nHighest ratio: {highest:.2}");
    writer::passes();
    compactor::beside_no_pair();
}

fn lists(highest: &mut f64) {
    // At 32 variables no seen bit can be too high, so that a check has less to look at.
    for (count, n, size) in
        [(4, 4, "4 records, n = 4"), (RECORDS, 31, "4,096 records, n = 31"), (RECORDS, 32, "4,096 records, n = 32")]
    {
        let list = &paired_list(count, n, 1);
        let n = u64::from(n);
        row(
            highest,
            "check",
            size,
            |_, _| words::check(n, black_box(list)),
            |_, _| answered(|answer| plain::check(n, black_box(list), answer)),
            SAME_WAY,
        );
        row(
            highest,
            "value",
            size,
            |_, _| words::value(n, black_box(list), 5),
            |_, _| answered(|answer| plain::value(n, black_box(list), 5, answer)),
            SAME_WAY,
        );
    }
    for (count, n, size) in [
        (1, 0, "1 record, n = 0"),
        (2, 1, "2 records, n = 1"),
        (3, 2, "3 records, n = 2"),
        (4, 4, "4 records, n = 4"),
        (RECORDS, 8, "4,096 records, n = 8"),
    ] {
        let list = &if n < 4 { few_records(count, n) } else { paired_list(count, n, 1) };
        let n = u64::from(n);
        row(
            highest,
            "truth vector",
            size,
            |_, out| words::truth_vector(n, black_box(list), out),
            |_, out| answered(|answer| plain::truth_vector::<ByWords>(n, black_box(list), out, answer)),
            Another(|_: &mut [u8], out: &mut [u8]| {
                answered(|answer| plain::truth_vector::<ByBytes>(n, black_box(list), out, answer))
            }),
        );
    }
}

fn reasons(highest: &mut f64) {
    for (n, list, trues, size) in [
        (4, half_true_list(4, 4, 5), 3, "4 records, 3 true, n = 4"),
        (32, paired_list(RECORDS, 32, 1), 1, "4,096 records, 1 true, n = 32"),
        (32, half_true_list(RECORDS, 32, 5), 2019, "4,096 records, 2,019 true, n = 32"),
        (32, record(0, 0).repeat(RECORDS), RECORDS as u64, "4,096 records, all true, n = 32"),
    ] {
        let list = &list;
        assert_eq!(words::value(n, list, 5)[3], trues, "{size}");
        row(
            highest,
            "reasons",
            size,
            |_, out| words::reasons(n, black_box(list), 5, out),
            |_, out| answered(|answer| plain::reasons(n, black_box(list), 5, out, answer)),
            SAME_WAY,
        );
    }
    // Labels that the processor has not just met: it can't foresee which products are true.
    let list = &literals(RECORDS);
    let (first, second) = (labels(STEPS), labels(STEPS));
    row(
        highest,
        "reasons",
        "4,096 records, half true, another label each time, n = 32",
        |_, out| words::reasons(32, black_box(list), first(), out),
        |_, out| answered(|answer| plain::reasons(32, black_box(list), second(), out, answer)),
        SAME_WAY,
    );
}

fn converters(highest: &mut f64) {
    for (count, size) in [(16, "16 records, n = 16"), (RECORDS, "4,096 records, n = 16")] {
        let wide = &paired_list(count, 16, 1);
        let narrow = &narrow_list(wide);
        row(
            highest,
            "wide from narrow",
            size,
            |_, out| words::wide_from_narrow(16, black_box(narrow), out),
            |_, out| answered(|answer| plain::wide_from_narrow(16, black_box(narrow), out, answer)),
            SAME_WAY,
        );
        row(
            highest,
            "narrow from wide",
            size,
            |_, out| words::narrow_from_wide(16, black_box(wide), out),
            |_, out| answered(|answer| plain::narrow_from_wide(16, black_box(wide), out, answer)),
            SAME_WAY,
        );
    }
}

fn polarities(highest: &mut f64) {
    for (n, p, size) in
        [(0, 0, "n = 0"), (1, 1, "n = 1"), (2, 2, "n = 2"), (3, 5, "n = 3"), (8, 0xa6, "n = 8"), (8, 0, "n = 8, p = 0")]
    {
        let vector = &bits(n);
        let n = u64::from(n);
        row(
            highest,
            "coefficients",
            size,
            |_, out| words::coefficients(n, black_box(vector), p, out),
            |_, out| answered(|answer| plain::coefficients::<ByWords>(n, black_box(vector), p, out, answer)),
            Another(|_: &mut [u8], out: &mut [u8]| {
                answered(|answer| plain::coefficients::<ByBytes>(n, black_box(vector), p, out, answer))
            }),
        );
        row(
            highest,
            "vector",
            size,
            |_, out| words::vector(n, black_box(vector), p, out),
            |_, out| answered(|answer| plain::vector::<ByWords>(n, black_box(vector), p, out, answer)),
            Another(|_: &mut [u8], out: &mut [u8]| {
                answered(|answer| plain::vector::<ByBytes>(n, black_box(vector), p, out, answer))
            }),
        );
        row(
            highest,
            "write form",
            size,
            |_, out| words::write_form(n, black_box(vector), p, out),
            |_, out| answered(|answer| plain::write_form(n, black_box(vector), p, out, answer)),
            SAME_WAY,
        );
        row(
            highest,
            "best polarity",
            size,
            |_, _| words::best_polarity(n, black_box(vector)),
            |_, _| answered(|answer| plain::best_polarity::<ByWords>(n, black_box(vector), answer)),
            Another(|_: &mut [u8], _: &mut [u8]| {
                answered(|answer| plain::best_polarity::<ByBytes>(n, black_box(vector), answer))
            }),
        );
    }
}

fn trees(highest: &mut f64) {
    use plain::{write_kronecker, write_tree};
    let few = [(0, "n = 0"), (1, "n = 1"), (2, "n = 2"), (3, "n = 3")];
    for (n, size) in few.into_iter().chain([(8, "n = 8")]) {
        list_row(highest, ("write tree", n, size), words::write_tree, write_tree::<ByWords>, write_tree::<ByBytes>);
    }
    for (n, size) in few.into_iter().chain([(6, "n = 6")]) {
        let (same_way, straightforward) = (write_kronecker::<ByWords>, write_kronecker::<ByBytes>);
        list_row(highest, ("write kronecker", n, size), words::write_kronecker, same_way, straightforward);
    }
}

/// A call that writes a list for a vector.
fn list_row(
    highest: &mut f64,
    (call, n, size): (&str, u32, &str),
    library: impl Fn(u64, &[u8], &mut [u8]) -> plain::Words,
    same_way: impl Fn(u64, &[u8], &mut [u8], &mut plain::Words),
    straightforward: impl Fn(u64, &[u8], &mut [u8], &mut plain::Words),
) {
    let vector = &bits(n);
    let n = u64::from(n);
    row(
        highest,
        call,
        size,
        |_, out| library(n, black_box(vector), out),
        |_, out| answered(|answer| same_way(n, black_box(vector), out, answer)),
        Another(|_: &mut [u8], out: &mut [u8]| answered(|answer| straightforward(n, black_box(vector), out, answer))),
    );
}

/// Plain Rust's refusals at a step: each number with its place and its number of differing variables.
fn refusals() {
    let list = &[record(0, 0), record(7, 0), record(7, 1), record(7, 7), record(0, 0)].concat();
    let (drop, join, turn) = (|i, j| step(1, 0, i, j, 0), |i, j| step(2, 0, i, j, 0), |v, i, j| step(4, v, i, j, 0));
    for (last, number, differing) in [
        (drop(0, 5), 10, 0),
        (join(1, 1), 11, 0),
        (step(3, 0, 0, 0, 0), 13, 0),
        (drop(0, 1), 16, 3),
        (join(0, 4), 17, 0),
        (join(2, 3), 17, 2),
        (turn(0, 0, 4), 18, 0),
        (turn(1, 1, 2), 18, 1),
        (turn(0, 1, 3), 18, 3),
        (turn(0, 2, 3), 19, 2),
    ] {
        let script = &[step(5, 0, 0, 0, 0), last].concat();
        let (mut work, mut plain_work) = (vec![7; 40], vec![7; 40]);
        let library = words::run(3, list, script, &mut work);
        let plain = answered(|answer| plain::run(3, list, script, &mut plain_work, answer));
        assert_eq!(library, [number, 1, differing, 0, 0, 0, 0, 0]);
        assert_eq!((library, work), (plain, plain_work));
    }
}

fn scripts(highest: &mut f64) {
    let half = RECORDS / 2;
    let one_apart = paired_list(RECORDS, 32, 1);
    let two_apart = paired_list(RECORDS, 32, 2);
    let (small, small_script) = small_map();
    let drop = step(1, 0, 0, 1, 0);
    let small_refused = [step(2, 0, 1, 2, 0), drop].concat();
    let refused = [joins(STEPS - 1, half), drop.to_vec()].concat();
    for (call, n, list, script, size) in [
        ("run", 2, &small, &small_script, "3 records, 2 steps, n = 2"),
        ("run", 32, &one_apart, &joins(STEPS, half), "4,096 records, 1,024 joins, n = 32"),
        ("run", 32, &two_apart, &turns(STEPS, half), "4,096 records, 1,024 turns, n = 32"),
        ("run", 32, &one_apart, &exchanges(STEPS, 32), "4,096 records, 1,024 L steps, n = 32"),
        (REFUSED, 2, &small, &small_refused, "3 records, by 16 at the second step, n = 2"),
        (REFUSED, 32, &one_apart, &refused, "4,096 records, by 16 after 1,023 joins, n = 32"),
    ] {
        row(
            highest,
            call,
            size,
            |work, _| words::run(n, black_box(list), black_box(script), work),
            |work, _| answered(|answer| plain::run(n, black_box(list), black_box(script), work, answer)),
            SAME_WAY,
        );
    }
}

fn settling(highest: &mut f64) {
    let half = RECORDS / 2;
    let (small, small_script) = small_map();
    let (eight, thirty_two) = (paired_list(RECORDS, 8, 1), paired_list(RECORDS, 32, 1));
    for (n, list, script, size) in [
        (2, &small, &small_script, "3 records, 2 steps, n = 2"),
        (8, &eight, &joins(STEPS, half), "4,096 records, 1,024 joins, n = 8"),
        (8, &eight, &exchanges(STEPS, 8), "4,096 records, 1,024 L steps, n = 8"),
        (32, &thirty_two, &joins(STEPS, half), "4,096 records, 1,024 joins, n = 32"),
        (32, &thirty_two, &mixed(STEPS, half, 32), "4,096 records, 768 joins and 256 L steps, n = 32"),
    ] {
        row(
            highest,
            "settle",
            size,
            |work, out| words::settle(n, black_box(list), black_box(script), work, out),
            |work, out| {
                answered(|answer| plain::settle::<ByWords>(n, black_box(list), black_box(script), work, out, answer))
            },
            if n <= 8 {
                Another(|work: &mut [u8], out: &mut [u8]| {
                    answered(|answer| {
                        plain::settle::<ByBytes>(n, black_box(list), black_box(script), work, out, answer)
                    })
                })
            } else {
                Same
            },
        );
    }
}

/// Document 01's example: `1-` `-1` `11`; join 1 2, turn v=0 0 1.
fn small_map() -> (Vec<u8>, Vec<u8>) {
    let list = [record(1, 1), record(2, 2), record(3, 3)].concat();
    let script = [step(2, 0, 1, 2, 0), step(4, 0, 0, 1, 0)].concat();
    (list, script)
}

/// The eight words of a call, kept and filled as the wrapper of the library does.
#[inline]
fn answered(call: impl FnOnce(&mut plain::Words)) -> plain::Words {
    let mut answer = [u64::MAX; 8];
    call(&mut answer);
    answer
}
