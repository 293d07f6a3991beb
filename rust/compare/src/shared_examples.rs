//! Document 02, Nine: shared lists checked, valued, run and settled. What is written is compared with the model's.

use crate::differ::{Call, Case, empty};
use crate::examples::{Example, records};
use crate::shared_cases::outputs;
use model::cube::{RECORD, read};
use model::script::Step::{Drop, Join, L, Split, Turn};
use model::shared::Step::{self, Merge, Plain};
use model::shared::{SHARED_RECORD, encoded_list, encoded_script};

pub fn all() -> Vec<Example> {
    [checks(), values(), runs(), refused_steps(), damaged_steps(), settled(), limits()].concat()
}

type Products<'a> = [(&'a str, u32)];

const PRODUCTS: [(&str, u32); 4] = [("1-", 0b011), ("-1", 0b110), ("1-", 0b010), ("00", 1 << 31)];

/// The records of products with these cubes and outputs, bit k for output k.
fn bytes(products: &Products) -> Vec<u8> {
    encoded_list(&products.iter().map(|&(cube, word)| (read(cube), outputs(word))).collect())
}

fn check(n: u64, input: Vec<u8>) -> Case {
    Case { input, ..empty(Call::SharedCheck, n) }
}

fn checks() -> Vec<Example> {
    let longest = bytes(&[("", 1)]).repeat(4096);
    let mut bad_cube = bytes(&[("1-", 1), ("--", 4), ("-1", 0)]);
    bad_cube[SHARED_RECORD + 4] = 1;
    vec![
        (check(2, bytes(&PRODUCTS)), vec![0, 0, 4]),
        (check(32, vec![]), vec![0, 0, 0]),
        (check(1, bytes(&PRODUCTS)), vec![4, 1]),
        (check(2, bytes(&[("1-", 1), ("1-", 0), ("-1", 0)])), vec![4, 1]),
        (check(2, bad_cube), vec![4, 1]),
        // Plain lists: of two records, and of three, which are as long as two shared ones.
        (check(2, records(&["1-", "-1"])), vec![2, 0]),
        (check(2, records(&["1-", "-1", "11"])), vec![4, 1]),
        (check(0, longest.clone()), vec![0, 0, 4096]),
        (check(0, [longest, bytes(&[("", 0)])].concat()), vec![3, 0]),
    ]
}

fn values() -> Vec<Example> {
    let at = |n, products: &Products, number| Case { input: bytes(products), number, ..empty(Call::SharedValue, n) };
    let last = format!("{}1", "-".repeat(31));
    vec![
        (at(2, &PRODUCTS, 0), vec![0, 0, 1 << 31, 0]),
        (at(2, &PRODUCTS, 1), vec![0, 0, 0b001]),
        (at(2, &PRODUCTS, 2), vec![0, 0, 0b110]),
        (at(2, &PRODUCTS, 3), vec![0, 0, 0b111]),
        (at(2, &PRODUCTS, 4), vec![6, 0]),
        (at(0, &[("", u32::MAX)], 0), vec![0, 0, 0xffff_ffff]),
        (at(0, &[("", u32::MAX), ("", 1)], 0), vec![0, 0, 0xffff_fffe]),
        (at(0, &[], 0), vec![0, 0, 0]),
        (at(32, &[(&last, 5)], 0x8000_0000), vec![0, 0, 5]),
        (at(32, &[(&last, 5)], 0x7fff_ffff), vec![0, 0, 0]),
        (at(32, &[(&last, 5)], 1 << 32), vec![6, 0]),
    ]
}

/// In buffers for so many records, with five bytes more.
fn on(call: Call, products: &Products, script: &[Step], capacity: usize) -> Case {
    let n = products.first().map_or(2, |(cube, _)| cube.len());
    let buffer = vec![7; SHARED_RECORD * capacity + 5];
    let (input, script) = (bytes(products), encoded_script(script));
    Case { input, script, work: buffer.clone(), out: buffer, ..empty(call, n as u64) }
}

fn runs() -> Vec<Example> {
    let run = |products: &Products, script: &[Step]| on(Call::SharedRun, products, script, 5);
    let same = [("-1", 6), ("00", 1), ("11", 6), ("00", 1)];
    vec![
        (run(&PRODUCTS, &[]), vec![0, 0, 4, 4]),
        (run(&PRODUCTS, &[Merge { i: 0, j: 2 }]), vec![0, 0, 3, 4]),
        (run(&PRODUCTS, &[Merge { i: 2, j: 0 }]), vec![0, 0, 3, 4]),
        // i is last: the result ends at j.
        (run(&[PRODUCTS[0], PRODUCTS[2]], &[Merge { i: 1, j: 0 }]), vec![0, 0, 1, 2]),
        (run(&same, &[Plain(Drop { i: 1, j: 3 })]), vec![0, 0, 2, 4]),
        (run(&same, &[Plain(Join { i: 0, j: 2 })]), vec![0, 0, 3, 4]),
        (run(&same, &[Plain(Split { v: 0, i: 3 })]), vec![0, 0, 5, 5]),
        (run(&same, &[Plain(Split { v: 0, i: 3 }), Plain(Join { i: 3, j: 4 })]), vec![0, 0, 4, 5]),
        (run(&[("1-", 5), ("01", 5)], &[Plain(Turn { v: 0, i: 0, j: 1 })]), vec![0, 0, 2, 2]),
        // The halves of a split are merged with products that have other outputs.
        (run(&[("--", 1), ("0-", 2)], &[Plain(Split { v: 0, i: 0 }), Merge { i: 0, j: 1 }]), vec![0, 0, 2, 3]),
        // L changes cubes until the end, and no outputs.
        (
            run(&[("--", 3), ("11", 1)], &[Plain(L { v: 0, literal: 1 }), Plain(L { v: 1, literal: 1 })]),
            vec![0, 0, 2, 2],
        ),
    ]
}

/// Run and settled; alone, and as the step after two that undo each other.
fn refused_steps() -> Vec<Example> {
    let same = Plain(L { v: 0, literal: 1 });
    let mut examples = Vec::new();
    let mut refused = |products: &Products, step, number, differing| {
        for call in [Call::SharedRun, Call::SharedSettle] {
            let on = |script: &[Step]| on(call, products, script, products.len());
            examples.push((on(&[step]), vec![number, 0, differing, 0, 0, 0, 0, 0]));
            examples.push((on(&[same, same, step]), vec![number, 2, differing, 0, 0, 0, 0, 0]));
        }
    };
    let (drop, join, merge) = (Plain(Drop { i: 0, j: 1 }), Plain(Join { i: 0, j: 1 }), Merge { i: 0, j: 1 });
    let turn = Plain(Turn { v: 0, i: 0, j: 1 });
    refused(&[("1-", 1), ("1-", 3)], drop, 22, 0);
    refused(&[("1-", 1), ("0-", 3)], join, 22, 0);
    refused(&[("1-", 1), ("01", 1 << 31)], turn, 22, 0);
    // 22 after 16 to 19.
    refused(&[("1-", 1), ("01", 3)], drop, 16, 2);
    refused(&[("1-", 1), ("01", 3)], join, 17, 2);
    refused(&[("1-", 1), ("1-", 3)], join, 17, 0);
    refused(&[("1-", 1), ("0-", 3)], turn, 18, 1);
    refused(&[("1-1", 1), ("1--", 3)], turn, 18, 1);
    refused(&[("-1-", 1), ("-01", 3)], turn, 19, 2);

    // 23 for either, or both, and after 11.
    refused(&[("1-", 3), ("1-", 3)], merge, 23, 0);
    refused(&[("1-", 1), ("11", 3)], merge, 23, 0);
    refused(&[("1-", 1), ("00", 1)], merge, 23, 0);
    refused(&[("1-", 1), ("1-", 3)], Merge { i: 1, j: 1 }, 11, 0);
    refused(&[("1-", 1), ("1-", 3)], Merge { i: 2, j: 2 }, 10, 0);
    refused(&[("1-", 1), ("1-", 3)], Merge { i: 0, j: 2 }, 10, 0);
    refused(&[("1-", 1), ("1-", 3)], Plain(Split { v: 0, i: 1 }), 13, 0);
    examples
}

/// A merge uses i and j alone; and plain scripts refuse it.
fn damaged_steps() -> Vec<Example> {
    let merge = [6, 0, 0, 0, 2, 0, 0, 0];
    let with = |at: usize, byte| {
        let mut step = merge;
        step[at] = byte;
        step.to_vec()
    };
    let mut examples = Vec::new();
    for call in [Call::SharedRun, Call::SharedSettle] {
        for (at, byte) in [(0, 7), (0, 0), (0, 255), (1, 1), (6, 1), (7, 1)] {
            examples.push((Case { script: with(at, byte), ..on(call, &PRODUCTS, &[], 5) }, vec![9, 0]));
        }
        examples.push((Case { script: merge.to_vec(), ..on(call, &PRODUCTS, &[], 5) }, vec![0, 0]));
    }
    let plain = Case { input: records(&["1-", "-1", "1-"]), script: merge.to_vec(), ..empty(Call::Run, 2) };
    for call in [Call::Run, Call::Settle, Call::RunIndexed] {
        let (work, out) = (vec![7; 3 * RECORD], vec![7; 3 * RECORD]);
        examples.push((Case { call, work, out, ..plain.clone() }, vec![9, 0]));
    }
    examples.push((Case { call: Call::Compact, number: 3, input: vec![], out: vec![7; 8], ..plain }, vec![9, 0]));
    examples
}

fn settled() -> Vec<Example> {
    let settle = |products: &Products, script: &[Step]| on(Call::SharedSettle, products, script, 5);
    let split = Plain(Split { v: 0, i: 0 });
    let turn = Plain(Turn { v: 0, i: 0, j: 1 });
    vec![
        (settle(&PRODUCTS, &[]), vec![0, 0, 4, 4, 4, 4, 0, 0]),
        (settle(&PRODUCTS, &[Merge { i: 0, j: 2 }]), vec![0, 0, 4, 4, 3, 3, 0, 0]),
        (settle(&PRODUCTS, &[split]), vec![0, 0, 4, 5, 5, 4, 0, 0]),
        // On a tie the script's result, though the given one has a constant.
        (settle(&[("--", 1), ("00", 1)], &[turn]), vec![0, 0, 2, 2, 2, 2, 0, 0]),
        // No form is looked at: both lists are of the function 0.
        (settle(&[("0", 1), ("1", 1), ("-", 1)], &[]), vec![0, 0, 3, 3, 3, 3, 0, 0]),
        (settle(&[("", 2), ("", 2)], &[Plain(Drop { i: 1, j: 0 })]), vec![0, 0, 2, 2, 0, 0, 0, 0]),
        (settle(&[], &[]), vec![0, 0, 0, 0, 0, 0, 0, 0]),
    ]
}

fn limits() -> Vec<Example> {
    let ones = |count: usize| vec![("-", 1); count];
    let (split, exchange) = (Plain(Split { v: 0, i: 0 }), Plain(L { v: 0, literal: 1 }));
    let mut limits = Vec::new();
    for call in [Call::SharedRun, Call::SharedSettle] {
        limits.extend([
            // Capacity is at most 4,096, however long the buffer is, and goes by 12 bytes.
            (on(call, &ones(4096), &[split], 4096), vec![13, 0]),
            (on(call, &ones(4096), &[split], 7000), vec![13, 0]),
            (on(call, &ones(4095), &[split, split], 7000), vec![13, 1]),
            (on(call, &ones(2), &[split], 2), vec![13, 0]),
            (on(call, &ones(4096), &[exchange; 1024], 4096), vec![0, 0]),
            (on(call, &ones(4096), &[exchange; 1025], 4096), vec![8, 0]),
            (on(call, &ones(4096), &[], 4095), vec![5, 0]),
            (on(call, &ones(3), &[], 2), vec![5, 0]),
        ]);
    }
    limits
}
