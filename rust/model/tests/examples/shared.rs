//! Document 02, Nine.

use super::{records, refused, refused_for};
use model::calls::{self, Outcome};
use model::cube::{RECORD, read, written};
use model::script::Step::{Drop, Join, L, Split, Turn};
use model::script::{self, STEP};
use model::shared::Step::{self, Merge, Plain};
use model::shared::{OUTPUTS, SHARED_RECORD, Shared, decoded_step, encoded_list, encoded_script, output, value};

/// The products with these cubes and outputs, bit k for output k.
fn shared(products: &[(&str, u32)]) -> Shared {
    let outputs = |word: u32| (0..OUTPUTS).filter(|&k| word >> k & 1 == 1).collect();
    products.iter().map(|&(cube, word)| (read(cube), outputs(word))).collect()
}

fn bytes(products: &[(&str, u32)]) -> Vec<u8> {
    encoded_list(&shared(products))
}

const PRODUCTS: [(&str, u32); 4] = [("1-", 0b011), ("-1", 0b110), ("1-", 0b010), ("00", 1 << 31)];

#[test]
fn records_of_twelve_bytes() {
    assert_eq!(bytes(&[("1-", 0x8000_0201)]), [1, 0, 0, 0, 1, 0, 0, 0, 1, 2, 0, 0x80]);
    assert_eq!(calls::shared_check(2, &bytes(&PRODUCTS)), Ok(vec![4]));
    assert_eq!(calls::shared_check(32, &[]), Ok(vec![0]));
    // Three plain records are as long as two shared ones.
    assert_eq!(calls::shared_check(2, &records(&["1-", "-1", "11"])), refused(4, 1));
    assert_eq!(calls::shared_check(2, &records(&["1-", "-1"])), refused(2, 0));
    let longest = bytes(&[("", 1)]).repeat(4096);
    assert_eq!(calls::shared_check(0, &longest), Ok(vec![4096]));
    assert_eq!(calls::shared_check(0, &[longest, bytes(&[("", 0)])].concat()), refused(3, 0));
}

/// "4 also for zero outputs", at the lowest record that is bad for either.
#[test]
fn a_record_without_outputs() {
    assert_eq!(calls::shared_check(2, &bytes(&[("1-", 1), ("1-", 0), ("-1", 0)])), refused(4, 1));
    let mut list = bytes(&[("1-", 1), ("--", 4), ("-1", 0)]);
    list[SHARED_RECORD + 4] = 1;
    assert_eq!(calls::shared_check(2, &list), refused(4, 1));
    assert_eq!(calls::shared_check(33, &list), refused(1, 0));
    assert_eq!(calls::shared_value(2, &list, 4), refused(4, 1));
}

/// "Output k's value is the parity over the products that carry bit k."
#[test]
fn all_outputs_as_one_word() {
    let list = shared(&PRODUCTS);
    assert_eq!([0, 1, 2, 3].map(|a| value(&list, a)), [1 << 31, 0b001, 0b110, 0b111]);
    assert_eq!([0, 1, 2, 31].map(|k| output(&list, k, 3)), [1, 1, 1, 0]);
    assert_eq!(calls::shared_value(2, &bytes(&PRODUCTS), 1), Ok(vec![0b001]));
    assert_eq!(calls::shared_value(2, &bytes(&PRODUCTS), 4), refused(6, 0));
    // Each output's value is that of the products that carry it.
    for (k, cubes) in [(0, &["1-"][..]), (1, &["1-", "-1", "1-"]), (2, &["-1"]), (3, &[]), (31, &["00"])] {
        for a in 0..4 {
            assert_eq!(calls::value(2, &records(cubes), a).unwrap()[0], u64::from(output(&list, k, a)));
        }
    }
}

/// "Products without bit k never sway output k."
#[test]
fn products_without_the_bit() {
    let (list, more) = (shared(&PRODUCTS), shared(&[&PRODUCTS[..], &[("--", 0b1000)]].concat()));
    for a in 0..4 {
        assert_eq!(value(&more, a), value(&list, a) ^ 0b1000);
    }
}

/// The list after one step, before any L step is undone.
fn after(products: &[(&str, u32)], step: Step) -> Vec<(String, u32)> {
    let mut list = shared(products);
    model::shared::step(&mut list, step, 4096, 0).unwrap();
    let word = |outputs: &Vec<u8>| outputs.iter().map(|k| 1 << k).sum();
    list.cubes.iter().zip(&list.outputs).map(|(cube, outputs)| (written(cube), word(outputs))).collect()
}

fn products(list: &[(&str, u32)]) -> Vec<(String, u32)> {
    list.iter().map(|&(cube, word)| (cube.to_string(), word)).collect()
}

#[test]
fn merges() {
    let two = [("1-", 0b011), ("1-", 0b110), ("00", 1)];
    assert_eq!(after(&two, Merge { i: 0, j: 1 }), products(&[("1-", 0b101), ("00", 1)]));
    assert_eq!(after(&two, Merge { i: 1, j: 0 }), products(&[("00", 1), ("1-", 0b101)]));
    // The last place: the result ends at j.
    let last = [("1-", 1), ("00", 1), ("1-", 2)];
    assert_eq!(after(&last, Merge { i: 2, j: 0 }), products(&[("1-", 3), ("00", 1)]));
    assert_eq!(after(&last, Merge { i: 0, j: 2 }), products(&[("1-", 3), ("00", 1)]));
}

#[test]
fn the_other_steps() {
    let equal = [("1-", 6), ("1-", 6), ("00", 1)];
    assert_eq!(after(&equal, Plain(Drop { i: 0, j: 1 })), products(&[("00", 1)]));
    let near = [("-1", 6), ("00", 1), ("11", 6)];
    assert_eq!(after(&near, Plain(Join { i: 0, j: 2 })), products(&[("01", 6), ("00", 1)]));
    assert_eq!(after(&near, Plain(Join { i: 2, j: 0 })), products(&[("01", 6), ("00", 1)]));
    assert_eq!(after(&near, Plain(Split { v: 1, i: 1 })), products(&[("-1", 6), ("01", 1), ("11", 6), ("0-", 1)]));
    let turned = after(&[("1-", 5), ("01", 5)], Plain(Turn { v: 0, i: 0, j: 1 }));
    assert_eq!(turned, products(&[("--", 5), ("00", 5)]));
    assert_eq!(after(&near, Plain(L { v: 0, literal: 1 })), products(&[("11", 6), ("00", 1), ("-1", 6)]));
}

/// A run in a buffer for so many records, with bytes behind it.
fn run_in(n: u64, list: &[u8], script: &[Step], records: usize) -> (Outcome, Vec<u8>) {
    let mut work = vec![7; SHARED_RECORD * records + 5];
    let outcome = calls::shared_run(n, list, &encoded_script(script), &mut work);
    (outcome, work)
}

fn run_of(products: &[(&str, u32)], step: Step) -> Outcome {
    let (outcome, work) = run_in(products[0].0.len() as u64, &bytes(products), &[step], products.len());
    assert!(outcome.is_ok() || work.iter().all(|&byte| byte == 0));
    outcome
}

/// 22 after 16 to 19; 23 after 11; neither has a third answer.
#[test]
fn refused_steps() {
    let (drop, join, turn) = (Drop { i: 0, j: 1 }, Join { i: 0, j: 1 }, Turn { v: 0, i: 0, j: 1 });
    assert_eq!(run_of(&[("1-", 1), ("1-", 3)], Plain(drop)), refused(22, 0));
    assert_eq!(run_of(&[("1-", 1), ("0-", 3)], Plain(join)), refused(22, 0));
    assert_eq!(run_of(&[("1-", 1), ("01", 3)], Plain(turn)), refused(22, 0));
    assert_eq!(run_of(&[("1-", 1), ("01", 3)], Plain(drop)), refused_for(16, 0, 2));
    assert_eq!(run_of(&[("1-", 1), ("01", 3)], Plain(join)), refused_for(17, 0, 2));
    assert_eq!(run_of(&[("1-", 1), ("0-", 3)], Plain(turn)), refused_for(18, 0, 1));
    assert_eq!(run_of(&[("-1-", 1), ("-01", 3)], Plain(turn)), refused_for(19, 0, 2));
    let merge = Merge { i: 0, j: 1 };
    assert_eq!(run_of(&[("1-", 1), ("1-", 1)], merge), refused(23, 0));
    assert_eq!(run_of(&[("1-", 1), ("11", 3)], merge), refused(23, 0));
    assert_eq!(run_of(&[("1-", 1), ("11", 1)], merge), refused(23, 0));
    assert_eq!(run_of(&[("1-", 1), ("1-", 3)], Merge { i: 1, j: 1 }), refused(11, 0));
    assert_eq!(run_of(&[("1-", 1), ("1-", 3)], Merge { i: 2, j: 2 }), refused(10, 0));
    assert_eq!(run_of(&[("1-", 1), ("1-", 3)], Plain(Split { v: 0, i: 1 })), refused(13, 0));
    assert_eq!(run_of(&[("1-", 1), ("1-", 3)], merge), Ok(vec![1, 2]));
}

/// A merge uses i and j alone; plain scripts refuse it.
#[test]
fn the_bytes_of_a_merge() {
    assert_eq!(encoded_script(&[Merge { i: 258, j: 1 }]), [6, 0, 2, 1, 1, 0, 0, 0]);
    assert_eq!(decoded_step(2, &[6, 0, 2, 1, 1, 0, 0, 0]), Some(Merge { i: 258, j: 1 }));
    for at in [1, 6, 7] {
        let mut bytes = [6, 0, 0, 0, 1, 0, 0, 0];
        bytes[at] = 1;
        assert_eq!(decoded_step(2, &bytes), None);
        assert_eq!(calls::shared_run(2, &[], &bytes, &mut []), refused(9, 0));
    }
    assert_eq!(decoded_step(2, &[7, 0, 0, 0, 1, 0, 0, 0]), None);
    let merge = encoded_script(&[Merge { i: 0, j: 1 }]);
    assert_eq!(script::decoded(2, &merge), None);
    assert_eq!(calls::run(2, &records(&["1-", "1-"]), &merge, &mut [0; 2 * RECORD]), refused(9, 0));
    assert_eq!(calls::compact(2, 2, &merge, &mut [0; STEP]), refused(9, 0));
}

#[test]
fn runs() {
    // L steps are undone, and outputs stay.
    let script = [Plain(L { v: 0, literal: 1 }), Merge { i: 0, j: 2 }, Plain(L { v: 0, literal: 0 })];
    let (outcome, work) = run_in(2, &bytes(&PRODUCTS), &script, 5);
    assert_eq!(outcome, Ok(vec![3, 4]));
    let left = bytes(&[("1-", 0b001), ("-1", 0b110), ("00", 1 << 31)]);
    assert_eq!(work, [left, vec![0; 2 * SHARED_RECORD + 5]].concat());
    // The capacity goes by 12 bytes.
    assert_eq!(run_in(2, &bytes(&PRODUCTS), &[Plain(Split { v: 0, i: 0 }); 2], 5).0, refused(13, 1));
    let (outcome, work) = run_in(2, &bytes(&PRODUCTS), &script, 3);
    assert_eq!((outcome, work), (refused(5, 0), vec![7; 3 * SHARED_RECORD + 5]));
}

/// "Only the script's result and the given list, by products": on a tie the script's result; the constant costs as others do.
#[test]
fn settled() {
    let settle = |products: &[(&str, u32)], script: &[Step]| {
        let (mut work, mut out) = (vec![7; 5 * SHARED_RECORD], vec![7; 4 * SHARED_RECORD + 1]);
        let n = products[0].0.len() as u64;
        let outcome = calls::shared_settle(n, &bytes(products), &encoded_script(script), &mut work, &mut out);
        (outcome, work, out)
    };
    let padded = |products: &[(&str, u32)]| {
        let mut padded = bytes(products);
        padded.resize(4 * SHARED_RECORD + 1, 0);
        padded
    };
    let zeros = vec![0; 5 * SHARED_RECORD];
    let (outcome, work, out) = settle(&PRODUCTS, &[Merge { i: 2, j: 0 }]);
    assert_eq!((outcome, work), (Ok(vec![4, 4, 3, 3]), zeros.clone()));
    assert_eq!(out, padded(&[("00", 1 << 31), ("-1", 0b110), ("1-", 0b001)]));
    let (outcome, work, out) = settle(&PRODUCTS, &[Plain(Split { v: 0, i: 0 })]);
    assert_eq!((outcome, work, out), (Ok(vec![4, 5, 5, 4]), zeros.clone(), padded(&PRODUCTS)));
    let turn = Plain(Turn { v: 0, i: 0, j: 1 });
    let (outcome, _, out) = settle(&[("--", 1), ("00", 1)], &[turn]);
    assert_eq!((outcome, out), (Ok(vec![2, 2, 2, 2]), padded(&[("1-", 1), ("01", 1)])));
    // Nothing but the two is looked at: the function is 0, and its form has no product.
    let (outcome, _, out) = settle(&[("0", 1), ("1", 1), ("-", 1)], &[]);
    assert_eq!((outcome, out), (Ok(vec![3, 3, 3, 3]), padded(&[("0", 1), ("1", 1), ("-", 1)])));
    // Refused at a step: out is as it was.
    let (outcome, work, out) = settle(&PRODUCTS, &[Merge { i: 0, j: 1 }]);
    assert_eq!((outcome, work, out), (refused(23, 0), zeros, vec![7; 4 * SHARED_RECORD + 1]));
    let (outcome, work, out) = settle(&[PRODUCTS, PRODUCTS].concat()[..5], &[]);
    assert_eq!((outcome, work, out), (refused(5, 0), vec![7; 5 * SHARED_RECORD], vec![7; 4 * SHARED_RECORD + 1]));
}
