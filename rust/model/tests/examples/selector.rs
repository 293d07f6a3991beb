//! Document 02, Thirteen.

use super::records;
use model::cube::RECORD;
use model::refusal::Refusal;
use model::script::Step::{Drop, Join, L, Split, Turn};
use model::script::{Step, encoded_script};
use model::selector::{MOST_LISTS, MapOutcome, MapRefusal, Parts, PerList, map_reasons, settle_map, slot, words};

/// Three lists over two variables: OR, AND, and OR once more, with the constant.
const LISTS: [&[&str]; 3] = [&["1-", "-1", "11"], &["11"], &["--", "00"]];

/// Their lengths in bytes.
const LENGTHS: [u64; 3] = [24, 8, 16];

fn end_to_end(lists: &[&[&str]]) -> Vec<u8> {
    lists.iter().flat_map(|cubes| records(cubes)).collect()
}

fn refused(number: u64, place: u64, list: Option<usize>) -> MapOutcome {
    refused_for(number, place, 0, list)
}

fn refused_for(number: u64, place: u64, differing: u64, list: Option<usize>) -> MapOutcome {
    Err(MapRefusal { refusal: Refusal { number, place, differing }, list })
}

fn slot_of(lists: &[&[&str]], lengths: &[u64], a: u64) -> MapOutcome {
    slot(2, Parts { bytes: &end_to_end(lists), lengths }, a)
}

/// Numbers for the first lists, and zeros after them.
fn per_list(numbers: &[u64]) -> PerList {
    std::array::from_fn(|k| numbers.get(k).copied().unwrap_or(0))
}

#[test]
fn bit_k_from_list_k() {
    assert_eq!([0, 1, 2, 3].map(|a| slot_of(&LISTS, &LENGTHS, a)), [Ok(0), Ok(0b101), Ok(0b101), Ok(0b111)]);
    assert_eq!([0, 1, 2, 3].map(|a| slot_of(&LISTS[1..], &LENGTHS[1..], a)), [Ok(0), Ok(0b10), Ok(0b10), Ok(0b11)]);
    // A list of no records is 0 at every label.
    assert_eq!(slot_of(&LISTS, &[0, 24, 0, 8, 16], 3), Ok(0b11010));
    assert_eq!(slot_of(&[], &[0], 3), Ok(0));
}

#[test]
fn one_to_twelve_lists() {
    let ones = vec![0; RECORD * 13];
    let of = |count: usize| slot(0, Parts { bytes: &ones[..RECORD * count], lengths: &[8; 13][..count] }, 0);
    assert_eq!(of(0), refused(24, 0, None));
    assert_eq!(of(1), Ok(1));
    assert_eq!(of(12), Ok(0xfff));
    assert_eq!(of(13), refused(24, 0, None));
    // 24 before 26, whatever is in the buffer.
    assert_eq!(slot(33, Parts { bytes: &ones, lengths: &[] }, 0), refused(24, 0, None));
    assert_eq!(slot(33, Parts { bytes: &[], lengths: &[8; 13] }, 0), refused(24, 0, None));
}

#[test]
fn lengths_that_do_not_add_up() {
    for lengths in [&[24, 8, 15][..], &[24, 8, 17], &[24, 8], &[48, 8], &[24, 8, 16, 8], &[0]] {
        assert_eq!(slot_of(&LISTS, lengths, 0), refused(26, 0, None));
    }
    // These add up to 48 if the sum is taken modulo 2^64.
    for lengths in [&[u64::MAX, 49][..], &[1 << 63, 48, 1 << 63], &[24, 8, 16, u64::MAX - 7, 8]] {
        assert_eq!(slot_of(&LISTS, lengths, 0), refused(26, 0, None));
    }
    assert_eq!(slot_of(&LISTS, &[0, 48], 0), Ok(0b00));
}

/// The first list that is refused, in the order of the value call.
#[test]
fn the_lists_in_turn() {
    let mut bad = end_to_end(&LISTS);
    // The second record of list 0 has a value bit outside seen, and so has the first of list 2.
    bad[8] = 0;
    bad[36] = 1;
    let on = |n, bytes: &[u8], lengths: &[u64], a| slot(n, Parts { bytes, lengths }, a);
    assert_eq!(on(2, &bad, &LENGTHS, 4), refused(4, 1, Some(0)));
    bad[8] = 2;
    // The label is tested with list 0.
    assert_eq!(on(2, &bad, &LENGTHS, 4), refused(6, 0, Some(0)));
    assert_eq!(on(2, &bad, &LENGTHS, 3), refused(4, 0, Some(2)));
    assert_eq!(on(2, &bad, &[24, 7, 17], 3), refused(2, 0, Some(1)));
    assert_eq!(on(2, &bad, &[23, 9, 16], 3), refused(2, 0, Some(0)));
    assert_eq!(on(1, &bad, &LENGTHS, 3), refused(4, 1, Some(0)));
    assert_eq!(on(33, &bad, &LENGTHS, 3), refused(1, 0, Some(0)));
    let long = vec![0; RECORD * 4098];
    assert_eq!(on(32, &long, &[8, 8 * 4097], 3), refused(3, 0, Some(1)));
    assert_eq!(on(32, &long, &[8 * 4096, 16], 3), Ok(0));
}

#[test]
fn words_of_an_answer() {
    assert_eq!(words(&Ok(5)), [0, 0, 5, 0, 0, 0, 0, 0]);
    assert_eq!(words(&refused_for(18, 3, 5, Some(11))), [18, 3, 5, 11, 0, 0, 0, 0]);
    assert_eq!(words(&refused(4, 1, Some(0))), [4, 1, 0, 0, 0, 0, 0, 0]);
    assert_eq!(words(&refused(24, 0, None)), [24, 0, 0, u64::MAX, 0, 0, 0, 0]);
}

/// What a call leaves: answer, work, output, and the numbers.
type Left = (MapOutcome, Vec<u8>, Vec<u8>, PerList);

/// Settled with these scripts, in buffers of so many bytes.
fn settled(n: u64, lists: Parts, scripts: &[&[Step]], work: usize, out: usize) -> Left {
    let scripts: Vec<Vec<u8>> = scripts.iter().map(|steps| encoded_script(steps)).collect();
    let lengths: Vec<u64> = scripts.iter().map(|script| script.len() as u64).collect();
    settled_in(n, lists, Parts { bytes: &scripts.concat(), lengths: &lengths }, work, out)
}

fn settled_in(n: u64, lists: Parts, scripts: Parts, work: usize, out: usize) -> Left {
    let (mut work, mut out, mut lengths) = (vec![7; work], vec![7; out], [7; MOST_LISTS]);
    let outcome = settle_map(n, lists, scripts, &mut work, &mut out, &mut lengths);
    (outcome, work, out, lengths)
}

/// Nothing is written.
fn untouched(outcome: MapOutcome, work: usize, out: usize) -> Left {
    (outcome, vec![7; work], vec![7; out], [7; MOST_LISTS])
}

/// All is zero.
fn zeros(outcome: MapOutcome, work: usize, out: usize) -> Left {
    (outcome, vec![0; work], vec![0; out], [0; MOST_LISTS])
}

const JOIN_AND_TURN: [Step; 2] = [Join { i: 1, j: 2 }, Turn { v: 0, i: 0, j: 1 }];

#[test]
fn each_list_with_its_own_script() {
    let bytes = end_to_end(&LISTS);
    let lists = Parts { bytes: &bytes, lengths: &LENGTHS };
    let mut out = end_to_end(&[&["--", "00"], &["11"], &["--", "00"]]);
    assert_eq!(out.len(), 40);
    out.resize(51, 0);
    // Each list costs 1: the constant is free in each of them.
    let expected = (Ok(3), vec![0; 25], out, per_list(&[16, 8, 16]));
    assert_eq!(settled(2, lists, &[&JOIN_AND_TURN, &[], &[]], 25, 51), expected);
    // A list of no records stays one, and a function that is 0 has none.
    let none = Parts { bytes: &records(&["0", "1", "-"]), lengths: &[0, 24, 0] };
    assert_eq!(settled(1, none, &[&[], &[], &[]], 24, 24), (Ok(0), vec![0; 24], vec![0; 24], [0; 12]));
    // Above 8 variables the script's result or the given list; both constants of list 0 are products, and one is free.
    let nine = ["---------"; 2];
    let bytes = end_to_end(&[&nine, &nine[1..]]);
    let lists = Parts { bytes: &bytes, lengths: &[16, 8] };
    assert_eq!(settled(9, lists, &[&[], &[]], 16, 24), (Ok(1), vec![0; 16], vec![0; 24], per_list(&[16, 8])));
    let dropped = settled(9, lists, &[&[Drop { i: 1, j: 0 }], &[]], 16, 24);
    assert_eq!(dropped, (Ok(0), vec![0; 16], vec![0; 24], per_list(&[0, 8])));
}

/// "Only the first three below write nothing."
#[test]
fn a_map_that_is_refused_for_no_list() {
    let bytes = end_to_end(&LISTS);
    let lists = Parts { bytes: &bytes, lengths: &LENGTHS };
    let scripts = |lengths: &'static [u64]| Parts { bytes: &[9; 16], lengths };
    let none = Parts { bytes: &bytes, lengths: &[] };
    assert_eq!(settled_in(33, none, scripts(&[]), 0, 0), untouched(refused(24, 0, None), 0, 0));
    // Of the lists, of the scripts, and of their number.
    for (lists, scripts) in [
        (Parts { lengths: &[24, 8, 8], ..lists }, scripts(&[16, 0, 0])),
        (lists, scripts(&[16, 0, 8])),
        (lists, scripts(&[16, u64::MAX, 1])),
        (lists, scripts(&[16, 0])),
        (lists, scripts(&[16, 0, 0, 0])),
    ] {
        assert_eq!(settled_in(33, lists, scripts, 3, 47), untouched(refused(26, 0, None), 3, 47));
    }
    // By the given lists, and not by what is burned.
    assert_eq!(settled_in(33, lists, scripts(&[16, 0, 0]), 3, 47), untouched(refused(5, 0, None), 3, 47));
    assert_eq!(settled_in(33, lists, scripts(&[16, 0, 0]), 3, 48), zeros(refused(1, 0, Some(0)), 3, 48));
}

/// "A refused list or script refuses the map, with the list's number, and every buffer that the call writes ends all zero, even where no script has
/// started."
#[test]
fn a_list_that_is_refused() {
    let bytes = end_to_end(&LISTS);
    let lists = Parts { bytes: &bytes, lengths: &LENGTHS };
    let on = |scripts: &[&[Step]], work| settled(2, lists, scripts, work, 50);
    let l = L { v: 0, literal: 1 };
    // The work buffer has room for list 1 alone, or for all but list 0.
    assert_eq!(on(&[&[], &[], &[]], 8), zeros(refused(5, 0, Some(0)), 8, 50));
    let first = Parts { bytes: &bytes[24..], lengths: &[8, 16] };
    assert_eq!(settled(2, first, &[&[l], &[]], 15, 24), zeros(refused(5, 0, Some(1)), 15, 24));
    // At a step of list 1, after list 0 was settled; and list 2 is not looked at.
    let scripts: [&[Step]; 3] = [&JOIN_AND_TURN, &[l, Drop { i: 0, j: 1 }], &[Split { v: 2, i: 0 }]];
    assert_eq!(on(&scripts, 24), zeros(refused(10, 1, Some(1)), 24, 50));
    assert_eq!(on(&[&JOIN_AND_TURN, &[l], scripts[2]], 24), zeros(refused(9, 0, Some(2)), 24, 50));
    assert_eq!(on(&[scripts[1], &[], &[]], 24), zeros(refused_for(16, 1, 2, Some(0)), 24, 50));
    // The capacity for a split is that of the work buffer.
    let splits: [&[Step]; 3] = [&[], &[Split { v: 0, i: 0 }; 3], &[]];
    assert_eq!(on(&splits, 31), zeros(refused(13, 2, Some(1)), 31, 50));
    assert_eq!(on(&splits, 32).0, Ok(3));
    // The script of list 2 has a step too many, or a byte.
    let eight = vec![5; 8 * 1025];
    let scripts = Parts { bytes: &eight, lengths: &[0, 0, 8 * 1025] };
    assert_eq!(settled_in(2, lists, scripts, 24, 48), zeros(refused(8, 0, Some(2)), 24, 48));
    let scripts = Parts { bytes: &eight[..7], lengths: &[0, 7, 0] };
    assert_eq!(settled_in(2, lists, scripts, 24, 48), zeros(refused(7, 0, Some(1)), 24, 48));
}

/// The reasons of a label, in a buffer of so many bytes.
fn shown(n: u64, lists: Parts, a: u64, room: usize) -> (MapOutcome, Vec<u8>, PerList) {
    let (mut out, mut numbers) = (vec![7; room], [7; MOST_LISTS]);
    let outcome = map_reasons(n, lists, a, &mut out, &mut numbers);
    (outcome, out, numbers)
}

#[test]
fn reasons_end_to_end() {
    let bytes = end_to_end(&LISTS);
    let lists = Parts { bytes: &bytes, lengths: &LENGTHS };
    let at = |a, places: &[u8], slot, numbers: &[u64]| {
        let left = [places, &[7; 13][places.len()..]].concat();
        assert_eq!(shown(2, lists, a, 13), (Ok(slot), left, per_list(numbers)));
    };
    at(3, &[0, 0, 1, 0, 2, 0, 0, 0, 0, 0], 0b111, &[3, 1, 1]);
    at(2, &[1, 0, 0, 0], 0b101, &[1, 0, 1]);
    at(0, &[0, 0, 1, 0], 0, &[0, 0, 2]);
    // 2 bytes for each of the six products.
    let refusal = refused(5, 0, None);
    assert_eq!(shown(2, lists, 4, 11), (refusal, vec![7; 11], [7; 12]));
    assert_eq!(shown(2, lists, 4, 12), (refused(6, 0, Some(0)), vec![0; 12], [0; 12]));
    assert_eq!(shown(1, lists, 0, 12), (refused(4, 1, Some(0)), vec![0; 12], [0; 12]));
    // List by list, rounded down: five records, and not six.
    let odd = Parts { bytes: &bytes, lengths: &[28, 4, 16] };
    assert_eq!(shown(2, odd, 0, 10), (refused(2, 0, Some(0)), vec![0; 10], [0; 12]));
    assert_eq!(shown(2, odd, 0, 9), (refused(5, 0, None), vec![7; 9], [7; 12]));
}
