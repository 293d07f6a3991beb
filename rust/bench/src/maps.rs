//! The calls on maps of several lists: their rows.

use crate::inputs::{half_true_list, joins, mixed, paired_list, step};
use crate::plain::{self, ByBytes, ByWords, PerList};
use crate::table::{SAME_WAY, Straightforward, map_row};
use crate::{RECORDS, STEPS, answered};
use druthmoy::{Parts, words};
use std::hint::black_box;

const LISTS: usize = 12;

pub fn rows(highest: &mut f64) {
    refused_maps();
    refused_lists();
    slots(highest);
    settling(highest);
    reasons(highest);
}

/// Lists or scripts end to end, and the lengths of each.
struct Map {
    bytes: Vec<u8>,
    lengths: Vec<u64>,
}

impl Map {
    /// The same again and again.
    fn of(part: &[u8], count: usize) -> Map {
        Map { bytes: part.repeat(count), lengths: vec![part.len() as u64; count] }
    }

    fn parts(&self) -> Parts<'_> {
        Parts { bytes: black_box(&self.bytes), lengths: black_box(&self.lengths) }
    }

    fn plain(&self) -> plain::Parts<'_> {
        (black_box(&self.bytes), black_box(&self.lengths))
    }
}

/// The numbers go into words of their own, which the caller looks at.
fn with_numbers(call: impl FnOnce(&mut PerList) -> plain::Words) -> plain::Words {
    let mut numbers = [7; LISTS];
    let answer = call(&mut numbers);
    black_box(&numbers);
    answer
}

/// Three lists of two pairs, and for each list a script that joins them: place 3 has come to place 2 when the second one is.
fn small_maps() -> (Map, Map) {
    let script = [step(2, 0, 0, 2, 0), step(2, 0, 1, 2, 0)].concat();
    (Map::of(&paired_list(4, 4, 1), 3), Map::of(&script, 3))
}

/// What is left by the library and by plain Rust, which must be the same: answer, buffers and numbers.
fn settled_alike(
    n: u64,
    lists: &Map,
    scripts: &Map,
    [work, out]: [usize; 2],
) -> (plain::Words, Vec<u8>, Vec<u8>, PerList) {
    let lent = || (vec![7; work], vec![7; out], [7; LISTS]);
    let (mut work, mut out, mut numbers) = lent();
    let library = words::settle_map(n, lists.parts(), scripts.parts(), &mut work, &mut out, &mut numbers);
    let library = (library, work, out, numbers);
    let (mut work, mut out, mut numbers) = lent();
    let plain = answered(|answer| {
        plain::settle_map::<ByWords>(n, lists.plain(), scripts.plain(), &mut work, &mut out, &mut numbers, answer);
    });
    assert!(library == (plain, work, out, numbers), "settle map, n = {n}: plain Rust differs");
    library
}

/// Plain Rust's refusals of a map: for no list of it, where nothing is written.
fn refused_maps() {
    let (lists, scripts) = small_maps();
    let with = |lengths: &[u64]| Map { bytes: lists.bytes.clone(), lengths: lengths.to_vec() };
    for (lists, out, number) in [
        (with(&[]), 96, 24),
        (with(&[8; 13]), 96, 24),
        (with(&[32, 32, 31]), 96, 26),
        (with(&[1 << 63, 96, 1 << 63]), 96, 26),
        (with(&[32, 32, 32, 0]), 96, 26),
        (with(&[32, 32, 32]), 95, 5),
    ] {
        let (answer, work, out, numbers) = settled_alike(4, &lists, &scripts, [32, out]);
        assert_eq!(answer, [number, 0, 0, u64::MAX, 0, 0, 0, 0]);
        assert!(work.iter().chain(&out).all(|&byte| byte == 7) && numbers == [7; LISTS]);
    }
}

/// Plain Rust's refusals of a list, or of its script, where all is zero; of the lists' labels too.
fn refused_lists() {
    let (lists, scripts) = small_maps();
    let mut bad = Map { bytes: lists.bytes.clone(), lengths: lists.lengths.clone() };
    bad.bytes[32 + 2 * 8 + 1] = 1;
    let drop = [step(2, 0, 0, 2, 0), step(1, 0, 0, 1, 0)].concat();
    let steps = Map { bytes: [&scripts.bytes[..32], &drop].concat(), lengths: scripts.lengths.clone() };
    for (lists, scripts, work, expected) in
        [(&bad, &scripts, 32, [4, 2, 1]), (&lists, &scripts, 31, [5, 0, 0]), (&lists, &steps, 32, [16, 1, 2])]
    {
        let (answer, work, out, numbers) = settled_alike(4, lists, scripts, [work, 99]);
        assert_eq!([answer[0], answer[1], answer[3]], expected);
        assert!(work.iter().chain(&out).all(|&byte| byte == 0) && numbers == [0; LISTS]);
    }
    for (lists, a, expected) in [(&bad, 5, [4, 2, 1]), (&bad, 16, [6, 0, 0])] {
        let library = words::slot(4, lists.parts(), a);
        assert_eq!([library[0], library[1], library[3]], expected);
        assert_eq!(answered(|answer| plain::slot(4, lists.plain(), a, answer)), library);
        let (mut out, mut numbers) = (vec![7; 25], [7; LISTS]);
        assert_eq!(words::map_reasons(4, lists.parts(), a, &mut out, &mut numbers), library);
        assert_eq!((out, numbers), (vec![0; 25], [0; LISTS]));
        let (mut out, mut numbers) = (vec![7; 25], [7; LISTS]);
        assert_eq!(answered(|answer| plain::map_reasons(4, lists.plain(), a, &mut out, &mut numbers, answer)), library);
        assert_eq!((out, numbers), (vec![0; 25], [0; LISTS]));
    }
}

fn slots(highest: &mut f64) {
    for (n, list, count, size) in [
        (4, paired_list(4, 4, 1), 3, "3 lists of 4 records, n = 4"),
        (32, paired_list(RECORDS, 32, 1), LISTS, "12 lists of 4,096 records, n = 32"),
    ] {
        let lists = &Map::of(&list, count);
        map_row(
            highest,
            "slot",
            size,
            |_, _| words::slot(n, lists.parts(), 5),
            |_, _| answered(|answer| plain::slot(n, lists.plain(), 5, answer)),
            SAME_WAY,
        );
    }
}

fn settling(highest: &mut f64) {
    let half = RECORDS / 2;
    let (small, small_scripts) = small_maps();
    let large = Map::of(&paired_list(RECORDS, 32, 1), LISTS);
    let of_all = |script: &[u8]| Map::of(script, LISTS);
    for (n, lists, scripts, size) in [
        (4, &small, &small_scripts, "3 lists of 4 records, 2 joins each, n = 4"),
        (32, &large, &of_all(&joins(STEPS, half)), "12 lists of 4,096 records, 1,024 joins each, n = 32"),
        (
            32,
            &large,
            &of_all(&mixed(STEPS, half, 32)),
            "12 lists of 4,096 records, 768 joins and 256 L steps each, n = 32",
        ),
    ] {
        // The buffers are as long as they must be.
        let (room, most) = (lists.lengths[0] as usize, lists.bytes.len());
        settled_alike(n, lists, scripts, [room, most]);
        let straightforward = |work: &mut [u8], out: &mut [u8]| {
            let (work, out) = (&mut work[..room], &mut out[..most]);
            with_numbers(|lengths| {
                answered(|answer| {
                    plain::settle_map::<ByBytes>(n, lists.plain(), scripts.plain(), work, out, lengths, answer)
                })
            })
        };
        map_row(
            highest,
            "settle map",
            size,
            |work, out| {
                let (work, out) = (&mut work[..room], &mut out[..most]);
                with_numbers(|lengths| words::settle_map(n, lists.parts(), scripts.parts(), work, out, lengths))
            },
            |work, out| {
                let (work, out) = (&mut work[..room], &mut out[..most]);
                with_numbers(|lengths| {
                    answered(|answer| {
                        plain::settle_map::<ByWords>(n, lists.plain(), scripts.plain(), work, out, lengths, answer)
                    })
                })
            },
            if n <= 8 { Straightforward::Another(straightforward) } else { Straightforward::Same },
        );
    }
}

fn reasons(highest: &mut f64) {
    for (n, list, count, size) in [
        (4, half_true_list(4, 4, 5), 3, "3 lists of 4 records, 3 true in each, n = 4"),
        (32, half_true_list(RECORDS, 32, 5), LISTS, "12 lists of 4,096 records, 2,019 true in each, n = 32"),
    ] {
        let lists = &Map::of(&list, count);
        let (library, same_way) = (&mut [7; LISTS], &mut [8; LISTS]);
        let room = lists.bytes.len();
        words::map_reasons(n, lists.parts(), 5, &mut vec![7; room], library);
        plain::map_reasons(n, lists.plain(), 5, &mut vec![7; room], same_way, &mut [0; 8]);
        assert_eq!(library, same_way, "map reasons, {size}");
        map_row(
            highest,
            "map reasons",
            size,
            |_, out| with_numbers(|numbers| words::map_reasons(n, lists.parts(), 5, out, numbers)),
            |_, out| {
                with_numbers(|numbers| answered(|answer| plain::map_reasons(n, lists.plain(), 5, out, numbers, answer)))
            },
            SAME_WAY,
        );
    }
}
