//! Write script: its rows, and how many passes over all pairs of a long list a call takes.

use crate::easy_lists::{chains, joins_at_the_back, minterms, no_pair};
use crate::inputs::paired_list;
use crate::plain::{self, ByMarks, FromTheFront};
use crate::table::{Straightforward, medians, row, time};
use crate::{answered, small_map};
use druthmoy::words;
use std::hint::black_box;

/// A list, and the number of steps of its easy script.
struct Easy {
    size: &'static str,
    n: u64,
    list: Vec<u8>,
    steps: u64,
    /// Whether a search from the front for each step is soon done.
    from_the_front: bool,
}

fn short() -> [Easy; 2] {
    let (small, _) = small_map();
    let pairs = paired_list(64, 16, 1);
    [
        Easy { size: "3 records, 1 join, n = 2", n: 2, list: small, steps: 1, from_the_front: true },
        Easy { size: "64 records, 32 joins, n = 16", n: 16, list: pairs, steps: 32, from_the_front: true },
    ]
}

fn long() -> [Easy; 4] {
    let easy = |size, n, list, steps| Easy { size, n, list, steps, from_the_front: steps == 0 };
    [
        easy("4,096 records, no pair, n = 13", 13, no_pair(), 0),
        easy("4,096 records, 1,024 joins at the back, n = 32", 32, joins_at_the_back(), 1024),
        easy("4,096 records, 256 chains of 4 joins, each far in front, n = 32", 32, chains(), 1024),
        easy("4,096 minterms, 1,024 joins, n = 12", 12, minterms(), 1024),
    ]
}

pub fn rows(highest: &mut f64) {
    for Easy { size, n, list, steps, from_the_front } in short().into_iter().chain(long()) {
        let list = &list[..];
        let library = |work: &mut [u8], out: &mut [u8]| words::write_script(n, black_box(list), work, out);
        assert_eq!(library(&mut vec![7; list.len()], &mut vec![7; list.len()])[2], steps, "{size}");
        row(
            highest,
            "write script",
            size,
            library,
            |work, out| answered(|answer| plain::write_script::<ByMarks>(n, black_box(list), work, out, answer)),
            if from_the_front {
                Straightforward::Another(|work: &mut [u8], out: &mut [u8]| {
                    answered(|answer| plain::write_script::<FromTheFront>(n, black_box(list), work, out, answer))
                })
            } else {
                Straightforward::NotMeasured
            },
        );
    }
}

/// Prints the time of a call on each long list over that of one pass over all pairs of it, in plain Rust.
pub fn passes() {
    println!("\n| write script | one pass | library, in passes | plain Rust, in passes |");
    println!("|---|---:|---:|---:|");
    for Easy { size, n, list, .. } in long() {
        let list = &list[..];
        let plain = |work: &mut [u8], out: &mut [u8]| {
            answered(|answer| plain::write_script::<ByMarks>(n, black_box(list), work, out, answer))
        };
        let (library, pass, plain) = medians(
            |work, out| words::write_script(n, black_box(list), work, out),
            |_, _| plain::pass(black_box(list)),
            Some(plain),
        );
        let [library, plain] = [library, plain.expect("all three are measured")].map(|time| time / pass);
        println!("| {size} | {} | {library:.2} | {plain:.2} |", time(pass));
    }
}
