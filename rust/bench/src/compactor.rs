//! Compact: its rows, and what pairs cost in a script of 1,024 steps.

use crate::answered;
use crate::idle_scripts::{COUNT, in_a_row, nest, no_pair, splits_and_joins};
use crate::plain::{self, FromTheFrontAgain, OnePass};
use crate::table::{Call, Straightforward, medians, row, time};
use druthmoy::words;
use std::hint::black_box;

const N: u64 = 32;
const GIVEN: u64 = COUNT as u64;

/// A script, and the number of its steps that are left.
struct Idle {
    size: &'static str,
    script: Vec<u8>,
    left: u64,
}

fn short() -> [Idle; 2] {
    let half = [nest(4), no_pair(8)].concat();
    [
        Idle { size: "16 steps, no pair, n = 32", script: no_pair(16), left: 16 },
        Idle { size: "16 steps, 8 left, n = 32", script: half, left: 8 },
    ]
}

fn long() -> [Idle; 4] {
    [
        Idle { size: "1,024 steps, no pair, n = 32", script: no_pair(1024), left: 1024 },
        Idle { size: "1,024 steps, 512 pairs within each other, n = 32", script: nest(512), left: 0 },
        Idle { size: "1,024 steps, 512 pairs in a row, n = 32", script: in_a_row(512), left: 0 },
        Idle { size: "1,024 steps, 512 splits and their joins, n = 32", script: splits_and_joins(512), left: 0 },
    ]
}

pub fn rows(highest: &mut f64) {
    for Idle { size, script, left } in short().into_iter().chain(long()) {
        let script = &script[..];
        let library = |_: &mut [u8], out: &mut [u8]| words::compact(N, GIVEN, black_box(script), out);
        assert_eq!(library(&mut [], &mut vec![7; script.len()])[2], left, "{size}");
        row(
            highest,
            "compact",
            size,
            library,
            |_, out| answered(|answer| plain::compact::<OnePass>(N, GIVEN, black_box(script), out, answer)),
            Straightforward::Another(|_: &mut [u8], out: &mut [u8]| {
                answered(|answer| plain::compact::<FromTheFrontAgain>(N, GIVEN, black_box(script), out, answer))
            }),
        );
    }
}

/// Prints the time of a call on each long script over that of one on a script that has no pair.
pub fn beside_no_pair() {
    println!("\n| compact | library | over no pair | plain Rust | over no pair |");
    println!("|---|---:|---:|---:|---:|");
    let mut without = None;
    for Idle { size, script, .. } in long() {
        let script = &script[..];
        let (library, plain, _) = medians(
            |_, out| words::compact(N, GIVEN, black_box(script), out),
            |_, out| answered(|answer| plain::compact::<OnePass>(N, GIVEN, black_box(script), out, answer)),
            None::<Call>,
        );
        let (library_without, plain_without) = *without.get_or_insert((library, plain));
        let over = [library / library_without, plain / plain_without];
        println!("| {size} | {} | {:.2} | {} | {:.2} |", time(library), over[0], time(plain), over[1]);
    }
}
