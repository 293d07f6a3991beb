//! The converters: every set of faults together, and short lists whole, there and back.

use crate::differ::{Call, compare};
use crate::per_record::PerRecord;
use druthmoy::{narrow_from_wide, wide_from_narrow};
use model::cube::{NARROW_RECORD, RECORD};

pub fn all() -> Result<(), String> {
    for converter in &CONVERTERS {
        converter.faults_together()?;
        short_lists(converter)?;
    }
    Ok(())
}

const CONVERTERS: [PerRecord; 2] = [
    PerRecord { call: Call::WideFromNarrow, limit: 16, from: NARROW_RECORD, to: RECORD, far: &[8, 15] },
    PerRecord { call: Call::NarrowFromWide, limit: 32, from: RECORD, to: NARROW_RECORD, far: &[15, 16, 31] },
];

/// All short lists, to buffers that are too short, just long enough and longer. Where one is accepted, what was written is
/// converted back to the given bytes.
fn short_lists(converter: &PerRecord) -> Result<(), String> {
    let lists = converter.short_lists();
    let (mut calls, mut back) = (0, 0);
    for (n, list) in (0..3).flat_map(|n| lists.iter().map(move |list| (n, list))) {
        let needed = converter.room(list.len());
        for room in [needed.checked_sub(1), Some(needed), Some(needed + 5)].into_iter().flatten() {
            calls += 1;
            if compare(&converter.case(n, list, 0, room))?[0] == 0 {
                there_and_back(converter, n, list)?;
                back += 1;
            }
        }
    }
    let name = converter.name();
    println!("{name}: {} lists, {calls} calls, {back} of them accepted and converted back", lists.len());
    // Of 3^n cubes there are 1 + 3^n + 9^n lists, each in two buffers.
    let good: u32 = (0..3).map(|n| 2 * (1 + 3u32.pow(n) + 9u32.pow(n))).sum();
    if back == good { Ok(()) } else { Err(format!("{name}: {back} calls accepted, and not {good}")) }
}

fn there_and_back(converter: &PerRecord, n: u64, list: &[u8]) -> Result<(), String> {
    let (mut there, mut back) = (vec![0xc3; converter.room(list.len())], vec![0x5a; list.len()]);
    let answers = match converter.call {
        Call::WideFromNarrow => [wide_from_narrow(n, list, &mut there), narrow_from_wide(n, &there, &mut back)],
        _ => [narrow_from_wide(n, list, &mut there), wide_from_narrow(n, &there, &mut back)],
    };
    let count = (list.len() / converter.from) as u64;
    if answers != [Ok(count); 2] || back != list {
        return Err(format!("n {n}: {list:?} became {there:?} and {back:?}, answered {answers:?}"));
    }
    Ok(())
}
