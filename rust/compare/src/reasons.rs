//! Reasons: every set of faults together, and short lists whole, at every label.

use crate::differ::{Call, compare};
use crate::labels::Labels;
use crate::per_record::PerRecord;
use model::cube::{PLACE, RECORD};

pub fn all() -> Result<(), String> {
    REASONS.faults_together()?;
    short_lists()
}

const REASONS: PerRecord = PerRecord { call: Call::Reasons, limit: 32, from: RECORD, to: PLACE, far: &[15, 16, 31] };

/// All short lists, at every assignment and the first that has a bit too high, to buffers of 0 to 5 bytes.
fn short_lists() -> Result<(), String> {
    let lists = REASONS.short_lists();
    let mut labels = Labels::default();
    let (mut calls, mut accepted, mut shown) = (0, 0, 0);
    for (n, list) in (0..3).flat_map(|n| lists.iter().map(move |list| (n, list))) {
        for (a, room) in (0..=1 << n).flat_map(|a| (0..6).map(move |room| (a, room))) {
            let case = REASONS.case(n, list, a, room);
            let answer = compare(&case)?;
            labels.add(&case, &answer);
            calls += 1;
            if answer[0] == 0 {
                accepted += 1;
                shown += answer[2];
            }
        }
    }
    println!("{} lists, {calls} calls, {accepted} of them accepted; {shown} places", lists.len());
    print!("{labels}");
    // Lists of 0, 1 and 2 records fit into 6, 4 and 2 of the buffers, and over n variables there are 2^n labels and 3^n
    // cubes, which are true at 4^n labels all together.
    let good: u64 = (0..3).map(|n| 2u64.pow(n) * (6 + 4 * 3u64.pow(n) + 2 * 9u64.pow(n))).sum();
    let places: u64 = (0..3).map(|n| 4u64.pow(n) * (4 + 2 * 2 * 3u64.pow(n))).sum();
    let expected = (good, places);
    if (accepted, shown) == expected { Ok(()) } else { Err(format!("accepted, places: not {expected:?}")) }
}
