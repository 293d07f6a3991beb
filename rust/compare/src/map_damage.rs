//! Lengths of a map's lists and scripts, damaged for 26.

use crate::random::Random;

/// Makes lengths that add up to something else, by a byte or more; or to the same modulo 2^64 alone.
pub fn damaged_lengths(random: &mut Random, lengths: &mut Vec<u64>) {
    let Some(last) = lengths.len().checked_sub(1) else { return lengths.push(1) };
    let k = random.below(lengths.len());
    let by = random.pick(&[1, 4, 7, 8, 16]);
    match random.below(6) {
        0 | 1 => lengths[k] = lengths[k].wrapping_add(by),
        2 => lengths[k] = lengths[k].wrapping_sub(by),
        3 if lengths[last] > 0 => lengths.truncate(last),
        3 => lengths.push(by),
        _ => around(random, lengths, k, by),
    }
}

/// Makes lengths that add up to the same modulo 2^64, and to more.
fn around(random: &mut Random, lengths: &mut Vec<u64>, k: usize, by: u64) {
    if lengths.len() == 1 {
        lengths.push(0);
    }
    let other = (k + random.between(1, lengths.len() - 1)) % lengths.len();
    let more = if random.one_in(2) { 1 << 63 } else { lengths[k] + by };
    lengths[k] = lengths[k].wrapping_sub(more);
    lengths[other] = lengths[other].wrapping_add(more);
}

/// The same; or one script more or fewer, of no steps, so that the lengths still add up.
pub fn damaged_script_lengths(random: &mut Random, lengths: &mut Vec<u64>) {
    match random.below(4) {
        0 | 1 => damaged_lengths(random, lengths),
        2 if lengths.last() == Some(&0) => lengths.truncate(lengths.len() - 1),
        _ => lengths.push(0),
    }
}
