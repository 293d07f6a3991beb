//! How long a lent buffer is.

use std::cmp::Ordering;

pub const LENGTHS: [&str; 4] = ["longer", "just long enough", "one byte too short", "shorter"];

/// Which of [`LENGTHS`] a buffer has, where a call needs so many bytes.
pub fn length(lent: &[u8], needed: usize) -> usize {
    match lent.len().cmp(&needed) {
        Ordering::Greater => 0,
        Ordering::Equal => 1,
        Ordering::Less if lent.len() + 1 == needed => 2,
        Ordering::Less => 3,
    }
}
