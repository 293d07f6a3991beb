//! Compact: one pass that keeps the numbers of the steps left, and looks at each step beside the last of them; or from the front
//! again after each pair.

use super::cube::VARIABLES;
use super::script::{STEP, STEPS, checked_script, place};
use super::{Refusal, Words, refuse_if, words};

type Steps<'a> = &'a [[u8; STEP]];

#[inline(never)]
pub fn compact<R: Removal>(n: u64, count: u64, script: &[u8], out: &mut [u8], answer: &mut Words) {
    *answer = words(try_compact::<R>(n, count, script, out));
}

fn try_compact<R: Removal>(n: u64, count: u64, script: &[u8], out: &mut [u8]) -> Result<[u64; 1], Refusal> {
    refuse_if(n > VARIABLES, 1)?;
    refuse_if(count > 4096, 3)?;
    let steps = checked_script(n, script)?;
    refuse_if(out.len() < script.len(), 5)?;
    Ok([R::write_left(steps, count as usize, out.as_chunks_mut().0) as u64])
}

/// A way to remove the pairs.
pub trait Removal {
    /// Writes the steps left; answers how many.
    fn write_left(steps: Steps, count: usize, out: &mut [[u8; STEP]]) -> usize;
}

pub struct OnePass;

impl Removal for OnePass {
    fn write_left(steps: Steps, given: usize, out: &mut [[u8; STEP]]) -> usize {
        let mut left = [0u16; STEPS];
        let (mut kept, mut count) = (0, given);
        for (number, step) in steps.iter().enumerate() {
            // Where the last step left is a split, the count before it was one less.
            if kept > 0 && is_pair(count.wrapping_sub(1), &steps[left[kept - 1] as usize], step) {
                kept -= 1;
            } else {
                left[kept] = number as u16;
                kept += 1;
            }
            count = counted(count, step);
        }
        for (out, &number) in out.iter_mut().zip(&left[..kept]) {
            *out = steps[number as usize];
        }
        kept
    }
}

pub struct FromTheFrontAgain;

impl Removal for FromTheFrontAgain {
    fn write_left(steps: Steps, given: usize, out: &mut [[u8; STEP]]) -> usize {
        let mut left = steps.to_vec();
        while let Some(first) = first_pair(&left, given) {
            left.drain(first..first + 2);
        }
        out[..left.len()].copy_from_slice(&left);
        left.len()
    }
}

fn first_pair(steps: Steps, given: usize) -> Option<usize> {
    let mut count = given;
    steps.windows(2).position(|pair| {
        let before = count;
        count = counted(count, &pair[0]);
        is_pair(before, &pair[0], &pair[1])
    })
}

/// Equal L steps, equal turns, or a split and the join of its place with this one, which it has appended.
#[inline]
fn is_pair(appended: usize, first: &[u8; STEP], second: &[u8; STEP]) -> bool {
    match first[0] {
        4 | 5 => first == second,
        3 => second[0] == 2 && place(second, 2) == place(first, 2) && place(second, 4) == appended,
        _ => false,
    }
}

#[inline]
fn counted(count: usize, step: &[u8; STEP]) -> usize {
    match step[0] {
        1 => count.saturating_sub(2),
        2 => count.saturating_sub(1),
        3 => count + 1,
        _ => count,
    }
}
