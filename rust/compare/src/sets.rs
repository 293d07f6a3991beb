//! Every set of faults together.

use crate::differ::{Case, compare};

/// Makes a call with each set of faults: the answer is the first of their order.
pub fn every_set<const N: usize>(order: [u64; N], with: impl Fn([bool; N]) -> Case) -> Result<(), String> {
    for set in 0..1u32 << N {
        let has = |k: usize| set >> k & 1 == 1;
        let case = with(std::array::from_fn(has));
        let expected = (0..N).find(|&k| has(k)).map_or(0, |k| order[k]);
        let answer = compare(&case)?;
        if answer[0] != expected {
            return Err(format!("with {expected} first the answer is {answer:?}\n{case}"));
        }
    }
    Ok(())
}

/// The same, with a line about it.
pub fn each_set<const N: usize>(of: &str, order: [u64; N], with: impl Fn([bool; N]) -> Case) -> Result<(), String> {
    every_set(order, with)?;
    println!("{of}: all {} sets of the faults {order:?}", 1 << N);
    Ok(())
}
