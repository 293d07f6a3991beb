//! The refusals of write tree, of write kronecker, of compact, of index, of group, of shared check and of shared value whose rules are broken
//! together, each looked at by itself: the first of them is answered.

use crate::differ::{Call, Case};
use crate::vector_calls::{list, most_variables};
use model::cube::{self, PLACE, RECORD};
use model::index::Starts;
use model::refusal::ORDERS;
use model::script::{STEP, STEPS, decoded};
use model::shared::{self, SHARED_RECORD};
use std::collections::BTreeMap;
use std::fmt;

/// The calls whose refusals are looked at.
pub const CALLS: [Call; 7] = [
    Call::WriteTree,
    Call::WriteKronecker,
    Call::Compact,
    Call::Index,
    Call::Group,
    Call::SharedCheck,
    Call::SharedValue,
];

#[derive(Default)]
pub struct Together {
    /// By call, the number that is answered and another that was not, though its rule was broken too.
    met: BTreeMap<(usize, u64, u64), u64>,
    /// The first call that was refused with another number than the first of the rules that it breaks.
    out_of_order: Option<String>,
}

fn order(call: Call) -> &'static [u64] {
    ORDERS[call as usize].1
}

fn is_broken(case: &Case, number: u64) -> bool {
    match case.call {
        Call::Compact => is_broken_by_script(case, number),
        Call::Index | Call::Group => is_broken_by_index(case, number),
        Call::SharedCheck | Call::SharedValue => is_broken_by_shared(case, number),
        _ => is_broken_by_vector(case, number),
    }
}

fn is_broken_by_vector(case: &Case, number: u64) -> bool {
    match number {
        1 => case.n > most_variables(case.call),
        14 => case.n > 63 || case.input.len() != 1 << case.n || case.input.iter().any(|&byte| byte > 1),
        _ => (case.out.len() / RECORD).min(4096) < list(case.call, &made_good(case)).len(),
    }
}

/// The vector's lowest bits, as many as n variables have, or, where these are too many, as few as there are values for.
fn made_good(case: &Case) -> Vec<u8> {
    let limit = most_variables(case.call);
    let most = u64::from(case.input.len().max(1).ilog2()).min(limit);
    let length = 1 << if case.n > limit { most } else { case.n };
    let bits = case.input.iter().map(|byte| byte & 1);
    bits.chain([0; 256]).take(length).collect()
}

fn is_broken_by_script(case: &Case, number: u64) -> bool {
    let (steps, rest) = case.script.as_chunks::<STEP>();
    match number {
        1 => case.n > 32,
        3 => case.number > 4096,
        7 => !rest.is_empty(),
        8 => steps.len() > STEPS,
        9 => steps.iter().any(|step| decoded(case.n.min(32) as usize, step).is_none()),
        _ => case.out.len() < case.script.len(),
    }
}

fn is_broken_by_index(case: &Case, number: u64) -> bool {
    let (records, rest) = case.input.as_chunks::<RECORD>();
    match number {
        1 => case.n > 32,
        2 => !rest.is_empty(),
        3 => records.len() > 4096,
        4 => records.iter().any(|record| cube::decoded(case.n.min(32) as usize, record).is_none()),
        5 => case.out.len() < PLACE * records.len(),
        25 => is_another_index(records, &case.out, &case.starts),
        _ => case.number > 32,
    }
}

fn is_broken_by_shared(case: &Case, number: u64) -> bool {
    let (records, rest) = case.input.as_chunks::<SHARED_RECORD>();
    match number {
        1 => case.n > 32,
        2 => !rest.is_empty(),
        3 => records.len() > 4096,
        4 => records.iter().any(|record| shared::decoded(case.n.min(32) as usize, record).is_none()),
        _ => case.number >> case.n.min(32) != 0,
    }
}

/// Whether the entries that are there, or the starts, are not those of these records, good or bad: by the bits of their seen masks.
fn is_another_index(records: &[[u8; RECORD]], out: &[u8], starts: &Starts) -> bool {
    let bits = |record: &[u8; RECORD]| record[..RECORD / 2].iter().map(|byte| byte.count_ones()).sum::<u32>();
    let numbers: Vec<u32> = records.iter().map(bits).collect();
    let mut right: Vec<usize> = (0..numbers.len()).collect();
    right.sort_by_key(|&place| numbers[place]);
    let mut there = right.iter().zip(out.as_chunks::<PLACE>().0);
    let entries_differ = there.any(|(&place, entry)| place != usize::from(u16::from_le_bytes(*entry)));
    let fewer = |most: usize| numbers.iter().filter(|&&number| (number as usize) < most).count() as u64;
    entries_differ || *starts != std::array::from_fn(fewer)
}

impl Together {
    /// Adds a call of these.
    pub fn add(&mut self, case: &Case, answer: &[u64; 8]) {
        let mut broken = order(case.call).iter().copied().filter(|&number| is_broken(case, number));
        let first = broken.next().unwrap_or(0);
        if answer[0] != first {
            self.out_of_order.get_or_insert_with(|| format!("with {first} first the answer is {answer:?}\n{case}"));
        }
        for other in broken {
            *self.met.entry((case.call as usize, first, other)).or_default() += 1;
        }
    }

    /// The pairs of an order that were not met, and a wrong order.
    pub fn amiss(&self) -> Vec<String> {
        let pairs = CALLS.into_iter().flat_map(|call| {
            let numbers = order(call).iter().copied();
            numbers.flat_map(move |first| after(call, first).iter().map(move |&other| (call, first, other)))
        });
        let unmet = pairs.filter(|&(call, first, other)| self.met(call, first, other) == 0);
        let name = |(call, first, other)| format!("{}: {first} before {other} not met", ORDERS[call as usize].0);
        unmet.map(name).chain(self.out_of_order.clone()).collect()
    }

    fn met(&self, call: Call, first: u64, other: u64) -> u64 {
        self.met.get(&(call as usize, first, other)).copied().unwrap_or(0)
    }
}

/// The numbers after this one in a call's order.
fn after(call: Call, number: u64) -> &'static [u64] {
    let place = order(call).iter().position(|&other| other == number).expect("a number of the order");
    &order(call)[place + 1..]
}

impl fmt::Display for Together {
    fn fmt(&self, f: &mut fmt::Formatter) -> fmt::Result {
        for (call, first) in CALLS.iter().flat_map(|&call| order(call).iter().map(move |&first| (call, first))) {
            let others = after(call, first).iter().map(|&other| format!("{other} {}", self.met(call, first, other)));
            let others = others.collect::<Vec<_>>().join(", ");
            if !others.is_empty() {
                writeln!(f, "{} refused by {first}, and broken too: {others}", ORDERS[call as usize].0)?;
            }
        }
        Ok(())
    }
}
