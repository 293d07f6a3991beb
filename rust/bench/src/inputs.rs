//! Lists, scripts and vectors of the sizes that are measured.

use std::cell::Cell;

/// Numbers that look random and are the same in every run (splitmix64).
pub struct Random(pub u64);

impl Random {
    pub fn next(&mut self) -> u64 {
        self.0 = self.0.wrapping_add(0x9e3779b97f4a7c15);
        let mut z = self.0;
        z = (z ^ z >> 30).wrapping_mul(0xbf58476d1ce4e5b9);
        z = (z ^ z >> 27).wrapping_mul(0x94d049bb133111eb);
        z ^ z >> 31
    }
}

/// `count` cubes over n variables. The cube half the list further on differs in `apart` variables, from 0 on.
pub fn paired_list(count: usize, n: u32, apart: u32) -> Vec<u8> {
    let mut random = Random(count as u64 + u64::from(n));
    let mask = ((1u64 << n) - 1) as u32;
    let half: Vec<(u32, u32)> = (0..count.div_ceil(2))
        .map(|_| {
            let seen = random.next() as u32 & mask | ((1 << apart) - 1);
            (seen, random.next() as u32 & seen)
        })
        .collect();
    let partners = half.iter().map(|&(seen, value)| (seen, value ^ ((1 << apart) - 1)));
    half.iter().copied().chain(partners).take(count).flat_map(|(seen, value)| record(seen, value)).collect()
}

/// `count` cubes over few variables.
pub fn few_records(count: usize, n: u32) -> Vec<u8> {
    let mut random = Random(count as u64);
    let mask = (1u32 << n) - 1;
    (0..count)
        .flat_map(|_| {
            let seen = random.next() as u32 & mask;
            record(seen, random.next() as u32 & seen)
        })
        .collect()
}

/// `count` cubes over n variables. About half of them, in no regular order, are true at `a`.
pub fn half_true_list(count: usize, n: u32, a: u32) -> Vec<u8> {
    let mut random = Random(count as u64 + u64::from(n));
    let mask = ((1u64 << n) - 1) as u32;
    (0..count)
        .flat_map(|_| {
            let seen = random.next() as u32 & mask | 1;
            let differing = random.next() as u32 & 1;
            record(seen, a & seen ^ differing)
        })
        .collect()
}

/// `count` cubes over 32 variables, each of one literal: about half of them are true at any label.
pub fn literals(count: usize) -> Vec<u8> {
    let mut random = Random(count as u64);
    (0..count)
        .flat_map(|_| {
            let seen = 1 << (random.next() % 32);
            record(seen, random.next() as u32 & seen)
        })
        .collect()
}

/// `count` labels of 32 bits, one a call, again and again.
pub fn labels(count: usize) -> impl Fn() -> u64 {
    let mut random = Random(count as u64);
    let labels: Vec<u64> = (0..count).map(|_| random.next() & 0xffff_ffff).collect();
    let at = Cell::new(0);
    move || labels[at.replace((at.get() + 1) % count)]
}

/// The old list of a list over at most 16 variables: the low halves of both masks.
pub fn narrow_list(list: &[u8]) -> Vec<u8> {
    list.as_chunks::<8>().0.iter().flat_map(|&[a, b, _, _, c, d, _, _]| [a, b, c, d]).collect()
}

pub fn record(seen: u32, value: u32) -> [u8; 8] {
    let ([a, b, c, d], [e, f, g, h]) = (seen.to_le_bytes(), value.to_le_bytes());
    [a, b, c, d, e, f, g, h]
}

/// Joins of places k and k + `half`, whose cubes differ in one variable.
pub fn joins(steps: usize, half: usize) -> Vec<u8> {
    (0..steps).flat_map(|k| step(2, 0, k, k + half, 0)).collect()
}

/// Turns at variable 0 of places k and k + `half`, whose cubes differ in variables 0 and 1.
pub fn turns(steps: usize, half: usize) -> Vec<u8> {
    (0..steps).flat_map(|k| step(4, 0, k, k + half, 0)).collect()
}

/// L steps over all variables in turn, the literal changing with each round.
pub fn exchanges(steps: usize, n: usize) -> Vec<u8> {
    (0..steps).flat_map(|k| step(5, k % n, 0, 0, k / n % 2)).collect()
}

/// Three joins and an L step, again and again.
pub fn mixed(steps: usize, half: usize, n: usize) -> Vec<u8> {
    (0..steps)
        .flat_map(|k| if k % 4 == 3 { step(5, k % n, 0, 0, k / 4 % 2) } else { step(2, 0, k, k + half, 0) })
        .collect()
}

/// Joins of places k and k + `half` and splits of places in front of the second half, by turns, so that the list keeps its count; and after 15
/// of them an L step.
pub fn splits_and_joins(steps: usize, half: usize, n: usize) -> Vec<u8> {
    let others = |k: usize| k - k / 16;
    (0..steps)
        .flat_map(|k| match others(k) {
            _ if k % 16 == 15 => step(5, k / 16 % n, 0, 0, k / 16 / n % 2),
            other if other % 2 == 0 => step(2, 0, other / 2, other / 2 + half, 0),
            other => step(3, other % n, half - 1 - other / 2, 0, 0),
        })
        .collect()
}

/// The same by turns with no L step.
pub fn joins_and_splits(steps: usize, half: usize, n: usize) -> Vec<u8> {
    (0..steps)
        .flat_map(
            |k| if k % 2 == 0 { step(2, 0, k / 2, k / 2 + half, 0) } else { step(3, k % n, half - 1 - k / 2, 0, 0) },
        )
        .collect()
}

/// Merges of places k and k + `half`, whose cubes are equal.
pub fn merges(steps: usize, half: usize) -> Vec<u8> {
    (0..steps).flat_map(|k| step(6, 0, k, k + half, 0)).collect()
}

/// The shared list with the cubes of a list, and with these outputs at each place.
pub fn shared_list(list: &[u8], outputs: impl Fn(usize) -> u32) -> Vec<u8> {
    let records = list.as_chunks::<8>().0.iter().enumerate();
    records.flat_map(|(place, cube)| [&cube[..], &outputs(place).to_le_bytes()].concat()).collect()
}

pub fn step(op: u8, v: usize, i: usize, j: usize, literal: usize) -> [u8; 8] {
    let ([i, i_high], [j, j_high]) = ((i as u16).to_le_bytes(), (j as u16).to_le_bytes());
    [op, v as u8, i, i_high, j, j_high, literal as u8, 0]
}

pub fn bits(n: u32) -> Vec<u8> {
    let mut random = Random(u64::from(n));
    (0..1 << n).map(|_| (random.next() & 1) as u8).collect()
}
