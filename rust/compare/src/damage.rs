//! The refusals that a case would like to meet, and the bytes of lists, vectors and scripts, damaged for them.

use crate::differ::Call;
use crate::random::Random;
use crate::shared_broken::AT_A_SHARED_STEP;
use model::cube::RECORD;
use model::refusal::ORDERS;
use model::script::{self, STEP, STEPS};
use model::shared::{self, SHARED_RECORD};

const RECORDS: usize = 4096;

/// The refusal numbers that a case is damaged for; none in half of the cases.
pub struct Faults(pub Vec<u64>);

impl Faults {
    pub fn draw(random: &mut Random, call: Call) -> Faults {
        let numbers = ORDERS[call as usize].1;
        let some = if random.one_in(2) {
            0
        } else if random.one_in(4) {
            2
        } else {
            1
        };
        Faults((0..some).map(|_| random.pick(numbers)).collect())
    }

    pub fn has(&self, number: u64) -> bool {
        self.0.contains(&number)
    }

    pub fn at_a_step(&self) -> Option<u64> {
        self.0.iter().copied().find(|number| AT_A_SHARED_STEP.contains(number))
    }
}

/// The bytes of a list whose records have `record` bytes, damaged.
pub fn list_bytes(random: &mut Random, faults: &Faults, width: usize, record: usize, good: Vec<u8>) -> Vec<u8> {
    let mut bytes = good;
    if faults.has(3) {
        let records = RECORDS + random.between(1, 3);
        bytes = random.bytes(record * records);
    }
    if faults.has(4) {
        for _ in 0..random.between(1, 3) {
            let place = random.below(bytes.len() / record);
            spoil_record(random, width, &mut bytes[record * place..][..record]);
        }
    }
    if faults.has(2) {
        if bytes.is_empty() || random.one_in(2) {
            let extra = random.between(1, record - 1);
            bytes.extend(random.bytes(extra));
        } else {
            bytes.truncate(bytes.len() - random.between(1, record - 1));
        }
    }
    bytes
}

/// Makes a record bad: of a shared list by its cube, by its outputs or by both.
fn spoil_record(random: &mut Random, width: usize, record: &mut [u8]) {
    if record.len() < SHARED_RECORD {
        return spoil(random, width, record);
    }
    let (cube, outputs) = record.split_at_mut(RECORD);
    let (bad_cube, no_outputs) = random.pick(&[(true, false), (false, true), (true, true)]);
    if bad_cube {
        spoil(random, width, cube);
    }
    if no_outputs {
        outputs.fill(0);
    }
}

/// Makes a cube's record bad: a value bit outside seen, or a seen bit at or above the number of variables.
fn spoil(random: &mut Random, width: usize, record: &mut [u8]) {
    let bits = 4 * record.len();
    let outside = width == bits || random.one_in(2);
    let k = if outside { random.below(bits) } else { random.between(width, bits - 1) };
    let (byte, bit) = (k / 8, 1 << (k % 8));
    let (seen, value) = record.split_at_mut(record.len() / 2);
    if outside {
        seen[byte] &= !bit;
        value[byte] |= bit;
    } else {
        seen[byte] |= bit;
    }
}

/// The bytes of a truth vector or of coefficients, damaged for 14: by their length, or by some that are above 1.
pub fn damaged_bits(random: &mut Random, faults: &Faults, good: Vec<u8>) -> Vec<u8> {
    let mut bits = good;
    if faults.has(14) && random.one_in(3) {
        let length = random.pick(&[0, bits.len() - 1, bits.len() + 1, bits.len() * 2, bits.len() / 2, 300]);
        bits.resize(length, random.below(3) as u8);
    } else if faults.has(14) {
        for _ in 0..random.between(1, 3) {
            let place = random.below(bits.len());
            bits[place] = random.pick(&[2, 3, 128, 254, 255]);
        }
    }
    bits
}

/// The bytes of a script, damaged for 9 and for 7.
pub fn damaged_script(random: &mut Random, faults: &Faults, call: Call, width: usize, good: Vec<u8>) -> Vec<u8> {
    let mut bytes = good;
    if faults.has(9) {
        let only_the_last = bytes.is_empty() || bytes.len() < STEP * STEPS && random.one_in(2);
        if only_the_last {
            bytes.extend([1, 0, 0, 0, 1, 0, 0, 0]);
        }
        let steps = bytes.len() / STEP;
        for _ in 0..random.between(1, 2) {
            let place = if only_the_last { steps - 1 } else { random.below(steps) };
            spoil_step(random, call, width, &mut bytes[STEP * place..][..STEP]);
        }
    }
    if faults.has(7) {
        let extra = random.between(1, 7);
        bytes.extend(random.bytes(extra));
    }
    bytes
}

/// Changes one byte of a step so that it breaks rule 9.
fn spoil_step(random: &mut Random, call: Call, width: usize, step: &mut [u8]) {
    loop {
        let mut spoiled = step.to_vec();
        let any = random.next() as u8;
        spoiled[random.below(STEP)] = random.pick(&[0, 1, 2, 6, 7, width as u8, width as u8 + 1, 255, any]);
        if !is_well_formed(call, width, &spoiled) {
            return step.copy_from_slice(&spoiled);
        }
    }
}

/// Whether a step keeps rule 9.
pub fn is_well_formed(call: Call, width: usize, step: &[u8]) -> bool {
    if call.is_shared() { shared::decoded_step(width, step).is_some() } else { script::decoded(width, step).is_some() }
}
