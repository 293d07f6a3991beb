//! Cases by chance: long and short, valid and damaged.
//!
//! Each case draws the refusals that it would like to meet; which of them the call answers, document 01's order decides.

use crate::broken::AT_A_STEP;
use crate::damage::{Faults, damaged_bits, damaged_script, list_bytes};
use crate::differ::{Call, Case, empty};
use crate::idle_scripts;
use crate::index_cases;
use crate::map_cases;
use crate::near_lists;
use crate::random::Random;
use crate::scripts;
use crate::shared_cases;
use crate::tree_vectors;
use crate::undoings::with_undoings;
use crate::vector_calls::{list, most_variables};
use model::cube::{Cube, NARROW_RECORD, PLACE, RECORD, encoded_list, encoded_narrow_list};
use model::polarity::coefficients;
use model::script::{self, STEP, STEPS, Step, encoded_script};

pub const VARIABLES: usize = 32;
const NARROW_VARIABLES: usize = 16;
pub const RECORDS: usize = 4096;

pub fn case(random: &mut Random, call: Call) -> Case {
    let faults = &Faults::draw(random, call);
    match call {
        Call::Check | Call::Value | Call::Reasons | Call::TruthVector => list_case(random, faults, call),
        Call::Coefficients | Call::Vector | Call::WriteForm | Call::BestPolarity => bits_case(random, faults, call),
        Call::WriteTree | Call::WriteKronecker => tree_case(random, faults, call),
        Call::Run | Call::Settle => script_case(random, faults, call),
        Call::WriteScript => writer_case(random, faults),
        Call::Compact => compact_case(random, faults),
        Call::Index => index_cases::index_case(random, faults),
        Call::Group => index_cases::group_case(random, faults),
        Call::RunIndexed => index_cases::run_indexed_case(random, faults),
        Call::SharedCheck | Call::SharedValue => shared_cases::list_case(random, faults, call),
        Call::SharedRun | Call::SharedSettle => shared_cases::script_case(random, faults, call),
        Call::Slot | Call::SettleMap | Call::MapReasons => map_cases::map_case(random, call),
        Call::WideFromNarrow | Call::NarrowFromWide => converter_case(random, faults, call),
    }
}

pub fn list_case(random: &mut Random, faults: &Faults, call: Call) -> Case {
    let limit = if call == Call::TruthVector { 8 } else { VARIABLES };
    let width = many_variables(random, limit);
    let n = variables(random, faults, width, limit);
    let count = count(random, faults);
    let cubes = cubes(random, width, count);
    let number = match call {
        Call::Value | Call::Reasons => assignment(random, faults, width, &cubes),
        _ => 0,
    };
    let out = match call {
        Call::Reasons | Call::Index => lent(random, PLACE * count, faults.has(5)),
        Call::TruthVector => lent(random, 1 << width, faults.has(5)),
        _ => vec![],
    };
    let input = list_bytes(random, faults, width, RECORD, encoded_list(&cubes));
    Case { input, number, out, ..empty(call, n) }
}

fn bits_case(random: &mut Random, faults: &Faults, call: Call) -> Case {
    let width = few_variables(random);
    let n = variables(random, faults, width, 8);
    let number = if call == Call::BestPolarity { 0 } else { pattern(random, width, faults.has(15)) };
    let bits = bits(random, width);
    let ones = bits.iter().filter(|&&bit| bit == 1).count();
    let out = match call {
        Call::BestPolarity => vec![],
        Call::WriteForm => lent(random, RECORD * ones, faults.has(5)),
        _ => lent(random, bits.len(), faults.has(5)),
    };
    let input = damaged_bits(random, faults, bits);
    Case { input, number, out, ..empty(call, n) }
}

fn tree_case(random: &mut Random, faults: &Faults, call: Call) -> Case {
    let limit = most_variables(call);
    let width = if call == Call::WriteTree { few_variables(random) } else { fewer_variables(random) };
    let n = variables(random, faults, width, limit as usize);
    let vector = tree_vectors::vector(random, width, faults.has(5));
    let out = lent(random, RECORD * list(call, &vector).len(), faults.has(5));
    // A variable or two more than there may be, and as many values as they make.
    let beyond = limit < n && n <= limit + 2;
    let vector = if beyond && random.one_in(2) { random.bits(1 << n) } else { vector };
    let input = damaged_bits(random, faults, vector);
    Case { input, out, ..empty(call, n) }
}

pub fn script_case(random: &mut Random, faults: &Faults, call: Call) -> Case {
    // Above 8 variables there is no polarity to find, and the model is fast.
    let wide = call == Call::Run || random.one_in(3);
    let width = match faults.at_a_step() {
        // Cubes that differ in as many variables as there can be.
        Some(16..=18) if random.one_in(6) => VARIABLES,
        _ if wide => many_variables(random, VARIABLES),
        _ => few_variables(random),
    };
    let n = variables(random, faults, width, VARIABLES);
    let count = count(random, faults);
    let cubes = cubes(random, width, count);
    let (work_too_small, out_too_small) = match call {
        _ if !faults.has(5) => (false, false),
        Call::Run => (true, false),
        _ => random.pick(&[(true, false), (false, true), (true, true)]),
    };
    let work = lent(random, RECORD * count, work_too_small);
    let out = if call == Call::Settle { lent(random, RECORD * count, out_too_small) } else { vec![] };
    let capacity = (work.len() / RECORD).clamp(count.min(RECORDS), RECORDS);
    let script = script_bytes(random, faults, capacity - count, &AT_A_STEP, |random, length, mistake| {
        encoded_script(&scripts::script(random, width, &cubes, capacity, length, mistake))
    });
    let script = damaged_script(random, faults, call, width, script);
    let input = list_bytes(random, faults, width, RECORD, encoded_list(&cubes));
    Case { input, script, work, out, ..empty(call, n) }
}

/// A list and a script that pass 1 to 9, with no split and often with L steps; in half of the cases a refusal is looked for.
pub fn unsplit_case(random: &mut Random, call: Call) -> Case {
    let mistake = if random.one_in(2) { None } else { Some(random.pick(&[10, 11, 16, 17, 18, 19])) };
    let case = script_case(random, &Faults(mistake.into_iter().collect()), call);
    let (n, given) = (case.n as usize, case.cubes());
    let length = case.script.len() / STEP;
    // Where there is no capacity a split is chosen only for its place, to be refused by 10.
    let mut steps = scripts::script(random, n, &given, 0, length, mistake);
    steps.retain(|step| !matches!(step, Step::Split { .. }));
    steps.truncate(STEPS);
    if n > 0 {
        for _ in 0..random.below(4).min(STEPS - steps.len()) {
            let l = Step::L { v: random.below(n), literal: random.below(2) as u8 };
            steps.insert(random.below(steps.len() + 1), l);
        }
    }
    Case { script: encoded_script(&steps), ..case }
}

/// A list and a script that pass 1 to 9, with steps in it that do and undo; in a quarter of the cases a refusal is looked for.
pub fn undoing_case(random: &mut Random, call: Call) -> Case {
    let mistake = if random.one_in(4) { Some(random.pick(&AT_A_STEP)) } else { None };
    let case = script_case(random, &Faults(mistake.into_iter().collect()), call);
    let (n, capacity) = (case.n as usize, (case.work.len() / RECORD).min(RECORDS));
    let steps: Vec<Step> = case.script.chunks(STEP).filter_map(|bytes| script::decoded(n, bytes)).collect();
    let steps = with_undoings(random, n, &case.cubes(), capacity, &steps[..steps.len().min(STEPS)]);
    Case { script: encoded_script(&steps), ..case }
}

fn writer_case(random: &mut Random, faults: &Faults) -> Case {
    let width = if random.one_in(2) { few_variables(random) } else { many_variables(random, VARIABLES) };
    let n = variables(random, faults, width, VARIABLES);
    let least = usize::from(faults.has(4) || faults.has(5));
    let cubes = near_lists::cubes(random, width, least);
    let (work_too_small, script_too_short) = match faults.has(5) {
        true => random.pick(&[(true, false), (false, true), (true, true)]),
        false => (false, false),
    };
    let work = lent(random, RECORD * cubes.len(), work_too_small);
    let script = lent(random, STEP * cubes.len().min(STEPS), script_too_short);
    let input = list_bytes(random, faults, width, RECORD, encoded_list(&cubes));
    Case { input, script, work, ..empty(Call::WriteScript, n) }
}

fn compact_case(random: &mut Random, faults: &Faults) -> Case {
    let width = many_variables(random, VARIABLES);
    let n = variables(random, faults, width, VARIABLES);
    let count = idle_scripts::count(random);
    let far = [4097, 4098, 8192, 65536, 65537, 1 << 32, 1 << 63, u64::MAX];
    let number = if faults.has(3) { random.pick(&far) } else { count as u64 };
    let length = match faults.has(8) {
        true => STEPS + random.between(1, 3),
        false => idle_scripts::length(random, usize::from(faults.has(5))),
    };
    let steps = encoded_script(&idle_scripts::script(random, width, count, length));
    let script = damaged_script(random, faults, Call::Compact, width, steps);
    let out = lent(random, script.len(), faults.has(5));
    Case { number, script, out, ..empty(Call::Compact, n) }
}

fn converter_case(random: &mut Random, faults: &Faults, call: Call) -> Case {
    let wide_from_narrow = call == Call::WideFromNarrow;
    let limit = if wide_from_narrow { NARROW_VARIABLES } else { VARIABLES };
    let width = match faults.has(20) {
        true => random.between(NARROW_VARIABLES + 1, VARIABLES),
        false => many_variables(random, NARROW_VARIABLES),
    };
    let n = variables(random, faults, width, limit);
    let count = count(random, faults);
    let cubes = cubes(random, width, count);
    let (from, to, bytes) = match wide_from_narrow {
        true => (NARROW_RECORD, RECORD, encoded_narrow_list(&cubes)),
        false => (RECORD, NARROW_RECORD, encoded_list(&cubes)),
    };
    let input = list_bytes(random, faults, width, from, bytes);
    let out = lent(random, to * count, faults.has(5));
    Case { input, out, ..empty(call, n) }
}

/// The number of variables that is said, for input that is made for `width`.
pub fn variables(random: &mut Random, faults: &Faults, width: usize, limit: usize) -> u64 {
    if !faults.has(1) {
        return width as u64;
    }
    let limit = limit as u64;
    let far = [limit + 1, limit + 2, 2 * limit, 33, 64, 65, 256, 65536, 1 << 32, 1 << 63, u64::MAX];
    random.pick(&far) | if random.one_in(4) { random.next() << 16 } else { 0 }
}

/// From 0 to the limit, and often the last two.
pub fn many_variables(random: &mut Random, limit: usize) -> usize {
    if random.one_in(4) { limit - random.below(2) } else { random.below(limit + 1) }
}

/// From 0 to 8, the large ones rarely: the model adds 8^n bytes for a best polarity.
fn few_variables(random: &mut Random) -> usize {
    match random.below(200) {
        0 => 8,
        1 | 2 => 7,
        3..=10 => 6,
        11..=40 => 5,
        _ => random.below(5),
    }
}

/// From 0 to 6, the large ones rarely: the model writes 3^n lists for a choice.
fn fewer_variables(random: &mut Random) -> usize {
    match random.below(200) {
        0 => 6,
        1..=4 => 5,
        _ => random.below(5),
    }
}

pub fn count(random: &mut Random, faults: &Faults) -> usize {
    let least = match faults.at_a_step() {
        Some(16..=19 | 22 | 23) => 2,
        Some(_) => 1,
        None => usize::from(faults.has(4) || faults.has(5)),
    };
    match random.below(100) {
        0 => RECORDS - if random.one_in(2) { 0 } else { random.below(20) },
        1..=4 => random.between(65, 512),
        5..=30 => random.between(9, 64),
        _ => random.between(least, 8),
    }
}

/// Cubes with equal and near ones among them, as steps need them, and some that differ in any number of variables; with
/// literals at the last variable.
pub fn cubes(random: &mut Random, width: usize, count: usize) -> Vec<Cube> {
    let mut cubes: Vec<Cube> = Vec::new();
    for _ in 0..count {
        let changes = random.below(5);
        let mut cube = match cubes.len() {
            0 => vec![2; width],
            _ => cubes[random.below(cubes.len())].clone(),
        };
        if changes == 3 {
            cube.fill_with(|| random.below(3) as u8);
        } else if changes == 4 {
            let apart = if random.one_in(2) { width } else { random.below(width + 1) };
            change(random, &mut cube, apart);
        } else if width > 0 {
            for _ in 0..changes {
                let v = if random.one_in(4) { width - 1 } else { random.below(width) };
                cube[v] = random.below(3) as u8;
            }
        }
        cubes.push(cube);
    }
    cubes
}

/// Gives so many variables of a cube another code.
fn change(random: &mut Random, cube: &mut Cube, apart: usize) {
    let mut variables: Vec<usize> = (0..cube.len()).collect();
    for _ in 0..apart {
        let v = variables.swap_remove(random.below(variables.len()));
        cube[v] = (cube[v] + random.pick(&[1, 2])) % 3;
    }
}

/// The bytes of a script, before it is damaged. Splits fill the work buffer up after so many; the refusals at a step are these; and the steps of a
/// script of some length, one of them refused, are written as it is said.
pub fn script_bytes(
    random: &mut Random,
    faults: &Faults,
    room: usize,
    refusals: &[u64],
    written: impl FnOnce(&mut Random, usize, Option<u64>) -> Vec<u8>,
) -> Vec<u8> {
    let length = match random.below(100) {
        0 => STEPS - if random.one_in(2) { 0 } else { random.below(800) },
        1..=15 => random.between(9, 64),
        16..=20 => 0,
        _ => random.between(1, 8),
    };
    script_bytes_of(random, faults, (length, room), refusals, written)
}

/// The same, of about so many steps, with room for so many splits.
pub fn script_bytes_of(
    random: &mut Random,
    faults: &Faults,
    (length, room): (usize, usize),
    refusals: &[u64],
    written: impl FnOnce(&mut Random, usize, Option<u64>) -> Vec<u8>,
) -> Vec<u8> {
    // Room to fill the buffer up, where a split is to find it full.
    let length = if faults.has(13) { length.max(room.min(40) + 1) } else { length };
    if faults.has(8) {
        let steps = STEPS + random.between(1, 3);
        return random.bytes(STEP * steps);
    }
    // 9 is tested before any step is done, also where a step before it would be refused.
    let before_9 = faults.has(9).then(|| random.pick(refusals));
    let mistake = faults.at_a_step().or(before_9.filter(|_| random.one_in(2)));
    written(random, length, mistake)
}

/// Bits by chance, few ones, or the coefficients of a function of few variables.
fn bits(random: &mut Random, width: usize) -> Vec<u8> {
    let length = 1 << width;
    match random.below(4) {
        0 => {
            let mut bits = vec![0; length];
            for _ in 0..random.below(4) {
                bits[random.below(length)] = 1;
            }
            bits
        }
        1 if width <= 5 => {
            let p = random.below(length);
            coefficients(&random.bits(length), p)
        }
        _ => random.bits(length),
    }
}

/// An assignment; in half of the cases one of the products is true there.
pub fn assignment(random: &mut Random, faults: &Faults, width: usize, cubes: &[Cube]) -> u64 {
    let any = pattern(random, width, faults.has(6));
    if cubes.is_empty() || random.one_in(2) {
        return any;
    }
    let cube = &cubes[random.below(cubes.len())];
    cube.iter().enumerate().fold(any, |a, (k, code)| match code {
        0 => a & !(1 << k),
        1 => a | 1 << k,
        _ => a,
    })
}

/// An assignment or a polarity, with a bit at or above the number of variables if that is wanted.
fn pattern(random: &mut Random, width: usize, wrong: bool) -> u64 {
    let inside = random.next() & ((1 << width) - 1);
    if !wrong {
        return inside;
    }
    let high = if random.one_in(2) { 1 << width } else { 1 << random.between(width, 63) };
    let inside = if random.one_in(2) { inside } else { 0 };
    inside | high
}

/// A buffer with garbage in it, for a call that needs so many bytes: as long, longer by bytes or records, longer than
/// any capacity, or too short.
pub fn lent(random: &mut Random, needed: usize, too_small: bool) -> Vec<u8> {
    lent_for(random, RECORD, needed, too_small)
}

/// The same, for records of so many bytes.
pub fn lent_for(random: &mut Random, record: usize, needed: usize, too_small: bool) -> Vec<u8> {
    let length = match random.below(40) {
        _ if too_small && needed > 0 => needed - if random.one_in(2) { 1 } else { random.between(1, needed) },
        _ if needed > record * 4000 && random.one_in(2) => record * RECORDS + random.below(100),
        0..=9 => needed,
        10..=19 => needed + random.below(record),
        _ => needed + random.below(10 * record + 1),
    };
    random.bytes(length)
}
