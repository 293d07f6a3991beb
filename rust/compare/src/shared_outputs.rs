//! Document 02, Nine: "products without bit k never sway output k". Random shared lists in which one product is changed, added or removed: the bits
//! that it carries in neither list stay as they were.

use crate::cases::{RECORDS, case};
use crate::counts::{Counts, unmet, write_lines};
use crate::differ::{Call, Case, compared};
use crate::random::Random;
use crate::shared_cases::products;
use crate::shared_values::word_at;
use model::cube::is_true;
use model::shared::{OUTPUTS, Shared, encoded_list};

const KINDS: [&str; 3] = ["changed", "added", "removed"];

const SWAYED: [&str; 3] = ["no output", "some of those that the product carries", "all of those"];

/// Products by what was done to them, and by how many of the outputs that they carry have another value after it.
#[derive(Default)]
struct Lists {
    kinds: [u64; KINDS.len()],
    swayed: [u64; SWAYED.len()],
    bits_that_stay: u64,
}

pub fn all(calls: usize, seed: u64) -> Result<(), String> {
    let mut random = Random::new(seed.wrapping_mul(53));
    let mut lists = Lists::default();
    for number in 0..calls {
        let case = case(&mut random, Call::SharedValue);
        let after = compared(&case).map_err(|difference| format!("call {number} from seed {seed}: {difference}"))?;
        if after.answer[0] == 0 {
            lists.add(&mut random, &case, after.answer[2])?;
        }
    }
    println!("{lists}bits that no product's change touched, all the same: {}", lists.bits_that_stay);
    let amiss = unmet(&lists.counts());
    if amiss.is_empty() { Ok(()) } else { Err(amiss.join("\n")) }
}

/// A list with one product changed, added or removed; which of these it was; and what the product was and is.
fn another(random: &mut Random, n: usize, given: &Shared) -> (Shared, usize, Shared) {
    let (mut list, count) = (given.clone(), given.cubes.len());
    let fresh = products(random, n, 1, 1);
    let kind = match random.below(3) {
        _ if count == 0 => 1,
        1 if count == RECORDS => 0,
        kind => kind,
    };
    if kind == 1 {
        let place = random.below(count + 1);
        list.cubes.insert(place, fresh.cubes[0].clone());
        list.outputs.insert(place, fresh.outputs[0].clone());
        return (list, kind, fresh);
    }
    let place = random.below(count);
    let mut of_it = Shared { cubes: vec![list.cubes.remove(place)], outputs: vec![list.outputs.remove(place)] };
    if kind == 0 {
        list.cubes.insert(place, fresh.cubes[0].clone());
        list.outputs.insert(place, fresh.outputs[0].clone());
        of_it.cubes.extend(fresh.cubes);
        of_it.outputs.extend(fresh.outputs);
    }
    (list, kind, of_it)
}

/// The bits that some products carry, and the EXOR of those that the true ones carry.
fn bits(products: &Shared, a: u64) -> (u64, u64) {
    let word = |outputs: &Vec<u8>| outputs.iter().map(|k| 1u64 << k).sum::<u64>();
    let each = products.cubes.iter().zip(&products.outputs);
    each.fold((0, 0), |(carried, turned), (cube, outputs)| {
        (carried | word(outputs), if is_true(cube, a) { turned ^ word(outputs) } else { turned })
    })
}

impl Lists {
    fn add(&mut self, random: &mut Random, case: &Case, before: u64) -> Result<(), String> {
        let (list, kind, of_it) = another(random, case.n as usize, &case.products());
        let after = word_at(case.n, &encoded_list(&list), case.number)?;
        let (carried, turned) = bits(&of_it, case.number);
        // Those that it carries are turned where it is true, and no others.
        if after != before ^ turned || (after ^ before) & !carried != 0 {
            return Err(format!("a product that is {} sways another output: {after:x}\n{case}", KINDS[kind]));
        }
        self.kinds[kind] += 1;
        self.swayed[match before ^ after {
            0 => 0,
            some if some != carried => 1,
            _ => 2,
        }] += 1;
        self.bits_that_stay += u64::from(OUTPUTS) - u64::from(carried.count_ones());
        Ok(())
    }

    fn counts(&self) -> [Counts; 2] {
        [
            ("products of shared lists", KINDS.into_iter().zip(self.kinds).collect()),
            ("outputs that have another value", SWAYED.into_iter().zip(self.swayed).collect()),
        ]
    }
}

impl std::fmt::Display for Lists {
    fn fmt(&self, f: &mut std::fmt::Formatter) -> std::fmt::Result {
        write_lines(f, &self.counts())
    }
}
