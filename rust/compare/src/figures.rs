//! Figures that others have published.

use crate::kronecker_search::Extended;
use crate::random::Random;
use druthmoy::{RECORD, best_polarity, coefficients, write_kronecker, write_tree};

/// Source document 002, table 2.1, column FPRM: how many of the functions of 5 variables need t products. As printed,
/// the column adds up to 2^32 + 1,000.
const NEEDING: [u64; 22] = [
    1, 243, 6932, 79820, 576930, 3228162, 14327120, 49694224, 138496600, 319912340, 587707228, 877839192, 955078352,
    803257168, 393502216, 130238200, 19114960, 1816640, 88032, 3680, 208, 48,
];

/// The last line of that column.
const AVERAGE: f64 = 11.566;

/// Column KRO. At 4 products 268,570 is printed; with 2,508,570 the column adds up to 2^32 and has the average of its last line.
const NEEDING_OF_CHOICES: [u64; 22] = [
    1, 243, 24948, 354780, 2508570, 12029418, 55321704, 187202664, 418029660, 804890520, 1006381476, 1053603288,
    544903200, 195821712, 13630680, 256608, 0, 7776, 0, 0, 0, 48,
];

/// The last line of that column.
const AVERAGE_OF_CHOICES: f64 = 10.066;

/// The vector of a random function of 5 variables.
fn function_of_five(random: &mut Random) -> [u8; 32] {
    let function = random.next();
    std::array::from_fn(|a| (function >> a & 1) as u8)
}

/// The average best size over random functions of 5 variables, and how the sizes are spread.
pub fn average_of_five(seed: u64) -> Result<(), String> {
    let mut random = Random::new(seed);
    let mut needing = [0; 33];
    for _ in 0..1_000_000 {
        let vector = function_of_five(&mut random);
        let best = best_polarity(5, &vector).map_err(|refusal| refusal.to_string())?;
        needing[best.size as usize] += 1;
    }
    // The average of so many functions has a standard deviation below 0.002.
    beside_published(&needing, &NEEDING, AVERAGE, 0.01)
}

/// The average least number of products over the choices of random functions of 5 variables, and how they are spread. They are found by
/// a search, and by the library: with a literal of a sixth variable the constant is not free, so that the least cost of such a
/// function is the least number of products of the function.
pub fn choices_of_five(seed: u64) -> Result<(), String> {
    // The stand-in is slow.
    const CALLS: usize = if cfg!(feature = "standin") { 100 } else { 100_000 };
    let mut random = Random::new(seed);
    let mut needing = [0; 33];
    for number in 0..100_000 {
        let vector = function_of_five(&mut random);
        let fewest = Extended::of(&vector).fewest_products();
        needing[fewest] += 1;
        if number < CALLS {
            let with_a_literal = [[0; 32], vector].concat();
            let form =
                write_kronecker(6, &with_a_literal, &mut [0; 64 * RECORD]).map_err(|refusal| refusal.to_string())?;
            if form.cost != fewest as u64 {
                return Err(format!("{vector:?}: {fewest} products by a search, and {form:?} with a literal"));
            }
        }
    }
    println!("of {CALLS} of them the library has the same number of products");
    // The average of so many functions has a standard deviation below 0.005.
    beside_published(&needing, &NEEDING_OF_CHOICES, AVERAGE_OF_CHOICES, 0.03)
}

/// How many functions need t products, beside a column of the table and its average.
fn beside_published(needing: &[u64; 33], published: &[u64; 22], average: f64, tolerance: f64) -> Result<(), String> {
    let functions: u64 = needing.iter().sum();
    let products: u64 = (0..).zip(needing).map(|(size, count)| size * count).sum();
    let mean = products as f64 / functions as f64;
    println!("{functions} functions: average {mean:.3}, published {average}");
    println!("{:>4} {:>9} {:>11}", "size", "functions", "published");
    let mut far = Vec::new();
    for (size, &count) in needing.iter().enumerate() {
        let share = published.get(size).copied().unwrap_or(0) as f64 / (1u64 << 32) as f64;
        let expected = share * functions as f64;
        if expected >= 0.5 || count > 0 {
            println!("{size:>4} {count:>9} {expected:>11.1}");
        }
        // Six standard deviations of a count, and room for the rare sizes.
        if (count as f64 - expected).abs() > 6.0 * expected.sqrt() + 6.0 {
            far.push(format!("size {size}: {count} functions, {expected:.1} expected"));
        }
    }
    if (mean - average).abs() > tolerance {
        far.push(format!("average {mean:.4}, published {average}"));
    }
    if far.is_empty() { Ok(()) } else { Err(far.join("\n")) }
}

/// The last line of column PSDKRO: the fewest products of a pseudo Kronecker expression. Document 002 does not say in which order of the
/// variables.
const AVERAGE_OF_TREES: f64 = 6.541;

/// The average size over random functions of 5 variables of the tree that costs least, which need not have the fewest products: it
/// lies between those of a pseudo Kronecker expression and of the best polarity.
pub fn trees_of_five(seed: u64) -> Result<(), String> {
    const FUNCTIONS: u64 = 100_000;
    let mut random = Random::new(seed);
    let (mut products, mut cost) = (0, 0);
    for _ in 0..FUNCTIONS {
        let vector = function_of_five(&mut random);
        let tree = write_tree(5, &vector, &mut [0; 32 * RECORD]).map_err(|refusal| refusal.to_string())?;
        products += tree.products;
        cost += tree.cost;
    }
    let [size, cost] = [products, cost].map(|sum| sum as f64 / FUNCTIONS as f64);
    println!("{FUNCTIONS} functions: average {size:.3} products, average cost {cost:.3}");
    println!("published: {AVERAGE_OF_TREES} products of a pseudo Kronecker expression, {AVERAGE} of the best polarity");
    let between = AVERAGE_OF_TREES < size && size < AVERAGE;
    if between { Ok(()) } else { Err(format!("{size:.3} does not lie between the published averages")) }
}

/// Source document 001, table 1, column FP: a polarity for all outputs together, and a product that several outputs
/// have counted once. The outputs of rdXY are the Y binary digits of the number of ones among X inputs.
pub fn ones_counters() -> Result<(), String> {
    let mut far = Vec::new();
    for (name, inputs, outputs, published) in [("rd53", 5, 3, 20), ("rd73", 7, 3, 63), ("rd84", 8, 4, 107)] {
        let (polarity, size) = fewest_shared_products(inputs, outputs)?;
        println!("{name}: {size} products at polarity {polarity}, published {published}");
        if size != published {
            far.push(format!("{name}: {size} products, {published} published"));
        }
    }
    if far.is_empty() { Ok(()) } else { Err(far.join("\n")) }
}

fn fewest_shared_products(inputs: u64, outputs: u32) -> Result<(u64, usize), String> {
    let length = 1usize << inputs;
    let digit = |output: u32| (0..length).map(|a| (a.count_ones() >> output & 1) as u8).collect::<Vec<u8>>();
    let vectors: Vec<Vec<u8>> = (0..outputs).map(digit).collect();
    let mut sizes = Vec::new();
    for p in 0..1 << inputs {
        let mut used = vec![false; length];
        let mut out = vec![0; length];
        for vector in &vectors {
            coefficients(inputs, vector, p, &mut out).map_err(|refusal| refusal.to_string())?;
            for (used, &coefficient) in used.iter_mut().zip(&out) {
                *used |= coefficient == 1;
            }
        }
        sizes.push((used.iter().filter(|&&used| used).count(), p));
    }
    let (size, p) = sizes.into_iter().min().expect("there is a polarity");
    Ok((p, size))
}
