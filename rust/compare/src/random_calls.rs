//! Random calls of every function.

use crate::cases::case;
use crate::differ::{Call, compared};
use crate::random::Random;
use crate::tally::Tally;

pub fn all(calls: usize, seed: u64) -> Result<(), String> {
    let mut tally = Tally::default();
    for call in Call::ALL {
        let mut random = Random::new(seed.wrapping_mul(31).wrapping_add(call as u64));
        for number in 0..calls {
            let case = case(&mut random, call);
            let after =
                compared(&case).map_err(|difference| format!("call {number} from seed {seed}: {difference}"))?;
            tally.add(&case, &after);
        }
    }
    println!("{tally}");
    let amiss = tally.amiss();
    if amiss.is_empty() { Ok(()) } else { Err(amiss.join("\n")) }
}
