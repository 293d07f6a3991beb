//! The starts of groups that are lent.

use crate::random::Random;
use model::index::Starts;

/// Where a call takes none.
pub const NONE: Starts = [0; 33];

/// What a call that writes them finds there.
pub fn garbage(random: &mut Random) -> Starts {
    std::array::from_fn(|_| random.next())
}
