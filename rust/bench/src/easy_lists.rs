//! Lists that easy scripts are written for.

use crate::inputs::record;

/// Seen and value.
type Masks = (u32, u32);

/// 4,096 cubes of 13 variables, of which no two are near.
pub fn no_pair() -> Vec<u8> {
    encoded((0..4096).map(even))
}

/// 2,048 cubes without a pair, and then 1,024 pairs, each of which is joined to one more such cube.
pub fn joins_at_the_back() -> Vec<u8> {
    let pair = |m| {
        let (seen, value) = even(m);
        [0, 1 << 31].map(|literal| (seen | 1 << 31, value | literal))
    };
    encoded((0..2048).map(even).chain((2048..3072).flat_map(pair)))
}

/// 256 chains of four joins. Each begins with a pair at the back, and each cube that is made is near one that stands 853 places
/// in front, or more. At the very end are cubes without a pair, for the freed places.
pub fn chains() -> Vec<u8> {
    const CHAINS: u32 = 256;
    let mut fillers = (CHAINS..4096).map(even).map(|(seen, value)| (seen | 0xf << 28, value));
    let mut list = Vec::new();
    for made in [3, 2, 1] {
        list.extend((0..CHAINS).map(|m| link(m, made)));
        list.extend(fillers.by_ref().take(597));
    }
    let pair = |m| {
        let (seen, value) = link(m, 0);
        [0, 1 << 28].map(|literal| (seen, value | literal))
    };
    list.extend((0..CHAINS).flat_map(pair));
    list.extend(fillers.take(4096 - list.len()));
    encoded(list)
}

/// The minterms of 12 variables, in order.
pub fn minterms() -> Vec<u8> {
    encoded((0..4096).map(|m| (0xfff, m)))
}

/// A minterm of 13 variables with an even number of ones: another number's differs in two variables or more.
fn even(m: u32) -> Masks {
    (0x1fff, m << 1 | m.count_ones() & 1)
}

/// The cube of a chain for the join after so many: nothing at the variables of those, 0 at its own and 1 at the ones after it.
fn link(m: u32, made: u32) -> Masks {
    let (seen, value) = even(m);
    (seen | 0xf000_0000 << made, value | 0xe000_0000 << made)
}

fn encoded(list: impl IntoIterator<Item = Masks>) -> Vec<u8> {
    list.into_iter().flat_map(|(seen, value)| record(seen, value)).collect()
}
