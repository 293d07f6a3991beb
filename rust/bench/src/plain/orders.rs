//! The six orders of the codes 0, 1, 2, and what they do to a cube by masks.

use super::cube::{Cube, RECORD, VARIABLES};

pub const NONE: u8 = 0;

/// The order that is pending at each variable.
pub type Pending = [u8; VARIABLES as usize];

/// Where each code goes.
const ORDERS: [[u8; 3]; 6] = [[0, 1, 2], [2, 1, 0], [0, 2, 1], [1, 0, 2], [1, 2, 0], [2, 0, 1]];

/// The order that exchanges a literal's code and 2.
const EXCHANGES: [u8; 2] = [1, 2];

/// `FOLLOWED[x][y]`: first x, then y.
const FOLLOWED: [[u8; 6]; 6] = {
    let mut table = [[0; 6]; 6];
    let mut x = 0;
    while x < 6 {
        let mut y = 0;
        while y < 6 {
            table[x][y] = number([
                ORDERS[y][ORDERS[x][0] as usize],
                ORDERS[y][ORDERS[x][1] as usize],
                ORDERS[y][ORDERS[x][2] as usize],
            ]);
            y += 1;
        }
        x += 1;
    }
    table
};

const fn number(order: [u8; 3]) -> u8 {
    let mut x = 0;
    while x < 6 {
        if ORDERS[x][0] == order[0] && ORDERS[x][1] == order[1] && ORDERS[x][2] == order[2] {
            return x as u8;
        }
        x += 1;
    }
    panic!("not an order")
}

#[inline]
pub fn after_exchange(pending: u8, literal: u8) -> u8 {
    FOLLOWED[pending as usize][EXCHANGES[literal as usize] as usize]
}

fn inverse(order: u8) -> u8 {
    (0..6).find(|&back| FOLLOWED[order as usize][back as usize] == NONE).unwrap_or(NONE)
}

/// An L step: one pass, no branch a record.
pub fn exchange<const WIDTH: usize>(records: &mut [[u8; WIDTH]], v: u32, literal: u8) {
    reorder(records, v, EXCHANGES[literal as usize]);
}

/// Undoes what is pending, one pass for each variable that has an order pending.
pub fn undo<const WIDTH: usize>(records: &mut [[u8; WIDTH]], pending: &Pending) {
    for (v, &order) in pending.iter().enumerate() {
        if order != NONE {
            reorder(records, v as u32, inverse(order));
        }
    }
}

/// An order at one variable as masks of a record's word, with seen in its low half and value in its high half. A bit of the variable is
/// changed by the sum, modulo 2, of: itself where `own` is set, the variable's other bit where `other` is, and 1 where `always` is.
struct Masks {
    own: u64,
    other: u64,
    always: u64,
}

impl Masks {
    fn at(v: u32, order: u8) -> Masks {
        let bit = 1 << v;
        let [x, y, z] = ORDERS[order as usize].map(|code| Cube { seen: 0, value: 0 }.put(v, code.into()));
        Masks {
            own: word(bit ^ x.seen ^ z.seen, bit ^ x.value ^ y.value),
            other: word(x.seen ^ y.seen, x.value ^ z.value),
            always: word(z.seen, z.value),
        }
    }
}

fn word(seen: u32, value: u32) -> u64 {
    u64::from(seen) | u64::from(value) << 32
}

/// One load and one store a record, so that a pass over records can be done in vectors. A record begins with the cube.
fn reorder<const WIDTH: usize>(records: &mut [[u8; WIDTH]], v: u32, order: u8) {
    let Masks { own, other, always } = Masks::at(v, order);
    for record in records {
        let (cubes, _) = record.as_chunks_mut::<RECORD>();
        let word = u64::from_le_bytes(cubes[0]);
        let crossed = word.rotate_left(32);
        cubes[0] = (word ^ (word & own) ^ (crossed & other) ^ always).to_le_bytes();
    }
}
