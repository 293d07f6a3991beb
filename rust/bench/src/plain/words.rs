//! The library's way with vectors: 256 bits in four words, and the 64 bits of at most six variables in one; one masked shift a variable.

use super::cube::{Cube, RECORD};

/// The bits whose index is without variable k.
const WITHOUT: [u64; 6] = [
    0x5555555555555555,
    0x3333333333333333,
    0x0f0f0f0f0f0f0f0f,
    0x00ff00ff00ff00ff,
    0x0000ffff0000ffff,
    0x00000000ffffffff,
];

/// Bit t is bit t % 64 of word t / 64.
#[derive(Clone, Copy)]
pub struct Packed([u64; 4]);

/// The lowest bit of each of at most 64 bytes: eight at a time, by masked shifts, and the rest one by one.
#[inline]
fn pack(bytes: &[u8]) -> u64 {
    let (eights, rest) = bytes.as_chunks::<8>();
    let mut word = 0;
    for (j, &eight) in eights.iter().enumerate() {
        let bits = u64::from_le_bytes(eight) & 0x0101010101010101;
        let twos = (bits | bits >> 7) & 0x0003000300030003;
        let fours = (twos | twos >> 14) & 0x0000000f0000000f;
        word |= ((fours | fours >> 28) & 0xff) << (8 * j);
    }
    for (j, &byte) in rest.iter().enumerate() {
        word |= u64::from(byte & 1) << (8 * eights.len() + j);
    }
    word
}

/// The bits of a word to at most 64 bytes: four at a time, by one product, and the rest one by one.
#[inline]
fn put(word: u64, bytes: &mut [u8]) {
    let (fours, rest) = bytes.as_chunks_mut::<4>();
    let count = fours.len();
    for (j, four) in fours.iter_mut().enumerate() {
        let bits = (word >> (4 * j)) as u32 & 15;
        *four = ((15 - bits) * 0x00204081 & 0x01010101 ^ 0x01010101).to_le_bytes();
    }
    for (j, byte) in rest.iter_mut().enumerate() {
        *byte = (word >> (4 * count + j)) as u8 & 1;
    }
}

/// The lowest byte above 1: eight at a time, and one by one where one of eight is, or fewer are left.
#[inline]
pub fn first_above_one(bytes: &[u8]) -> Option<usize> {
    let mut i = 0;
    while i < bytes.len() {
        let eight = bytes[i..].first_chunk::<8>();
        if eight.is_some_and(|&eight| u64::from_le_bytes(eight) & 0xfefefefefefefefe == 0) {
            i += 8;
        } else if bytes[i] > 1 {
            return Some(i);
        } else {
            i += 1;
        }
    }
    None
}

impl Packed {
    pub fn of(bytes: &[u8]) -> Packed {
        let mut words = [0; 4];
        for (word, part) in words.iter_mut().zip(bytes.chunks(64)) {
            *word = pack(part);
        }
        Packed(words)
    }

    pub fn put(self, bytes: &mut [u8]) {
        for (&word, part) in self.0.iter().zip(bytes.chunks_mut(64)) {
            put(word, part);
        }
    }

    /// The values of a list at all assignments of eight variables.
    pub fn values(records: &[[u8; RECORD]]) -> Packed {
        let mut sum = Packed([0; 4]);
        for record in records {
            let product = Packed::product(Cube::read(record));
            for (sum, product) in sum.0.iter_mut().zip(product.0) {
                *sum ^= product;
            }
        }
        sum
    }

    /// Where a product is true: an AND of the bits of its literals, with no branch on a code.
    #[inline]
    fn product(cube: Cube) -> Packed {
        let mut bits = [u64::MAX; 4];
        for k in 0..8 {
            let code = cube.code(k);
            let low = u64::from(code != 1).wrapping_neg();
            let high = u64::from(code != 0).wrapping_neg();
            for (i, word) in bits.iter_mut().enumerate() {
                let without = if k < 6 { WITHOUT[k as usize] } else { u64::from(i >> (k - 6) & 1 == 0).wrapping_neg() };
                *word &= without & low | !without & high;
            }
        }
        Packed(bits)
    }

    /// To each bit with variable k, the bit without it is added.
    #[inline]
    pub fn raised(self, k: usize) -> Packed {
        let [a, b, c, d] = self.0;
        match k {
            0..6 => Packed(self.0.map(|word| word ^ (word & WITHOUT[k]) << (1 << k))),
            6 => Packed([a, b ^ a, c, d ^ c]),
            _ => Packed([a, b, c ^ a, d ^ b]),
        }
    }

    /// To each bit without variable k, the bit with it is added.
    #[inline]
    pub fn lowered(self, k: usize) -> Packed {
        let [a, b, c, d] = self.0;
        match k {
            0..6 => Packed(self.0.map(|word| word ^ word >> (1 << k) & WITHOUT[k])),
            6 => Packed([a ^ b, b, c ^ d, d]),
            _ => Packed([a ^ c, b ^ d, c, d]),
        }
    }

    /// The half with variable k, at the places of the half without it.
    #[inline]
    pub fn upper(self, k: usize) -> Packed {
        let Packed(change) = self.lowered(k);
        Packed(std::array::from_fn(|i| self.0[i] ^ change[i]))
    }

    /// The first bit.
    #[inline]
    pub fn first(self) -> usize {
        (self.0[0] & 1) as usize
    }

    #[inline]
    fn rank(self) -> usize {
        rank(self.0.iter().map(|word| word.count_ones() as usize).sum(), self.0[0] & 1 == 1)
    }

    /// From a vector's bits the positive coefficients, and from those the vector's bits.
    pub fn transformed(self, n: u64) -> Packed {
        (0..n as usize).fold(self, Packed::raised)
    }

    /// From the coefficients under one polarity, those under it EXOR p.
    pub fn turned(self, n: u64, p: usize) -> Packed {
        (0..n as usize).filter(|k| p >> k & 1 == 1).fold(self, Packed::lowered)
    }

    /// The best of the polarities that have p's variables from k on, from the coefficients under p, which has none below k. The last three
    /// variables are taken at once.
    fn best_from(self, k: usize, p: usize) -> (usize, usize) {
        match k {
            0 => self.best_of::<0>(p),
            1 => self.best_of::<1>(p),
            2 => self.best_of::<2>(p),
            3 => self.best_of::<3>(p),
            _ => lesser(self.best_from(k - 1, p), self.lowered(k - 1).best_from(k - 1, p + (1 << (k - 1)))),
        }
    }

    #[inline]
    fn best_of<const K: usize>(self, p: usize) -> (usize, usize) {
        let mut best = (p, self.rank());
        let mut bits = [self; 8];
        for q in 1..1 << K {
            let k = usize::ilog2(q) as usize;
            bits[q] = bits[q - (1 << k)].lowered(k);
            best = lesser(best, (p + q, bits[q].rank()));
        }
        best
    }

    /// The best polarity and its number of products, from the vector's bits.
    pub fn best(self, n: u64) -> (usize, usize) {
        let (p, rank) = self.transformed(n).best_from(n as usize, 0);
        (p, rank / 2)
    }
}

/// How many variables tell the bits of one word apart.
pub const WORD_VARIABLES: u64 = 6;

/// The bits of a vector of at most six variables.
#[derive(Clone, Copy)]
pub struct Word(u64);

impl Word {
    pub fn of(bytes: &[u8]) -> Word {
        Word(pack(bytes))
    }

    pub fn put(self, bytes: &mut [u8]) {
        put(self.0, bytes);
    }

    #[inline]
    fn raised(self, k: usize) -> Word {
        Word(self.0 ^ (self.0 & WITHOUT[k]) << (1 << k))
    }

    #[inline]
    pub fn lowered(self, k: usize) -> Word {
        Word(self.0 ^ self.0 >> (1 << k) & WITHOUT[k])
    }

    /// The half with variable k, at the places of the half without it.
    #[inline]
    pub fn upper(self, k: usize) -> Word {
        Word(self.0 ^ self.lowered(k).0)
    }

    /// The first bit.
    #[inline]
    pub fn first(self) -> usize {
        (self.0 & 1) as usize
    }

    #[inline]
    pub fn bits(self) -> u64 {
        self.0
    }

    pub fn transformed(self, n: u64) -> Word {
        (0..n as usize).fold(self, Word::raised)
    }

    pub fn turned(self, n: u64, p: usize) -> Word {
        (0..n as usize).filter(|k| p >> k & 1 == 1).fold(self, Word::lowered)
    }

    /// The same from one word: the last variable's two polarities are taken at once.
    fn best_from(self, k: usize, p: usize) -> (usize, usize) {
        match k {
            0 => (p, self.rank()),
            1 => lesser((p, self.rank()), (p + 1, self.lowered(0).rank())),
            _ => lesser(self.best_from(k - 1, p), self.lowered(k - 1).best_from(k - 1, p + (1 << (k - 1)))),
        }
    }

    #[inline]
    fn rank(self) -> usize {
        rank(self.0.count_ones() as usize, self.0 & 1 == 1)
    }

    pub fn best(self, n: u64) -> (usize, usize) {
        let (p, rank) = self.transformed(n).best_from(n as usize, 0);
        (p, rank / 2)
    }
}

/// Of two lists, the one with the lesser rank costs less, or costs as much and has fewer products.
#[inline]
pub fn rank(products: usize, constant: bool) -> usize {
    2 * products + usize::from(!constant)
}

#[inline]
fn lesser(lower: (usize, usize), upper: (usize, usize)) -> (usize, usize) {
    if upper.1 < lower.1 { upper } else { lower }
}
