//! A cube by two masks.

pub const RECORD: usize = 8;

/// Variables of a list, at most.
pub const VARIABLES: u64 = 32;

#[derive(Clone, Copy, PartialEq, Eq)]
pub struct Cube {
    pub seen: u32,
    pub value: u32,
}

impl Cube {
    /// A load and a store of four bytes for each mask, in place, so that a pass over records can be done in vectors.
    #[inline]
    pub fn read(record: &[u8; RECORD]) -> Cube {
        let (masks, _) = record.as_chunks();
        Cube { seen: u32::from_le_bytes(masks[0]), value: u32::from_le_bytes(masks[1]) }
    }

    #[inline]
    pub fn store(self, record: &mut [u8; RECORD]) {
        let (masks, _) = record.as_chunks_mut();
        masks[0] = self.seen.to_le_bytes();
        masks[1] = self.value.to_le_bytes();
    }

    /// No value bit outside seen, and no seen bit outside the set.
    #[inline]
    pub fn is_within(self, set: u32) -> bool {
        (self.value & !self.seen) | (self.seen & !set) == 0
    }

    #[inline]
    pub fn holds_at(self, a: u32) -> bool {
        (a ^ self.value) & self.seen == 0
    }

    #[inline]
    pub fn differing(self, other: Cube) -> u32 {
        (self.seen ^ other.seen) | (self.value ^ other.value)
    }

    /// Equal, or differing in one variable.
    #[inline]
    pub fn is_near(self, other: Cube) -> bool {
        self.differing(other).count_ones() < 2
    }

    #[inline]
    pub fn code(self, v: u32) -> u32 {
        let (seen, value) = (self.seen >> v & 1, self.value >> v & 1);
        2 - 2 * seen + value
    }

    #[inline]
    pub fn put(self, v: u32, code: u32) -> Cube {
        let bit = 1 << v;
        let (seen, value) = (u32::from(code != 2), u32::from(code == 1));
        Cube { seen: self.seen & !bit | seen << v, value: self.value & !bit | value << v }
    }
}

/// The set of the variables below n.
#[inline]
pub fn variables_below(n: u64) -> u32 {
    1u32.checked_shl(n as u32).map_or(u32::MAX, |next| next - 1)
}

/// The remaining one of the codes 0, 1, 2.
#[inline]
pub fn third(x: u32, y: u32) -> u32 {
    3 - x - y
}

/// A buffer's records that count towards its capacity.
#[inline]
pub fn records(buffer: &mut [u8]) -> &mut [[u8; RECORD]] {
    let (records, _) = buffer.as_chunks_mut();
    let capacity = records.len().min(4096);
    &mut records[..capacity]
}
