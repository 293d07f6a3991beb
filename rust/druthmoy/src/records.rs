//! The records that lists, shared lists and scripts are made of, the width of a place, the starts of an index, and what a map of several lists
//! is passed by.

use std::fmt;
use std::str::FromStr;

/// Bytes of a cube's record, of the record that it has in an old list, and of a product's record in a shared one.
pub const RECORD: usize = 8;
pub const NARROW_RECORD: usize = 4;
pub const SHARED_RECORD: usize = 12;

/// Bytes of a step.
pub const STEP: usize = 8;

/// Bytes of a place among reasons, and of an entry of an index.
pub const PLACE: usize = 2;

/// The start of each group of an index, counted in entries: of the cubes with no literal, with one, and so on to 32.
pub type Starts = [u64; 33];

/// The lists of a map, at most.
pub const LISTS: usize = 12;

/// A number for each list of a map, and zeros after the last.
pub type PerList = [u64; LISTS];

/// The lists of a map, one for each slot bit, or their scripts: end to end, and the length of each in bytes.
#[derive(Clone, Copy, Debug, PartialEq, Eq)]
pub struct Parts<'a> {
    pub bytes: &'a [u8],
    pub lengths: &'a [u64],
}

/// A cube: its literals by two masks, bit k for variable k.
#[derive(Clone, Copy, Debug, Default, PartialEq, Eq, Hash)]
pub struct Cube {
    /// Set where a literal stands.
    pub seen: u32,
    /// Set where the plain literal stands.
    pub value: u32,
}

impl Cube {
    pub fn record(self) -> [u8; RECORD] {
        let ([a, b, c, d], [e, f, g, h]) = (self.seen.to_le_bytes(), self.value.to_le_bytes());
        [a, b, c, d, e, f, g, h]
    }

    pub fn from_record([a, b, c, d, e, f, g, h]: [u8; RECORD]) -> Cube {
        Cube { seen: u32::from_le_bytes([a, b, c, d]), value: u32::from_le_bytes([e, f, g, h]) }
    }

    /// The record in an old list; nothing where a bit stands at or above variable 16.
    pub fn narrow_record(self) -> Option<[u8; NARROW_RECORD]> {
        let (seen, value) = (u16::try_from(self.seen).ok()?, u16::try_from(self.value).ok()?);
        let ([a, b], [c, d]) = (seen.to_le_bytes(), value.to_le_bytes());
        Some([a, b, c, d])
    }

    pub fn from_narrow_record([a, b, c, d]: [u8; NARROW_RECORD]) -> Cube {
        Cube { seen: u16::from_le_bytes([a, b]).into(), value: u16::from_le_bytes([c, d]).into() }
    }

    /// Written out for `n` variables, at most 32: `0`, `1` or `-` each, variable 0 first.
    pub fn written(self, n: usize) -> String {
        let literal = |k: usize| match (self.seen >> k & 1, self.value >> k & 1) {
            (0, _) => '-',
            (_, 0) => '0',
            _ => '1',
        };
        (0..n).map(literal).collect()
    }
}

/// A text that is not `0`, `1` or `-` for each of at most 32 variables.
#[derive(Clone, Copy, Debug, PartialEq, Eq)]
pub struct NotACube;

impl fmt::Display for NotACube {
    fn fmt(&self, f: &mut fmt::Formatter) -> fmt::Result {
        f.write_str("a cube is written as 0, 1 or - for each of at most 32 variables")
    }
}

impl std::error::Error for NotACube {}

impl FromStr for Cube {
    type Err = NotACube;

    fn from_str(text: &str) -> Result<Cube, NotACube> {
        let mut cube = Cube::default();
        for (k, literal) in text.chars().enumerate() {
            let bit = 1u32.checked_shl(k as u32).ok_or(NotACube)?;
            match literal {
                '0' => cube.seen |= bit,
                '1' => (cube.seen, cube.value) = (cube.seen | bit, cube.value | bit),
                '-' => {}
                _ => return Err(NotACube),
            }
        }
        Ok(cube)
    }
}

/// A product of a shared list: its cube, and the outputs that it counts for, bit k for output k. Some bit is set.
#[derive(Clone, Copy, Debug, PartialEq, Eq, Hash)]
pub struct Product {
    pub cube: Cube,
    pub outputs: u32,
}

impl Product {
    pub fn record(self) -> [u8; SHARED_RECORD] {
        let ([a, b, c, d, e, f, g, h], [i, j, k, l]) = (self.cube.record(), self.outputs.to_le_bytes());
        [a, b, c, d, e, f, g, h, i, j, k, l]
    }

    pub fn from_record([a, b, c, d, e, f, g, h, i, j, k, l]: [u8; SHARED_RECORD]) -> Product {
        let cube = Cube::from_record([a, b, c, d, e, f, g, h]);
        Product { cube, outputs: u32::from_le_bytes([i, j, k, l]) }
    }
}

/// A step of a script, with the fields that it uses. In a shared list the two products of a drop, a join or a turn also need equal outputs, and a
/// split gives both halves those of i.
#[derive(Clone, Copy, Debug, PartialEq, Eq, Hash)]
pub enum Step {
    /// Equal cubes: both removed.
    Drop { i: u16, j: u16 },
    /// They differ in one variable: i gets the third code there, j is removed.
    Join { i: u16, j: u16 },
    /// Of the two codes that i does not have at v, the lower stays at i, the higher is appended.
    Split { v: u8, i: u16 },
    /// They differ in two variables, v one of them: i gets the third code at v, j the third at the other.
    Turn { v: u8, i: u16, j: u16 },
    /// In every cube, at v, the literal and none are exchanged, until the script's end.
    L { v: u8, literal: u8 },
    /// In a shared list alone. Equal cubes with different outputs: i gets the EXOR of the outputs, j is removed.
    Merge { i: u16, j: u16 },
}

impl Step {
    pub fn record(self) -> [u8; STEP] {
        let (op, v, i, j, literal) = match self {
            Step::Drop { i, j } => (1, 0, i, j, 0),
            Step::Join { i, j } => (2, 0, i, j, 0),
            Step::Split { v, i } => (3, v, i, 0, 0),
            Step::Turn { v, i, j } => (4, v, i, j, 0),
            Step::L { v, literal } => (5, v, 0, 0, literal),
            Step::Merge { i, j } => (6, 0, i, j, 0),
        };
        let ([i, i_high], [j, j_high]) = (i.to_le_bytes(), j.to_le_bytes());
        [op, v, i, i_high, j, j_high, literal, 0]
    }
}
