//! Check and value of a shared list: one pass over its records to the first bad one, and one that adds up the outputs of the true ones.

use super::cube::{Cube, VARIABLES, variables_below};
use super::{Refusal, Words, refusal, refuse_if, words};

pub const SHARED_RECORD: usize = 12;

pub type SharedRecords<'a> = &'a [[u8; SHARED_RECORD]];

/// A cube and its outputs.
#[derive(Clone, Copy)]
pub struct Product {
    pub cube: Cube,
    pub outputs: u32,
}

impl Product {
    #[inline]
    pub fn read(record: &[u8; SHARED_RECORD]) -> Product {
        let (words, _) = record.as_chunks();
        let cube = Cube { seen: u32::from_le_bytes(words[0]), value: u32::from_le_bytes(words[1]) };
        Product { cube, outputs: u32::from_le_bytes(words[2]) }
    }

    #[inline]
    pub fn store(self, record: &mut [u8; SHARED_RECORD]) {
        let (words, _) = record.as_chunks_mut();
        words[0] = self.cube.seen.to_le_bytes();
        words[1] = self.cube.value.to_le_bytes();
        words[2] = self.outputs.to_le_bytes();
    }

    #[inline]
    fn is_within(self, set: u32) -> bool {
        self.cube.is_within(set) & (self.outputs != 0)
    }
}

#[inline(never)]
pub fn shared_check(n: u64, list: &[u8], answer: &mut Words) {
    *answer = words(checked(n, list).map(|records| [records.len() as u64]));
}

#[inline(never)]
pub fn shared_value(n: u64, list: &[u8], a: u64, answer: &mut Words) {
    *answer = words(try_value(n, list, a));
}

/// Rules 1 to 4.
pub fn checked(n: u64, list: &[u8]) -> Result<SharedRecords<'_>, Refusal> {
    refuse_if(n > VARIABLES, 1)?;
    let (records, rest) = list.as_chunks();
    refuse_if(!rest.is_empty(), 2)?;
    refuse_if(records.len() > 4096, 3)?;
    let below = variables_below(n);
    match records.iter().position(|record| !Product::read(record).is_within(below)) {
        Some(place) => refusal(4, place),
        None => Ok(records),
    }
}

fn try_value(n: u64, list: &[u8], a: u64) -> Result<[u64; 1], Refusal> {
    let records = checked(n, list)?;
    refuse_if(a >> n != 0, 6)?;
    let word = records
        .iter()
        .map(Product::read)
        .fold(0, |word, Product { cube, outputs }| word ^ if cube.holds_at(a as u32) { outputs } else { 0 });
    Ok([word.into()])
}

/// A buffer's records that count towards its capacity.
#[inline]
pub fn records(buffer: &mut [u8]) -> &mut [[u8; SHARED_RECORD]] {
    let (records, _) = buffer.as_chunks_mut();
    let capacity = records.len().min(4096);
    &mut records[..capacity]
}
