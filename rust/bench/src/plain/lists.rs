//! Check, value and reasons: one masked comparison a record; and the truth vector, in either way.

use super::cube::{Cube, RECORD, VARIABLES, variables_below};
use super::vectors::Way;
use super::{Refusal, Words, refusal, refuse_if, words};

pub type Records<'a> = &'a [[u8; RECORD]];

pub const PLACE: usize = 2;

#[inline(never)]
pub fn check(n: u64, list: &[u8], answer: &mut Words) {
    *answer = words(checked(n, VARIABLES, list).map(|records| [records.len() as u64]));
}

#[inline(never)]
pub fn value(n: u64, list: &[u8], a: u64, answer: &mut Words) {
    *answer = words(try_value(n, list, a));
}

#[inline(never)]
pub fn reasons(n: u64, list: &[u8], a: u64, out: &mut [u8], answer: &mut Words) {
    *answer = words(try_reasons(n, list, a, out));
}

#[inline(never)]
pub fn truth_vector<W: Way>(n: u64, list: &[u8], out: &mut [u8], answer: &mut Words) {
    *answer = words(try_truth_vector::<W>(n, list, out));
}

/// Rules 1 to 4.
pub fn checked(n: u64, limit: u64, list: &[u8]) -> Result<Records<'_>, Refusal> {
    refuse_if(n > limit, 1)?;
    let (records, rest) = list.as_chunks();
    refuse_if(!rest.is_empty(), 2)?;
    refuse_if(records.len() > 4096, 3)?;
    match first_bad(n, records) {
        Some(place) => refusal(4, place),
        None => Ok(records),
    }
}

/// Records that are looked at together, with no branch between them.
pub const STRIDE: usize = 32;

/// The lowest bad record: by strides, and one by one where one of a stride is bad, or fewer are left.
fn first_bad(n: u64, records: Records) -> Option<usize> {
    let below = variables_below(n);
    let mut i = 0;
    while i < records.len() {
        let stride = records[i..].first_chunk::<STRIDE>();
        if stride
            .is_some_and(|stride| stride.iter().fold(true, |all, record| all & Cube::read(record).is_within(below)))
        {
            i += STRIDE;
        } else if !Cube::read(&records[i]).is_within(below) {
            return Some(i);
        } else {
            i += 1;
        }
    }
    None
}

/// Rules 1 to 4 and 6.
fn checked_at(n: u64, list: &[u8], a: u64) -> Result<Records<'_>, Refusal> {
    let records = checked(n, VARIABLES, list)?;
    refuse_if(a >> n != 0, 6)?;
    Ok(records)
}

pub fn try_value(n: u64, list: &[u8], a: u64) -> Result<[u64; 2], Refusal> {
    let records = checked_at(n, list, a)?;
    let trues = records.iter().filter(|record| Cube::read(record).holds_at(a as u32)).count();
    Ok([trues & 1, trues].map(|word| word as u64))
}

pub fn try_reasons(n: u64, list: &[u8], a: u64, out: &mut [u8]) -> Result<[u64; 2], Refusal> {
    let records = checked_at(n, list, a)?;
    refuse_if(out.len() < PLACE * records.len(), 5)?;
    let trues = write_places(records, a as u32, out);
    Ok([trues, trues & 1].map(|word| word as u64))
}

/// The places of the true products; answers how many.
fn write_places(records: Records, a: u32, out: &mut [u8]) -> usize {
    let (entries, _) = out.as_chunks_mut::<PLACE>();
    let mut trues = 0;
    for (place, record) in records.iter().enumerate() {
        if Cube::read(record).holds_at(a) {
            entries[trues] = (place as u16).to_le_bytes();
            trues += 1;
        }
    }
    trues
}

fn try_truth_vector<W: Way>(n: u64, list: &[u8], out: &mut [u8]) -> Result<[u64; 1], Refusal> {
    let records = checked(n, 8, list)?;
    let length = 1 << n;
    refuse_if(out.len() < length, 5)?;
    W::write_values(n, records, &mut out[..length]);
    Ok([length as u64])
}
