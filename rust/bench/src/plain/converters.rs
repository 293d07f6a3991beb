//! The converters: a list checked, and then a pass from records of one width to records of the other.

use super::cube::{Cube, RECORD, VARIABLES, variables_below};
use super::lists::{STRIDE, checked};
use super::{Refusal, Words, refusal, refuse_if, words};

const NARROW_RECORD: usize = 4;
const NARROW_VARIABLES: u64 = 16;

#[inline(never)]
pub fn wide_from_narrow(n: u64, list: &[u8], out: &mut [u8], answer: &mut Words) {
    *answer = words(try_wide_from_narrow(n, list, out));
}

#[inline(never)]
pub fn narrow_from_wide(n: u64, list: &[u8], out: &mut [u8], answer: &mut Words) {
    *answer = words(try_narrow_from_wide(n, list, out));
}

fn try_wide_from_narrow(n: u64, list: &[u8], out: &mut [u8]) -> Result<[u64; 1], Refusal> {
    let records = checked_narrow(n, list)?;
    refuse_if(out.len() < RECORD * records.len(), 5)?;
    for (record, out) in records.iter().zip(out.as_chunks_mut().0) {
        read_narrow(record).store(out);
    }
    Ok([records.len() as u64])
}

fn try_narrow_from_wide(n: u64, list: &[u8], out: &mut [u8]) -> Result<[u64; 1], Refusal> {
    refuse_if(n > VARIABLES, 1)?;
    refuse_if(n > NARROW_VARIABLES, 20)?;
    let records = checked(n, VARIABLES, list)?;
    refuse_if(out.len() < NARROW_RECORD * records.len(), 5)?;
    for (record, out) in records.iter().zip(out.as_chunks_mut().0) {
        *out = narrow_record(Cube::read(record));
    }
    Ok([records.len() as u64])
}

/// Rules 1 to 4 of an old list.
fn checked_narrow(n: u64, list: &[u8]) -> Result<&[[u8; NARROW_RECORD]], Refusal> {
    refuse_if(n > NARROW_VARIABLES, 1)?;
    let (records, rest) = list.as_chunks();
    refuse_if(!rest.is_empty(), 2)?;
    refuse_if(records.len() > 4096, 3)?;
    match first_bad(n, records) {
        Some(place) => refusal(4, place),
        None => Ok(records),
    }
}

/// As for a list of 8-byte records.
fn first_bad(n: u64, records: &[[u8; NARROW_RECORD]]) -> Option<usize> {
    let below = variables_below(n);
    let mut i = 0;
    while i < records.len() {
        let stride = records[i..].first_chunk::<STRIDE>();
        if stride
            .is_some_and(|stride| stride.iter().fold(true, |all, record| all & read_narrow(record).is_within(below)))
        {
            i += STRIDE;
        } else if !read_narrow(&records[i]).is_within(below) {
            return Some(i);
        } else {
            i += 1;
        }
    }
    None
}

#[inline]
fn read_narrow(&[a, b, c, d]: &[u8; NARROW_RECORD]) -> Cube {
    Cube { seen: u16::from_le_bytes([a, b]).into(), value: u16::from_le_bytes([c, d]).into() }
}

#[inline]
fn narrow_record(Cube { seen, value }: Cube) -> [u8; NARROW_RECORD] {
    let ([a, b], [c, d]) = ((seen as u16).to_le_bytes(), (value as u16).to_le_bytes());
    [a, b, c, d]
}
