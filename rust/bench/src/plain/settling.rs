//! Settle: run in the work buffer, find the best polarity and the cheapest tree where there are few variables, burn the best of the four.

use super::cube::{Cube, RECORD, VARIABLES, records};
use super::lists::checked;
use super::script::{checked_script, run_in};
use super::trees::Tree;
use super::vectors::{Way, write_cubes};
use super::words::rank;
use super::{Refusal, Words, refuse_if, words};

#[inline(never)]
pub fn settle<W: Way>(n: u64, list: &[u8], script: &[u8], work: &mut [u8], out: &mut [u8], answer: &mut Words) {
    *answer = words(try_settle::<W>(n, list, script, work, out));
}

pub fn try_settle<W: Way>(
    n: u64,
    list: &[u8],
    script: &[u8],
    work: &mut [u8],
    out: &mut [u8],
) -> Result<[u64; 6], Refusal> {
    let given = checked(n, VARIABLES, list)?;
    refuse_if(records(work).len() < given.len(), 5)?;
    refuse_if(records(out).len() < given.len(), 5)?;
    let steps = checked_script(n, script)?;
    let done = run_in(given, steps, work)?;

    let mut vector = [0; 256];
    let few = n <= 8;
    let (p, size) = if few {
        let vector = &mut vector[..1 << n];
        W::write_values(n, given, vector);
        W::best(n, vector)
    } else {
        (usize::MAX, usize::MAX)
    };
    let tree = few.then(|| W::tree(n, &vector[..1 << n]));

    let result = &work[..done.count * RECORD];
    let script = rank(done.count, has_bare(result.as_chunks().0));
    let both = script.min(rank(given.len(), has_bare(given)));
    let three = if few { both.min(rank(size, vector[p] == 1)) } else { both };
    let cheaper = tree.filter(|tree| rank(tree.products(), tree.cost() < tree.products()) < three);
    let burned = cheaper.as_ref().map_or(three / 2, Tree::products);
    out.fill(0);
    if let Some(tree) = cheaper {
        tree.put(records(out));
    } else if three == script {
        out[..result.len()].copy_from_slice(result);
    } else if three == both {
        out[..list.len()].copy_from_slice(list);
    } else {
        let mut coefficients = [0; 256];
        let coefficients = &mut coefficients[..1 << n];
        W::coefficients(n, &vector[..1 << n], p, coefficients);
        write_cubes(coefficients, p, out);
    }
    work.fill(0);
    Ok([given.len(), done.peak, done.count, p, size, burned].map(|count| count as u64))
}

/// Whether a product has no literal.
fn has_bare(records: &[[u8; RECORD]]) -> bool {
    records.iter().filter(|record| Cube::read(record).seen == 0).count() > 0
}
