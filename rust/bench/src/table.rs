//! A line of the table: the library, plain Rust the same way and, where it is another one, plain Rust as one would write it first.

use crate::measure;
use crate::plain::Words;
use std::hint::black_box;

/// Bytes of a buffer of the greatest useful length: for a list, for a shared one, and for the lists of a map.
const BUFFER: usize = 8 * 4096;
const SHARED_BUFFER: usize = 12 * 4096;
const MAP_BUFFER: usize = 12 * BUFFER;

/// A run whose last step is a drop of unequal cubes.
pub const REFUSED: &str = "run, refused";

/// The straightforward way.
pub enum Straightforward<F> {
    Another(F),
    /// The library's is the straightforward one.
    Same,
    /// It would take too long.
    NotMeasured,
}

pub const SAME_WAY: Straightforward<Call> = Straightforward::Same;

pub type Call = fn(&mut [u8], &mut [u8]) -> Words;

/// Prints one line of the table. All functions get a work and an output buffer of the greatest useful length.
pub fn row(
    highest: &mut f64,
    call: &str,
    size: &str,
    library: impl Fn(&mut [u8], &mut [u8]) -> Words,
    plain: impl Fn(&mut [u8], &mut [u8]) -> Words,
    straightforward: Straightforward<impl Fn(&mut [u8], &mut [u8]) -> Words>,
) {
    row_in(BUFFER, highest, (call, size), library, plain, straightforward);
}

/// The same for a call on a shared list, where the library's way is the straightforward one.
pub fn shared_row(
    highest: &mut f64,
    call: &str,
    size: &str,
    library: impl Fn(&mut [u8], &mut [u8]) -> Words,
    plain: impl Fn(&mut [u8], &mut [u8]) -> Words,
) {
    row_in(SHARED_BUFFER, highest, (call, size), library, plain, SAME_WAY);
}

/// The same for a call on a map of several lists.
pub fn map_row(
    highest: &mut f64,
    call: &str,
    size: &str,
    library: impl Fn(&mut [u8], &mut [u8]) -> Words,
    plain: impl Fn(&mut [u8], &mut [u8]) -> Words,
    straightforward: Straightforward<impl Fn(&mut [u8], &mut [u8]) -> Words>,
) {
    row_in(MAP_BUFFER, highest, (call, size), library, plain, straightforward);
}

/// With buffers of so many bytes.
fn row_in(
    buffer: usize,
    highest: &mut f64,
    (call, size): (&str, &str),
    library: impl Fn(&mut [u8], &mut [u8]) -> Words,
    plain: impl Fn(&mut [u8], &mut [u8]) -> Words,
    straightforward: Straightforward<impl Fn(&mut [u8], &mut [u8]) -> Words>,
) {
    let (another, without) = match straightforward {
        Straightforward::Another(another) => (Some(another), ""),
        Straightforward::Same => (None, "the same"),
        Straightforward::NotMeasured => (None, "–"),
    };
    let expected = outcome(buffer, &library);
    assert_eq!(expected.0[0], if call == REFUSED { 16 } else { 0 }, "{call}, {size}");
    assert!(expected == outcome(buffer, &plain), "{call}, {size}: plain Rust differs");
    if let Some(another) = &another {
        assert!(expected == outcome(buffer, another), "{call}, {size}: the straightforward way differs");
    }

    let (library, plain, another) = medians_in(buffer, library, plain, another);
    let ratio = library / plain;
    *highest = highest.max(ratio);
    let straightforward = another.map_or(without.to_string(), time);
    println!("| {call} | {size} | {} | {} | {ratio:.2} | {straightforward} |", time(library), time(plain));
}

/// The medians of calls on the same buffers: a call leaves nothing that the next one sees.
pub fn medians<A, B, C>(
    first: impl Fn(&mut [u8], &mut [u8]) -> A,
    second: impl Fn(&mut [u8], &mut [u8]) -> B,
    third: Option<impl Fn(&mut [u8], &mut [u8]) -> C>,
) -> (f64, f64, Option<f64>) {
    medians_in(BUFFER, first, second, third)
}

fn medians_in<A, B, C>(
    buffer: usize,
    first: impl Fn(&mut [u8], &mut [u8]) -> A,
    second: impl Fn(&mut [u8], &mut [u8]) -> B,
    third: Option<impl Fn(&mut [u8], &mut [u8]) -> C>,
) -> (f64, f64, Option<f64>) {
    let placements = (0..PLACEMENTS).map(|placement| Buffers::placed(buffer, placement));
    measure::medians(placements, lent(first), lent(second), third.map(lent))
}

fn lent<T>(call: impl Fn(&mut [u8], &mut [u8]) -> T) -> impl Fn(&mut Buffers) {
    move |buffers| {
        let (work, out) = buffers.lent();
        black_box(call(black_box(work), black_box(out)));
    }
}

/// The words and both buffers after one call.
fn outcome(buffer: usize, call: &impl Fn(&mut [u8], &mut [u8]) -> Words) -> (Words, Vec<u8>, Vec<u8>) {
    let (mut work, mut out) = (vec![7; buffer], vec![7; buffer]);
    let answer = call(&mut work, &mut out);
    (answer, work, out)
}

/// How many placements of the buffers are measured. With the stand-in, which has no times to tell, one.
const PLACEMENTS: usize = if cfg!(feature = "standin") { 1 } else { 9 };

/// A work and an output buffer, some way into their memory.
struct Buffers {
    memory: [Vec<u8>; 2],
    start: usize,
    length: usize,
}

impl Buffers {
    /// Each placement is 472 bytes further on, so that nine of them are spread over a page.
    fn placed(length: usize, placement: usize) -> Buffers {
        Buffers { memory: [vec![7; length + 4096], vec![7; length + 4096]], start: 472 * placement, length }
    }

    fn lent(&mut self) -> (&mut [u8], &mut [u8]) {
        let [work, out] = &mut self.memory;
        (&mut work[self.start..][..self.length], &mut out[self.start..][..self.length])
    }
}

pub fn time(nanoseconds: f64) -> String {
    match nanoseconds {
        small if small < 1e3 => format!("{small:.1} ns"),
        middle if middle < 1e6 => format!("{:.2} µs", middle / 1e3),
        large => format!("{:.3} ms", large / 1e6),
    }
}
