//! Damage of texts, as lines of words and as bytes.

use crate::draft::{Words, spelled};
use crate::random::Random;

/// What may stand in a number's place; in all of these a comma and a space are between one and the next.
const NUMBERS: &str = ", 0, 1, 2, 3, 7, 31, 32, 33, 255, 256, 4096, 4097, 65535, 65536, 1048576, 1048577, 99999999999999999999, \
    18446744073709551617, +1, -1, x, x1, x32, x256, 1x, 0x1, 1 1, 007";

/// Headers, good ones and bad ones, which may come twice or too late.
const HEADERS: &str = ".i, .i 3, .o, .o 1, .p, .p 3, .p 1048576, .p 1048577, .type, .type esop, .type f, .type fr, .type fd, .type esop 1, .type ESOP";

/// What else may stand anywhere in a map.
const MAP_LINES: &str = ".e, .end, .e x, .end .e, .phase 1, .kiss, ., .., .E, .i3, .pla, .ilb, .ob a, 1, -, ~, 0 1, 01- 1, 01- |1, 2- 1, 1., 1 .e, \
    drop 0 1";

/// What may stand anywhere in a script.
const SCRIPT_LINES: &str = ".e, 01- 1, drop, drop 0, drop 0 1 2, Drop 0 1, drop0 1, l x0 1, L 0 1, L x 0 1, L x0, L x0 1 1, split 0 0, split x0, split 0 x0, \
    turn x0 0, turn 0 1, merge 0, merge x0 1, join 0 x1, x, L X0 1";

fn one_of<'a>(random: &mut Random, all: &'a str) -> &'a str {
    let all: Vec<&str> = all.split(", ").collect();
    random.pick(&all)
}

pub enum Kind {
    Map,
    Script,
}

/// Damages lines of words.
pub fn of_lines(random: &mut Random, kind: &Kind, lines: &mut Vec<Words>) {
    let any = if lines.is_empty() { 0 } else { near_an_end(random, lines.len()) };
    match random.below(7) {
        0 => {
            let strange = one_of(random, if matches!(kind, Kind::Map) { MAP_LINES } else { SCRIPT_LINES });
            lines.insert(near_an_end(random, lines.len() + 1), spelled(strange));
        }
        _ if lines.is_empty() => {}
        1 => drop(lines.remove(any)),
        2 => lines.insert(random.between(0, lines.len()), lines[any].clone()),
        3 => {
            let other = near_an_end(random, lines.len());
            lines.swap(any, other);
        }
        4 => {
            let at = numbered(random, lines).unwrap_or(any);
            number_off(random, &mut lines[at]);
        }
        5 => word_off(random, &mut lines[any]),
        _ => {
            let header = spelled(one_of(random, HEADERS));
            if random.one_in(2) { lines[any] = header } else { lines.insert(any, header) }
        }
    }
}

/// A place that is often among the first ones, where a map's headers stand, or the last; of many lines mostly the last, where the limits are.
fn near_an_end(random: &mut Random, length: usize) -> usize {
    match random.below(if length > 1000 { 6 } else { 3 }) {
        0 => random.below(length),
        1 => random.below(length.min(5)),
        _ => length - 1 - random.below(length.min(3)),
    }
}

/// Mostly a header that says a number, if there is one.
fn numbered(random: &mut Random, lines: &[Words]) -> Option<usize> {
    let says = |words: &Words| matches!(words.first().map(String::as_str), Some(".i" | ".o" | ".p"));
    let headers: Vec<usize> = (0..lines.len()).filter(|&at| says(&lines[at])).collect();
    if headers.is_empty() || random.one_in(3) { None } else { Some(random.pick(&headers)) }
}

/// A word but the first is another number; a product may then have another length.
fn number_off(random: &mut Random, words: &mut Words) {
    if words.is_empty() {
        return;
    }
    let at = random.between(words.len().min(2) - 1, words.len() - 1);
    words[at] = one_of(random, NUMBERS).to_string();
}

/// A word more, one less, one with another character, or two in one.
fn word_off(random: &mut Random, words: &mut Words) {
    if words.is_empty() {
        return;
    }
    let at = random.below(words.len());
    match random.below(4) {
        0 => words.insert(at, random.pick(&["1", "-", "x", ".e", "0", "~", "drop"]).to_string()),
        1 => drop(words.remove(at)),
        2 => words[at].push(random.pick(&['0', '1', '-', '~', 'x', '.', 'e', '2', '|', '\u{e9}'])),
        _ => {
            let all = words.concat();
            *words = vec![all];
        }
    }
}

/// Damages bytes: one changed, removed or added, or the text cut short.
pub fn of_bytes(random: &mut Random, text: &mut Vec<u8>) {
    let byte = if random.one_in(3) { random.next() as u8 } else { random.pick(b"01-~ .#\n\r\tie2xpo\0\xff") };
    let at = random.between(0, text.len());
    match random.below(4) {
        0 => text.insert(at, byte),
        _ if at == text.len() => {}
        1 => text[at] = byte,
        2 => drop(text.remove(at)),
        _ => text.truncate(at),
    }
}
