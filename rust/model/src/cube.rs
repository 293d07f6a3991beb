//! "Cubes and lists".

/// The literal codes of a cube, variable 0 first: 0 complemented, 1 plain, 2 absent.
pub type Cube = Vec<u8>;

/// Bytes of a cube record: half of them seen, half of them value.
pub const RECORD: usize = 8;

/// Bytes of a record of an old list.
pub const NARROW_RECORD: usize = 4;

/// Bytes of a place. Document 02, One and Eight: "2 bytes each".
pub const PLACE: usize = 2;

/// The product is true where each literal that stands in it is.
pub fn is_true(cube: &Cube, a: u64) -> bool {
    cube.iter().enumerate().all(|(k, &code)| match code {
        0 => bit(a, k) == 0,
        1 => bit(a, k) == 1,
        _ => true,
    })
}

/// "How many of its products are true there."
pub fn trues(list: &[Cube], a: u64) -> usize {
    list.iter().filter(|cube| is_true(cube, a)).count()
}

/// "A list's value at an assignment is the parity of how many of its products are true there."
pub fn value(list: &[Cube], a: u64) -> u8 {
    (trues(list, a) % 2) as u8
}

/// Document 02, One: "the places of all products true there, ascending".
pub fn reasons(list: &[Cube], a: u64) -> Vec<usize> {
    (0..list.len()).filter(|&place| is_true(&list[place], a)).collect()
}

/// The values at all assignments, in order.
pub fn truth_vector(n: usize, list: &[Cube]) -> Vec<u8> {
    (0..1 << n).map(|a| value(list, a)).collect()
}

/// The cube of a record of either width, or nothing if the record is bad for `n` variables.
pub fn decoded(n: usize, record: &[u8]) -> Option<Cube> {
    let (seen, value) = record.split_at(record.len() / 2);
    let mut cube = Vec::new();
    for k in 0..8 * seen.len() {
        match (bit_of(seen, k), bit_of(value, k)) {
            (0, 1) => return None,
            (1, _) if k >= n => return None,
            (1, code) => cube.push(code),
            _ if k < n => cube.push(2),
            _ => {}
        }
    }
    Some(cube)
}

/// The record of a cube, of so many bytes.
pub fn encoded<const WIDTH: usize>(cube: &Cube) -> [u8; WIDTH] {
    let mut record = [0; WIDTH];
    let (seen, value) = record.split_at_mut(WIDTH / 2);
    for (k, &code) in cube.iter().enumerate() {
        if code != 2 {
            seen[k / 8] |= 1 << (k % 8);
            value[k / 8] |= code << (k % 8);
        }
    }
    record
}

/// The records of a list, end to end.
pub fn encoded_list(list: &[Cube]) -> Vec<u8> {
    list.iter().flat_map(encoded::<RECORD>).collect()
}

/// The records of an old list, end to end.
pub fn encoded_narrow_list(list: &[Cube]) -> Vec<u8> {
    list.iter().flat_map(encoded::<NARROW_RECORD>).collect()
}

/// The bytes of places, end to end.
pub fn encoded_places(places: &[usize]) -> Vec<u8> {
    places.iter().flat_map(|place| [(place % 256) as u8, (place / 256) as u8]).collect()
}

/// The places of bytes, end to end.
pub fn decoded_places(bytes: &[u8]) -> Vec<usize> {
    bytes.chunks(PLACE).map(|place| place.iter().rev().fold(0, |high, &byte| 256 * high + byte as usize)).collect()
}

/// A cube written out: `0`, `1` or `-` per variable.
pub fn written(cube: &Cube) -> String {
    cube.iter().map(|&code| ['0', '1', '-'][code as usize]).collect()
}

/// The cube that is written out so.
pub fn read(text: &str) -> Cube {
    text.chars()
        .map(|c| match c {
            '0' => 0,
            '1' => 1,
            '-' => 2,
            other => panic!("{other:?} is not a literal"),
        })
        .collect()
}

fn bit(a: u64, k: usize) -> u64 {
    a >> k & 1
}

fn bit_of(bytes: &[u8], k: usize) -> u8 {
    bytes[k / 8] >> (k % 8) & 1
}
