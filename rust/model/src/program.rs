//! What the program prints for two files that are there.

use crate::calls;
use crate::cube::{self, RECORD};

/// How many bytes are read of `map.cub` and of `map.scr`. Document 02, Seven: "every byte limit but `map.scr`'s doubles".
const MAP_CUB: usize = 32_776;
const MAP_SCR: usize = 8_200;

/// Bytes of the work buffer, and of the output.
const BUFFER: usize = 32_768;

/// The lines of `settle` for a number of variables, the bytes of `map.cub` and those of `map.scr`.
pub fn printed(n: u64, list: &[u8], script: &[u8]) -> String {
    let (mut work, mut out) = (vec![0; BUFFER], vec![0; BUFFER]);
    let (list, script) = (&list[..list.len().min(MAP_CUB)], &script[..script.len().min(MAP_SCR)]);
    match calls::settle(n, list, script, &mut work, &mut out) {
        Err(refusal) => format!("refused {} at {}\n", refusal.number, refusal.place),
        Ok(values) => {
            let [given, peak, script, polarity, size, burned] = values[..] else { unreachable!() };
            let fixed = if n > 8 { "- -".to_string() } else { format!("{polarity} {size}") };
            let mut text = format!("in {given} peak {peak} script {script} fixed {fixed} out {burned}\n");
            for record in out.chunks(RECORD).take(burned as usize) {
                text += &cube::written(&cube::decoded(n as usize, record).unwrap());
                text += "\n";
            }
            text
        }
    }
}
