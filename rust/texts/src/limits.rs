//! Texts as long as can be, each with something after it: what random texts seldom meet.

use crate::map_reader::MOST_PRODUCTS;
use crate::script::MOST_STEPS;
use crate::script_texts::For;

/// What both kinds of texts are tried with: the full text, and then each of these.
fn followed(full: &str, by: &[&str]) -> Vec<Vec<u8>> {
    by.iter().map(|last| [full, last].concat().into_bytes()).collect()
}

pub fn maps() -> Vec<Vec<u8>> {
    let full = ".i 1\n.o 2\n.type esop\n".to_string() + &"1 01\n".repeat(MOST_PRODUCTS);
    let last = [
        "",
        "0 10",
        "0 ~-",
        "0 0x",
        "1",
        "0 ~-\n0 1",
        ".e",
        ".e 1",
        ".e\n0 10",
        "# 0 10",
        ".p 4096",
        ".p 4097",
        "0 00\n.p 4097",
        "0 00\n.p 4096",
        ".type f",
        ".i 1",
        ".o",
        ".p 4096\n.p 4096",
        ".p 1048577\n0 10",
        ".p 1048576\n0 10",
    ];
    followed(&full, &last)
}

pub fn scripts() -> Vec<Vec<u8>> {
    let full = "L x0 1\n".repeat(MOST_STEPS);
    followed(&full, &["", "L x0 1", "drop 0 1", "drop 0", ".e", "# drop 0 1", "\n\r\n", "drop\nL x0 1", "L x0 1\ndrop"])
}

/// The maps that these scripts are tried on.
pub const FOR_SCRIPTS: For = For { inputs: 1, products: 1, outputs: 1 };
