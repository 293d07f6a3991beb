//! A text as lines of words, and what refuses it.

/// Bytes of the longest text that is read.
pub const MOST_BYTES: usize = 1_048_576;

/// A refusal's number, at a line from 1 on; a text that is too long is refused at no line. Of two refusals the lesser is answered: the
/// one at the earlier line, and of those at one line the one with the lower number.
#[derive(Clone, Copy, Debug, PartialEq, Eq, PartialOrd, Ord)]
pub struct Refusal {
    pub line: Option<usize>,
    pub number: usize,
}

impl Refusal {
    pub fn at(line: usize, number: usize) -> Refusal {
        Refusal { line: Some(line), number }
    }
}

/// A character for each byte, so that what is no UTF-8 is read as well.
pub fn characters(text: &[u8]) -> Result<String, Refusal> {
    if text.len() > MOST_BYTES {
        return Err(Refusal { line: None, number: 36 });
    }
    Ok(text.iter().copied().map(char::from).collect())
}

/// The words of a line, up to its comment.
pub fn words(line: &str) -> Vec<&str> {
    let before_the_comment = line.split('#').next().unwrap_or_default();
    before_the_comment.split([' ', '\t', '\r']).filter(|word| !word.is_empty()).collect()
}

/// A number in decimal, of any number of digits, that is at most `most`.
pub fn number(word: &str, most: usize) -> Option<usize> {
    // std reads a plus too
    if !word.bytes().all(|byte| byte.is_ascii_digit()) {
        return None;
    }
    word.parse().ok().filter(|&number| number <= most)
}
