//! A text as lines of words, before it is laid out; and its layout: blanks, comments, line ends.

use crate::lines::MOST_BYTES;
use crate::random::Random;

pub type Words = Vec<String>;

/// The words of a line that is written with single spaces.
pub fn spelled(line: &str) -> Words {
    line.split(' ').map(String::from).collect()
}

struct Layout {
    ending: &'static str,
    blanks: &'static [&'static str],
    /// One line in so many has a comment, blanks around it or a blank line before it; none where it is 0.
    untidy: usize,
    ends_with_newline: bool,
}

const NEAT: &[&str] = &[" "];
const BLANKS: &[&str] = &[" ", "\t", "  ", " \t", "\r", "\t\r "];
const COMMENTS: &[&str] = &["#", "# 01- 1", "#.e", "#.i 3", "# drop 0 1 # #", "#\u{e9} \t.p 2\r"];

impl Layout {
    fn draw(random: &mut Random) -> Layout {
        let neat = random.one_in(3);
        Layout {
            ending: random.pick(&["\n", "\n", "\r\n"]),
            blanks: if neat { NEAT } else { BLANKS },
            untidy: if neat { 0 } else { random.pick(&[0, 1, 2, 3, 8]) },
            ends_with_newline: !random.one_in(4),
        }
    }

    fn line(&self, random: &mut Random, words: &Words) -> String {
        let mut line = String::new();
        let mut untidy = || self.untidy > 0 && random.one_in(self.untidy);
        let (led, trailed, commented, spaced) = (untidy(), untidy(), untidy(), untidy());
        if spaced {
            line += random.pick(&["", " ", "\t", "# 1", "#.o 2"]);
            line += self.ending;
        }
        if led {
            line += random.pick(self.blanks);
        }
        for (at, word) in words.iter().enumerate() {
            if at > 0 {
                line += random.pick(self.blanks);
            }
            line += word;
        }
        if trailed {
            line += random.pick(self.blanks);
        }
        if commented {
            line += random.pick(COMMENTS);
        }
        line
    }
}

/// The text of the lines. What a character above 127 is made of has no meaning: in comments all bytes are read.
pub fn laid_out(random: &mut Random, lines: &[Words]) -> Vec<u8> {
    let layout = Layout::draw(random);
    let lines: Vec<String> = lines.iter().map(|words| layout.line(random, words)).collect();
    let mut text = lines.join(layout.ending);
    if layout.ends_with_newline && !lines.is_empty() {
        text += layout.ending;
    }
    text.into_bytes()
}

/// Brings a text to the longest that is read, or some bytes more, by something idle in front of it.
pub fn lengthened(random: &mut Random, text: Vec<u8>) -> Vec<u8> {
    let length = MOST_BYTES + random.pick(&[0, 0, 1, 2, 70_000]);
    let room = length.saturating_sub(text.len() + 1);
    let (first, filler) = random.pick(&[(b'#', b'x'), (b'\n', b'\n'), (b' ', b'\t'), (b'#', b'\r')]);
    let mut long = vec![first];
    long.resize(room, filler);
    long.push(b'\n');
    long.extend(text);
    long
}
