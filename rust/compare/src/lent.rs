//! Buffers with margins around them.

/// Bytes at an odd address.
pub struct Lent {
    bytes: Vec<u8>,
}

impl Lent {
    const MARGIN: usize = 61;
    const FILL: u8 = 0xa5;

    pub fn new(content: &[u8]) -> Lent {
        let margin = [Lent::FILL; Lent::MARGIN];
        Lent { bytes: [&margin, content, &margin].concat() }
    }

    pub fn slice(&mut self) -> &mut [u8] {
        let end = self.bytes.len() - Lent::MARGIN;
        &mut self.bytes[Lent::MARGIN..end]
    }

    pub fn margins_are_whole(&self) -> bool {
        let whole = |margin: &[u8]| margin.iter().all(|&byte| byte == Lent::FILL);
        whole(&self.bytes[..Lent::MARGIN]) && whole(&self.bytes[self.bytes.len() - Lent::MARGIN..])
    }
}

/// Words: the starts of groups, the lengths of a map's lists and scripts, a number for each list.
pub struct LentWords {
    words: Vec<u64>,
}

impl LentWords {
    const MARGIN: usize = 7;
    const FILL: u64 = 0xa5a5_a5a5_a5a5_a5a5;

    pub fn new(content: &[u64]) -> LentWords {
        let margin = [LentWords::FILL; LentWords::MARGIN];
        LentWords { words: [&margin, content, &margin].concat() }
    }

    pub fn slice(&mut self) -> &mut [u64] {
        let end = self.words.len() - LentWords::MARGIN;
        &mut self.words[LentWords::MARGIN..end]
    }

    /// All of them, where they are so many.
    pub fn array<const N: usize>(&mut self) -> &mut [u64; N] {
        self.slice().try_into().expect("as many words as were lent")
    }

    pub fn margins_are_whole(&self) -> bool {
        let whole = |margin: &[u64]| margin.iter().all(|&word| word == LentWords::FILL);
        whole(&self.words[..LentWords::MARGIN]) && whole(&self.words[self.words.len() - LentWords::MARGIN..])
    }
}
