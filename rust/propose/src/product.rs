//! A product: at each variable a code, 0, 1 or, where the variable isn't seen, 2; and the outputs that it is in.

#[derive(Clone, Copy, Debug, Default, PartialEq, Eq, Hash)]
pub struct Product {
    pub seen: u32,
    /// Within `seen`.
    pub value: u32,
    pub outputs: u32,
}

impl Product {
    pub fn is_constant(self) -> bool {
        self.seen == 0
    }

    /// The variables in which the cubes differ.
    pub fn differing(self, other: Product) -> u32 {
        (self.seen ^ other.seen) | (self.value ^ other.value)
    }

    /// The codes of `other` at the variables `at`.
    pub fn with(self, at: u32, other: Product) -> Product {
        Product { seen: self.seen & !at | other.seen & at, value: self.value & !at | other.value & at, ..self }
    }

    /// At the variables in which the two differ, the third of both codes; what it has at the others means nothing.
    pub fn third(self, other: Product) -> Product {
        let seen = self.seen ^ other.seen;
        Product { seen, value: seen & !(self.value ^ other.value), ..self }
    }

    /// The two products that differ from this one at the variable alone, the one with the lower code first.
    pub fn others(self, variable: u32) -> [Product; 2] {
        let bit = 1 << variable;
        let rest = Product { seen: self.seen & !bit, value: self.value & !bit, ..self };
        let zero = Product { seen: rest.seen | bit, ..rest };
        let one = Product { value: rest.value | bit, ..zero };
        if self.seen & bit == 0 {
            [zero, one]
        } else if self.value & bit == 0 {
            [one, rest]
        } else {
            [zero, rest]
        }
    }

    /// Different for different cubes with the same outputs, and but by a chance of one in 2^64 for different outputs. Of one output it is never 1, since the value is within what is seen.
    pub fn key(self) -> u64 {
        let cube = u64::from(self.seen) << 32 | u64::from(self.value);
        if self.outputs == 1 { cube } else { cube ^ u64::from(self.outputs).wrapping_mul(0x9e37_79b9_7f4a_7c15) }
    }
}
