//! A map: products, each for some of the outputs. Its text as the program prints it, its records, its values.

use std::fmt;

#[derive(Clone, Copy, Debug, Default, PartialEq, Eq)]
pub struct Product {
    pub seen: u32,
    pub value: u32,
    pub outputs: u32,
}

impl Product {
    fn is_true(&self, label: u32) -> bool {
        label & self.seen == self.value
    }

    fn literal(&self, variable: usize) -> char {
        match (self.seen >> variable & 1, self.value >> variable & 1) {
            (0, _) => '-',
            (_, 0) => '0',
            _ => '1',
        }
    }

    fn carried(&self, output: usize) -> char {
        if self.outputs >> output & 1 == 1 { '1' } else { '0' }
    }
}

#[derive(Clone, Debug, PartialEq, Eq)]
pub struct Map {
    pub inputs: usize,
    pub outputs: usize,
    /// Those that are in some output.
    pub products: Vec<Product>,
}

impl Map {
    /// Bit k is output k's value at a label: the parity of its products that are true there.
    pub fn values(&self, label: u32) -> u32 {
        let there = self.products.iter().filter(|product| product.is_true(label));
        there.fold(0, |values, product| values ^ product.outputs)
    }

    /// Products, but one without literals is free, once.
    pub fn cost(&self) -> usize {
        self.products.len() - usize::from(self.products.iter().any(|product| product.seen == 0))
    }

    /// 8 bytes a product where there is one output, else 12.
    pub fn records(&self) -> Vec<u8> {
        let fields = if self.outputs == 1 { 2 } else { 3 };
        let record = |product: &Product| [product.seen, product.value, product.outputs].into_iter().take(fields);
        self.products.iter().flat_map(record).flat_map(u32::to_le_bytes).collect()
    }
}

impl fmt::Display for Map {
    fn fmt(&self, f: &mut fmt::Formatter) -> fmt::Result {
        let Map { inputs, outputs, products } = self;
        write!(f, ".i {inputs}\n.o {outputs}\n.type esop\n.p {}\n", products.len())?;
        for product in products {
            let literals: String = (0..*inputs).map(|variable| product.literal(variable)).collect();
            let carried: String = (0..*outputs).map(|output| product.carried(output)).collect();
            writeln!(f, "{literals} {carried}")?;
        }
        writeln!(f, ".e")
    }
}
