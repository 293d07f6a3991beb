//! Maps as text. An ESOP-PLA is read as the list that it is (docs/TEXTS.md). A PLA without a type, or of type f or fd, joins products by OR; it is read as a list where that is the same, in
//! each output, as joining them by EXOR: where no two products of an output are true at one label, as minterms never are.

use crate::Shape;
use crate::product::Product;
use crate::script::MOST_PRODUCTS;
use std::fmt::Write;

#[derive(Debug)]
pub struct Map {
    pub shape: Shape,
    pub list: Vec<Product>,
}

#[derive(Clone, Copy, PartialEq, Eq)]
enum Joined {
    Exor,
    /// Whether an output `-` is a label that may have either value.
    Or {
        may_be_either: bool,
    },
}

/// What the lines before a product have said.
#[derive(Default)]
struct Said {
    inputs: Option<u32>,
    outputs: Option<u32>,
    joined: Option<Joined>,
    /// With their lines.
    products: Vec<(usize, Product)>,
}

fn number(words: &[&str], least: u32, most: u32) -> Result<u32, String> {
    let [word] = words else { return Err("one number is needed".into()) };
    let number = word.parse().ok().filter(|number| (least..=most).contains(number));
    number.ok_or(format!("a number from {least} to {most} is needed"))
}

fn joined(words: &[&str]) -> Result<Joined, String> {
    match words {
        ["esop"] => Ok(Joined::Exor),
        ["f"] => Ok(Joined::Or { may_be_either: false }),
        ["fd"] => Ok(Joined::Or { may_be_either: true }),
        _ => Err("the types esop, f and fd are read".into()),
    }
}

impl Said {
    /// Whether the line isn't the last one.
    fn line(&mut self, at: usize, words: &[&str]) -> Result<bool, String> {
        let [first, rest @ ..] = words else { return Ok(true) };
        match *first {
            ".i" => self.inputs = Some(number(rest, 0, 32)?),
            ".o" => self.outputs = Some(number(rest, 1, 32)?),
            ".type" => self.joined = Some(joined(rest)?),
            ".p" | ".ilb" | ".ob" => {}
            ".e" | ".end" => return Ok(false),
            word if word.starts_with('.') => return Err(format!("{word} isn't known")),
            _ => {
                let product = self.product(&words.concat())?;
                self.products.push((at, product));
            }
        }
        Ok(true)
    }

    fn shape(&self) -> Result<Shape, String> {
        let variables = self.inputs.ok_or(".i is missing")?;
        Ok(Shape { variables, outputs: self.outputs.ok_or(".o is missing")? })
    }

    fn joined(&self) -> Joined {
        self.joined.unwrap_or(Joined::Or { may_be_either: true })
    }

    fn product(&self, characters: &str) -> Result<Product, String> {
        let Shape { variables, outputs } = self.shape()?;
        if characters.len() != (variables + outputs) as usize {
            return Err(format!("a product has {variables} characters for the inputs and {outputs} for the outputs"));
        }
        let mut product = Product::default();
        for (place, character) in (0..).zip(characters.chars()) {
            match (place < variables, character) {
                (true, '0') => product.seen |= 1 << place,
                (true, '1') => {
                    product.seen |= 1 << place;
                    product.value |= 1 << place;
                }
                (true, '-') | (false, '0' | '~') => {}
                (false, '1') => product.outputs |= 1 << (place - variables),
                (false, '-') if self.joined() != (Joined::Or { may_be_either: true }) => {}
                (false, '-') => return Err("a label that may have either value isn't read".into()),
                _ => return Err(format!("'{character}' isn't known here")),
            }
        }
        Ok(product)
    }

    /// The products by line; where they are joined by OR, one for each output, since outputs can be merged and not parted.
    fn list(self) -> Result<Vec<Product>, String> {
        if self.joined() == Joined::Exor {
            return Ok(self
                .products
                .into_iter()
                .map(|(_, product)| product)
                .filter(|product| product.outputs != 0)
                .collect());
        }
        for (place, &(at, product)) in self.products.iter().enumerate() {
            if let Some((before, _)) = self.products[..place].iter().find(|(_, before)| overlap(*before, product)) {
                return Err(format!("line {at}: overlaps line {before}; by OR that is another map than by EXOR"));
            }
        }
        let outputs = |product: Product| (0..32).filter(move |output| product.outputs >> output & 1 == 1);
        let parted = self
            .products
            .iter()
            .flat_map(|&(_, product)| outputs(product).map(move |output| Product { outputs: 1 << output, ..product }));
        Ok(parted.collect())
    }
}

/// Whether both are true at some label, in some output.
fn overlap(first: Product, second: Product) -> bool {
    first.outputs & second.outputs != 0 && first.seen & second.seen & (first.value ^ second.value) == 0
}

pub fn read(text: &str) -> Result<Map, String> {
    let mut said = Said::default();
    for (at, line) in (1..).zip(text.lines()) {
        let words: Vec<&str> = line.split('#').next().unwrap_or_default().split_ascii_whitespace().collect();
        if !said.line(at, &words).map_err(|why| format!("line {at}: {why}"))? {
            break;
        }
    }
    let shape = said.shape()?;
    let list = said.list()?;
    if list.len() > MOST_PRODUCTS {
        return Err(format!("{} products are more than {MOST_PRODUCTS}", list.len()));
    }
    Ok(Map { shape, list })
}

/// The map as ESOP-PLA.
pub fn printed(map: &Map) -> String {
    let Shape { variables, outputs } = map.shape;
    let mut text = format!(".i {variables}\n.o {outputs}\n.type esop\n.p {}\n", map.list.len());
    for product in &map.list {
        let literal = |variable: u32| match (product.seen >> variable & 1, product.value >> variable & 1) {
            (0, _) => '-',
            (_, 0) => '0',
            _ => '1',
        };
        let literals: String = (0..variables).map(literal).collect();
        let carried: String =
            (0..outputs).map(|output| if product.outputs >> output & 1 == 1 { '1' } else { '0' }).collect();
        writeln!(text, "{literals} {carried}").expect("a text takes every line");
    }
    text + ".e\n"
}
