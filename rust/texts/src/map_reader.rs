//! Reads a map as text. What each line is goes by the line alone; then each rule looks at all lines for the first one that breaks
//! it, and the least of what they find is the refusal.

use crate::lines::{MOST_BYTES, Refusal, characters, number, words};
use crate::map::{Map, Product};

/// Products in some output.
pub const MOST_PRODUCTS: usize = 4096;

#[derive(PartialEq)]
enum Line {
    /// Blank, a comment, or one that is read over.
    Idle,
    /// What it says, if that is a number which it may say.
    Inputs(Option<usize>),
    Outputs(Option<usize>),
    Count(Option<usize>),
    /// Whether it is the type that is read.
    Type(bool),
    End,
    Unknown,
    /// The characters without the blanks between them.
    Product(String),
}

fn line(text: &str) -> Line {
    let words = words(text);
    let Some((&first, rest)) = words.split_first() else { return Line::Idle };
    match (first, rest) {
        (".ilb" | ".ob", _) => Line::Idle,
        (".i", _) => Line::Inputs(alone(rest, 32)),
        (".o", _) => Line::Outputs(alone(rest, 32).filter(|&outputs| outputs > 0)),
        // no text has more lines
        (".p", _) => Line::Count(alone(rest, MOST_BYTES)),
        (".type", _) => Line::Type(rest == ["esop"]),
        (".e" | ".end", []) => Line::End,
        _ if first.starts_with('.') => Line::Unknown,
        _ => Line::Product(words.concat()),
    }
}

fn alone(words: &[&str], most: usize) -> Option<usize> {
    match words {
        [word] => number(word, most),
        _ => None,
    }
}

/// The lines before the end, which is the line of `.e` or the one after the last. They count from 1.
struct Lines(Vec<Line>);

impl Lines {
    fn of(text: &str) -> Lines {
        Lines(text.lines().map(line).take_while(|line| *line != Line::End).collect())
    }

    fn numbered(&self) -> impl Iterator<Item = (usize, &Line)> {
        (1..).zip(&self.0)
    }

    /// Of the lines of one kind, where they stand and what they say.
    fn said<T>(&self, kind: impl Fn(&Line) -> Option<T>) -> Vec<(usize, T)> {
        self.numbered().filter_map(|(at, line)| Some((at, kind(line)?))).collect()
    }

    fn products(&self) -> Vec<(usize, &str)> {
        let products = self.numbered().filter_map(|(at, line)| match line {
            Line::Product(characters) => Some((at, characters.as_str())),
            _ => None,
        });
        products.collect()
    }

    /// Where all that is needed must have been said: the first product or the end.
    fn due(&self) -> usize {
        self.products().first().map_or(self.0.len() + 1, |&(at, _)| at)
    }

    fn unknown(&self) -> Option<usize> {
        self.numbered().find(|&(_, line)| *line == Line::Unknown).map(|(at, _)| at)
    }
}

fn inputs(line: &Line) -> Option<Option<usize>> {
    if let Line::Inputs(said) = line { Some(*said) } else { None }
}

fn outputs(line: &Line) -> Option<Option<usize>> {
    if let Line::Outputs(said) = line { Some(*said) } else { None }
}

fn count(line: &Line) -> Option<Option<usize>> {
    if let Line::Count(said) = line { Some(*said) } else { None }
}

/// The type that is read is something said, any other is nothing.
fn type_of(line: &Line) -> Option<Option<()>> {
    if let Line::Type(esop) = line { Some(esop.then_some(())) } else { None }
}

/// The first line that says nothing that it may say.
fn wrong<T>(said: &[(usize, Option<T>)]) -> Option<usize> {
    said.iter().find(|(_, value)| value.is_none()).map(|&(at, _)| at)
}

/// The second line of a kind that may be there once.
fn again<T>(said: &[(usize, T)]) -> Option<usize> {
    said.get(1).map(|&(at, _)| at)
}

/// The line where something is due that no line has said before.
fn missing<T>(said: &[(usize, T)], due: usize) -> Option<usize> {
    said.first().is_none_or(|&(at, _)| due < at).then_some(due)
}

fn product(characters: &str, inputs: usize, outputs: usize) -> Option<Product> {
    let (literals, carried) = characters.split_at_checked(inputs)?;
    if carried.len() != outputs {
        return None;
    }
    let mut product = Product::default();
    for (variable, literal) in literals.chars().enumerate() {
        match literal {
            '-' => {}
            '0' => product.seen |= 1 << variable,
            '1' => {
                product.seen |= 1 << variable;
                product.value |= 1 << variable;
            }
            _ => return None,
        }
    }
    for (output, character) in carried.chars().enumerate() {
        match character {
            '1' => product.outputs |= 1 << output,
            '0' | '-' | '~' => {}
            _ => return None,
        }
    }
    Some(product)
}

/// What the lines of each kind say, and where.
struct Said {
    inputs: Vec<(usize, Option<usize>)>,
    outputs: Vec<(usize, Option<usize>)>,
    counts: Vec<(usize, Option<usize>)>,
    types: Vec<(usize, Option<()>)>,
    products: Vec<(usize, Option<Product>)>,
}

/// The first value that lines of a kind say.
fn value(said: &[(usize, Option<usize>)]) -> Option<usize> {
    said.first().and_then(|&(_, value)| value)
}

impl Said {
    /// Where the inputs or the outputs aren't known, no line is a product; but then their own refusal is the lesser.
    fn by(lines: &Lines) -> Said {
        let (inputs, outputs) = (lines.said(inputs), lines.said(outputs));
        let shape = value(&inputs).zip(value(&outputs));
        let products = lines.products().into_iter();
        let products = products
            .map(|(at, characters)| (at, shape.and_then(|(inputs, outputs)| product(characters, inputs, outputs))));
        let products = products.collect();
        Said { inputs, outputs, counts: lines.said(count), types: lines.said(type_of), products }
    }

    /// The products that are in some output.
    fn kept(&self) -> Vec<(usize, Product)> {
        let products = self.products.iter().filter_map(|&(at, product)| Some((at, product?)));
        products.filter(|(_, product)| product.outputs != 0).collect()
    }

    /// The first line that breaks each rule but for the number of products.
    fn broken(&self, lines: &Lines) -> Option<Refusal> {
        let due = lines.due();
        let broken = [
            (27, wrong(&self.inputs)),
            (27, again(&self.inputs)),
            (27, missing(&self.inputs, due)),
            (28, wrong(&self.outputs)),
            (28, again(&self.outputs)),
            (28, missing(&self.outputs, due)),
            (29, wrong(&self.types)),
            (29, missing(&self.types, due)),
            (30, wrong(&self.products)),
            (31, self.kept().get(MOST_PRODUCTS).map(|&(at, _)| at)),
            (32, wrong(&self.counts)),
            (32, again(&self.counts)),
            (33, lines.unknown()),
        ];
        broken.into_iter().filter_map(|(number, at)| Some(Refusal::at(at?, number))).min()
    }

    /// Whether the number of products is right is seen at the end alone.
    fn miscounted(&self) -> Option<Refusal> {
        let count = self.counts.first().filter(|(_, said)| *said != Some(self.products.len()));
        count.map(|&(at, _)| Refusal::at(at, 32))
    }
}

pub fn read(text: &[u8]) -> Result<Map, Refusal> {
    let lines = Lines::of(&characters(text)?);
    let said = Said::by(&lines);
    if let Some(refusal) = said.broken(&lines).or_else(|| said.miscounted()) {
        return Err(refusal);
    }
    let known = "a number that isn't known is refused";
    Ok(Map {
        inputs: value(&said.inputs).expect(known),
        outputs: value(&said.outputs).expect(known),
        products: said.kept().into_iter().map(|(_, product)| product).collect(),
    })
}
