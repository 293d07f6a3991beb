//! Document 02, Six: "Another kind of form."

use crate::cube::Cube;
use std::rc::Rc;

/// How a function is expanded at a node, in the order in which document 02 names them.
#[derive(Clone, Copy, Debug, PartialEq, Eq)]
pub enum Expansion {
    Shannon,
    Positive,
    Negative,
}

impl Expansion {
    pub const ALL: [Expansion; 3] = [Expansion::Shannon, Expansion::Positive, Expansion::Negative];

    /// The codes of the variable in the products of its two branches: "the branch of the lower function (or the one without
    /// the literal) before the other".
    pub fn codes(self) -> [u8; 2] {
        match self {
            Expansion::Shannon => [0, 1],
            Expansion::Positive => [2, 1],
            Expansion::Negative => [2, 0],
        }
    }

    /// The functions of its two branches.
    pub fn branches(self, function: &[u8]) -> [Vec<u8>; 2] {
        let [lower, upper, change] = parts(function);
        match self {
            Expansion::Shannon => [lower, upper],
            Expansion::Positive => [lower, change],
            Expansion::Negative => [upper, change],
        }
    }
}

/// The function where the next variable, the lowest bit of an assignment, is 0; where it is 1; and the EXOR of both.
fn parts(function: &[u8]) -> [Vec<u8>; 3] {
    let part = |of: fn(u8, u8) -> u8| function.chunks(2).map(|pair| of(pair[0], pair[1])).collect();
    [part(|lower, _| lower), part(|_, upper| upper), part(|lower, upper| u8::from(lower != upper))]
}

/// An expansion tree: a node with its two branches, or, with no variable left, a constant.
#[derive(Clone, Debug, PartialEq, Eq)]
pub enum Tree {
    Constant(u8),
    Node(Expansion, Rc<[Tree; 2]>),
}

impl Tree {
    pub fn node(by: Expansion, branches: [&Tree; 2]) -> Tree {
        Tree::Node(by, Rc::new(branches.map(Tree::clone)))
    }

    /// "A node's cost is that of its two branches together; the product without literals is free only at a node that no
    /// literal leads to."
    pub fn cost(&self, literal_leads: bool) -> usize {
        match self {
            Tree::Constant(bit) => usize::from(*bit == 1 && literal_leads),
            Tree::Node(by, branches) => {
                let costs =
                    branches.iter().zip(by.codes()).map(|(branch, code)| branch.cost(literal_leads || code != 2));
                costs.sum()
            }
        }
    }

    /// Its products, "depth first"; each begins with the codes of the path that leads to the tree.
    pub fn list(&self, path: &[u8]) -> Vec<Cube> {
        match self {
            Tree::Constant(0) => vec![],
            Tree::Constant(_) => vec![path.to_vec()],
            Tree::Node(by, branches) => {
                let lists =
                    branches.iter().zip(by.codes()).map(|(branch, code)| branch.list(&[path, &[code]].concat()));
                lists.collect::<Vec<_>>().concat()
            }
        }
    }
}

/// "Expand by variable 0, then 1 and so on"; "find the least cost"; "the two branches are worked out the same way on the smaller
/// function until no variable is left"; "ties at a node go to the first of that order".
pub fn cheapest(function: &[u8], literal_leads: bool) -> Tree {
    if let &[constant] = function {
        return Tree::Constant(constant);
    }
    let parts = parts(function);
    // Which literal leads to a function doesn't matter, so each tree is looked for once.
    let [lower, upper, change] = parts.each_ref().map(|part| cheapest(part, true));
    let bare = |of: usize, below: &Tree| if literal_leads { below.clone() } else { cheapest(&parts[of], false) };
    let trees = [
        Tree::node(Expansion::Shannon, [&lower, &upper]),
        Tree::node(Expansion::Positive, [&bare(0, &lower), &change]),
        Tree::node(Expansion::Negative, [&bare(1, &upper), &change]),
    ];
    // Of several such the first.
    trees.into_iter().min_by_key(|tree| tree.cost(literal_leads)).expect("there are three")
}

/// The list of the cheapest tree of a truth vector.
pub fn list(vector: &[u8]) -> Vec<Cube> {
    cheapest(vector, false).list(&[])
}
