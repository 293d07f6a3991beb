//! A search for scripts that shorten a map.
//!
//! Nothing here is proved, and nothing has to be trusted: a script that it proposes is settled, or refused, by the library.

pub mod clock;
pub mod pla;
pub mod product;
pub mod random;
pub mod script;
pub mod search;

mod link;
mod merging;
mod near;
mod needed;
mod pairs;
mod tidy;
mod work;

/// The variables, and the outputs: where there is one alone, a product without literals is free.
#[derive(Clone, Copy, Debug, PartialEq, Eq)]
pub struct Shape {
    pub variables: u32,
    pub outputs: u32,
}

impl Shape {
    fn is_free(self, product: product::Product) -> bool {
        self.outputs == 1 && product.is_constant()
    }
}
