//! Document 01, as document 02 amends it, once more, by other means than the library's.
//!
//! A cube is the vector of its literal codes, a list a vector of cubes, a shared list one with the numbers of each product's
//! outputs beside it, and each definition is computed as it is worded: a value counts true products, a coefficient adds over
//! every subset, an L step rewrites every cube and is undone by itself, last one first. Nothing here is the library's or the
//! wrapper's, and nothing is fast.
//!
//! [`calls`] puts the definitions behind the bytes, the refusals and the buffers of the library's calls, and [`selector`] those of
//! several lists behind one call.

pub mod calls;
pub mod compactor;
pub mod cost;
pub mod cube;
pub mod index;
pub mod kronecker;
pub mod polarity;
pub mod program;
pub mod refusal;
pub mod script;
pub mod selector;
pub mod settling;
pub mod shared;
pub mod trees;
pub mod writer;
