//! A second implementation of the reference vector searcher.
//!
//! It exists to disagree. The reference is compared with it on many sheets,
//! so it shares no code with the reference and, where the rules leave a
//! choice, it takes another method:
//!
//! * direct edges by asking the definition itself, with remembered answers,
//!   rather than by sorting;
//! * labels by a closed form with whole roots, rather than by trying the two
//!   inequalities on candidate steps;
//! * the search with ordered sets, where "the first in order" is the first
//!   element and "how many come before" is a range;
//! * sheets as long strings of single bits, packed and cut in one go.
//!
//! Every public entry takes any input. What it cannot use it refuses with the
//! number of the build scope's list, as `Err(number)`, and a refusal changes
//! nothing that was lent.

#![forbid(unsafe_code)]
#![warn(missing_docs)]

mod bits;
pub mod examples;
pub mod generate;
pub mod labels;
pub mod lines;
pub mod points;
mod refusals;
pub mod search;
pub mod sheet;
pub mod walk;

pub use points::Set;
pub use search::Ask;
