//! An independent implementation of the papers to compare the proved library with, and the library's functions on slices.
pub mod direct;
pub mod exact;
pub mod generate;
pub mod pairs;
pub mod processor;
pub mod reference;
pub mod solver;
pub mod structures;

pub use pmn::slices::*;
pub use pmn::LONGEST_FILE;
