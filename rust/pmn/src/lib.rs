//! Safe bindings over the proved library for C (include/pmn.h): no raw pointer leaves this crate.
//!
//! [`Mask`] is a PMN file that the library accepts, and has every call on it with typed answers; a refusal is a [`Refusal`], with its number
//! and its word. [`slices`] has the same functions as the library gives them, on slices of any length and any bytes, with a code for an
//! answer: what the tests need.
mod calls;
mod mask;
mod network;
mod raw;
mod refusal;
pub mod slices;

pub use calls::{Answer, Call, Outcome};
pub use mask::{three_feeds, Compared, Entry, Mask, Reading, Sheet, Size, Tried};
pub use network::{Feed, Gate, Network};
pub use refusal::Refusal;

/// The length of the longest file, which is of version 2 and has 128 gates with 16 feeds each and 16 outputs.
pub const LONGEST_FILE: usize = 10_906;

/// The length of the longest line of a question, line feed included.
pub const LONGEST_LINE: usize = 254;

/// How many frames the library reads in one pass.
pub const FRAMES_IN_ONE_PASS: usize = 64;
