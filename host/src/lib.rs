//! Test software for the quality manager: what the rules say, written twice in Rust and once in C, and the means to compare
//! any implementation of its public calls with the definitions.
//!
//! - [`calls`]: the public calls as a trait, and the values that they hand over.
//! - [`reference`]: the calls by the definitions of the rules. Slow, plain, and the judge.
//! - [`boundary`]: the header in Rust; [`product`]: the product's own calls, linked, each in a safe function.
//! - [`fast`]: the same calls as a good engineer would write them for speed; [`c`] binds the same in C (`c/fast.c`).
//! - [`text`]: what the four programs print.
//! - [`draw`]: inputs from a seed; [`compare`]: two implementations side by side over such inputs; [`outside`]: vectors in files.

pub mod boundary;
pub mod c;
pub mod calls;
pub mod compare;
pub mod draw;
pub mod fast;
pub mod outside;
pub mod product;
pub mod reference;
pub mod text;

pub use calls::{
    Answer, Body, BodyDried, BodyRun, BodyTables, Calls, Counts, Dried, Given, Line, Opened, Reading, Run, Tables,
    Totals,
};
