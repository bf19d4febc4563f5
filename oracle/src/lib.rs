//! The oracle: the original Rust and the library's C functions, beside document 01's refusals and arithmetic, written out
//! once more.

pub mod amount;
pub mod answer;
pub mod ask;
pub mod calls;
pub mod compare;
pub mod cut;
pub mod differences;
pub mod empty;
pub mod guard;
pub mod kernels;
pub mod lend;
pub mod library;
pub mod limits;
pub mod pages;
pub mod record;
pub mod refuse;
pub mod rng;
pub mod rules;
#[cfg(feature = "stack")]
pub mod stack;
pub mod tables;
pub mod tally;
pub mod worked;
