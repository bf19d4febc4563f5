//! The calls of the interface's entries: their arguments with owned buffers, and how they are made up.

pub mod bilinear;
pub mod combine;
pub mod copy;
pub mod edge;
pub mod order;
pub mod scaled;
pub mod search;
pub mod shear;
pub mod subpel;
pub mod warp;
pub mod window;

use std::fmt::Debug;

use crate::answer::{Answer, Buffer};
use crate::rng::Rng;

/// One call of one entry.
pub trait Call: Sized + Debug {
    /// The entry's name without prefix and set.
    const NAME: &'static str;
    /// The refusal numbers it can give.
    const NUMBERS: &'static [u32];
    /// How many results it has beside its number and its buffers.
    const RESULTS: usize;

    /// Makes up a call for this depth, most likely an accepted one, biased to limits.
    fn make(rng: &mut Rng, depth: i32) -> Self;

    /// What was lent to be written, in the interface's order.
    fn lent(&self) -> Vec<Buffer>;

    /// The answer to this call if it is refused with this number.
    fn refused(&self, number: u32) -> Answer {
        Answer::new(number, vec![0; Self::RESULTS], self.lent())
    }
}

/// The numbers of an entry that gives 3 for the depth alone: only the 16-bit set has one.
const fn with_depth(takes_depth: bool, numbers: [&'static [u32]; 2]) -> &'static [u32] {
    numbers[takes_depth as usize]
}
