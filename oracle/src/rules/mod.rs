//! Document 01's arithmetic, written out from its sentences, pixel by pixel, in numbers wide enough not to wrap:
//! what each accepted call gives. Where the document cuts, the cut is written.

mod bilinear;
mod combine;
mod copy;
mod edge;
pub mod order;
mod scaled;
mod search;
pub mod shear;
mod subpel;
mod warp;
pub mod window;

use crate::answer::{Answer, Px};

/// What an accepted call gives.
pub trait Rules {
    fn rule(&self) -> Answer;

    /// Rare things that happen in this accepted call, by name, to be counted.
    fn rare(&self) -> Vec<&'static str> {
        vec![]
    }
}

/// B: 4 at depths 8 and 10, 2 at depth 12.
fn bits(depth: i32) -> u32 {
    if depth == 12 { 2 } else { 4 }
}

/// The bias P: 0 at depth 8, else 8192.
fn bias(depth: i32) -> i64 {
    if depth == 8 { 0 } else { 8192 }
}

/// Keeps the low sixteen bits as a signed number.
fn low16(value: i64) -> i64 {
    (value + 32_768).rem_euclid(65_536) - 32_768
}

/// Subtracts P from an intermediate, wrapping in sixteen bits, and gives the number to store.
fn minus_bias(depth: i32, intermediate: i64) -> i16 {
    low16(intermediate - bias(depth)) as i16
}

/// The pixel clipped to 0 and the depth's greatest.
fn clip<P: Px>(depth: i32, value: i64) -> P {
    P::low(value.clamp(0, (1 << depth) - 1))
}

/// Half of 2^n, nothing for n = 0.
fn half(n: u32) -> i64 {
    (1 << n) / 2
}

/// R(n): adds half of 2^n and shifts by n.
fn round(value: i64, n: u32) -> i64 {
    (value + half(n)) >> n
}

/// Writes the w x h places of a block, each by its column and row, and nothing else.
fn write_block<T>(buffer: &mut [T], stride: usize, w: usize, h: usize, mut pixel: impl FnMut(usize, usize) -> T) {
    for y in 0..h {
        for x in 0..w {
            buffer[y * stride + x] = pixel(x, y);
        }
    }
}
