//! put_bilin and prep_bilin.

use super::copy::prepared;
use super::{Rules, bits, clip, low16, minus_bias, round, write_block};
use crate::answer::{Answer, Buffer, Px};
use crate::calls::bilinear::{PrepBilin, PutBilin, Source};

/// Bilinear of a, b at f: 16a + f(b-a).
pub fn between(a: i64, b: i64, f: i32) -> i64 {
    16 * a + f as i64 * (b - a)
}

/// The source's pixel at a column and row of the block.
fn pixel<P: Px>(from: &Source<P>, x: usize, y: usize) -> i64 {
    from.src[y * from.src_stride + x].wide()
}

/// Between a pixel and its right neighbour, R(4-B).
fn across<P: Px>(from: &Source<P>, x: usize, y: usize) -> i64 {
    round(between(pixel(from, x, y), pixel(from, x + 1, y), from.mx), 4 - bits(from.depth))
}

/// Between a pixel and the one below it, not rounded.
fn down<P: Px>(from: &Source<P>, x: usize, y: usize) -> i64 {
    between(pixel(from, x, y), pixel(from, x, y + 1), from.my)
}

/// Between two rows that were made across and kept as low16, not rounded.
fn both<P: Px>(from: &Source<P>, x: usize, y: usize) -> i64 {
    between(low16(across(from, x, y)), low16(across(from, x, y + 1)), from.my)
}

/// put's pixel at a place.
fn put<P: Px>(from: &Source<P>, x: usize, y: usize) -> P {
    let b = bits(from.depth);
    let value = match (from.mx != 0, from.my != 0) {
        (false, false) => return P::low(pixel(from, x, y)),
        (true, false) => (across(from, x, y) + (1 << (b - 1))) >> b,
        (false, true) => round(down(from, x, y), 4),
        (true, true) => round(both(from, x, y), 4 + b),
    };
    clip(from.depth, value)
}

/// prep's intermediate at a place.
fn prep<P: Px>(from: &Source<P>, x: usize, y: usize) -> i16 {
    let b = bits(from.depth);
    let value = match (from.mx != 0, from.my != 0) {
        (false, false) => return prepared(from.depth, pixel(from, x, y)),
        (true, false) => across(from, x, y),
        (false, true) => round(down(from, x, y), 4 - b),
        (true, true) => round(both(from, x, y), 4),
    };
    minus_bias(from.depth, low16(value))
}

impl<P: Px> Rules for PutBilin<P> {
    fn rule(&self) -> Answer {
        let mut dst = self.dst.clone();
        write_block(&mut dst, self.dst_stride, self.from.w, self.from.h, |x, y| put(&self.from, x, y));
        Answer::done(vec![], vec![P::buffer(dst)])
    }
}

impl<P: Px> Rules for PrepBilin<P> {
    fn rule(&self) -> Answer {
        let mut tmp = self.tmp.clone();
        write_block(&mut tmp, self.tmp_stride, self.from.w, self.from.h, |x, y| prep(&self.from, x, y));
        Answer::done(vec![], vec![Buffer::Shorts(tmp)])
    }
}
