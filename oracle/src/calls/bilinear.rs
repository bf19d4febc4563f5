//! Calls of put_bilin and prep_bilin.

use super::Call;
use crate::answer::{Buffer, Px, Room};
use crate::limits::{self, Faults, need};
use crate::rng::Rng;

/// What both kernels read.
#[derive(Clone, Debug)]
pub struct Source<P> {
    pub depth: i32,
    pub src: Room<P>,
    pub src_stride: usize,
    pub w: usize,
    pub h: usize,
    pub mx: i32,
    pub my: i32,
}

#[derive(Clone, Debug)]
pub struct PutBilin<P> {
    pub dst: Room<P>,
    pub dst_stride: usize,
    pub from: Source<P>,
}

#[derive(Clone, Debug)]
pub struct PrepBilin<P> {
    pub tmp: Room<i16>,
    pub tmp_stride: usize,
    pub from: Source<P>,
}

/// Draws the source, then the destination's stride and length.
fn draw<P: Px>(rng: &mut Rng, depth: i32, numbers: &[u32]) -> (Source<P>, usize, usize) {
    let faults = Faults::draw(rng, numbers);
    let [bad_w, bad_h] = faults.among(rng, 1);
    let [bad_to, bad_from] = faults.among(rng, 2);
    let [bad_mx, bad_my, bad_depth] = faults.among(rng, 3);
    // The byte set has no depth to be wrong, so a fraction is.
    let bad_mx = bad_mx || (bad_depth && !P::TAKES_DEPTH);
    let (w, h) = (limits::side(rng, bad_w), limits::side(rng, bad_h));
    let (mx, my) = (limits::fraction(rng, 15, bad_mx), limits::fraction(rng, 15, bad_my));
    let src_stride = limits::stride(rng, w, h, bad_from);
    let (rows, row) = (h.saturating_add((my != 0) as usize), w.saturating_add((mx != 0) as usize));
    let src_length = faults.length(rng, need(rows, src_stride, row), faults.has(5));
    let to_stride = limits::stride(rng, w, h, bad_to);
    let to_length = faults.length(rng, need(h, to_stride, w), faults.has(6));
    let src = limits::pixels(rng, depth, src_length);
    let depth = limits::depth::<P>(rng, depth, bad_depth);
    (Source { depth, src, src_stride, w, h, mx, my }, to_stride, to_length)
}

impl<P: Px> Call for PutBilin<P> {
    const NAME: &'static str = "put_bilin";
    const NUMBERS: &'static [u32] = &[1, 2, 3, 5, 6];
    const RESULTS: usize = 0;

    fn make(rng: &mut Rng, depth: i32) -> Self {
        let (from, dst_stride, length) = draw(rng, depth, Self::NUMBERS);
        PutBilin { dst: limits::pixels(rng, depth, length), dst_stride, from }
    }

    fn lent(&self) -> Vec<Buffer> {
        vec![P::buffer(self.dst.clone())]
    }
}

impl<P: Px> Call for PrepBilin<P> {
    const NAME: &'static str = "prep_bilin";
    const NUMBERS: &'static [u32] = &[1, 2, 3, 5, 6];
    const RESULTS: usize = 0;

    fn make(rng: &mut Rng, depth: i32) -> Self {
        let (from, tmp_stride, length) = draw(rng, depth, Self::NUMBERS);
        PrepBilin { tmp: limits::words(rng, length), tmp_stride, from }
    }

    fn lent(&self) -> Vec<Buffer> {
        vec![Buffer::Shorts(self.tmp.clone())]
    }
}
