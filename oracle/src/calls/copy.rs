//! Calls of put and prep.

use super::{Call, with_depth};
use crate::answer::{Buffer, Px, Room};
use crate::limits::{self, Faults, need};
use crate::rng::Rng;

#[derive(Clone, Debug)]
pub struct Put<P> {
    pub dst: Room<P>,
    pub dst_stride: usize,
    pub src: Room<P>,
    pub src_stride: usize,
    pub w: usize,
    pub h: usize,
}

#[derive(Clone, Debug)]
pub struct Prep<P> {
    pub depth: i32,
    pub tmp: Room<i16>,
    pub tmp_stride: usize,
    pub src: Room<P>,
    pub src_stride: usize,
    pub w: usize,
    pub h: usize,
}

/// Sides and strides of a block that is copied, with the lengths of its two buffers.
struct Shape {
    w: usize,
    h: usize,
    to_stride: usize,
    from_stride: usize,
    to_length: usize,
    from_length: usize,
}

/// Draws the shape under the faults.
fn shape(rng: &mut Rng, faults: &Faults) -> Shape {
    let [bad_w, bad_h] = faults.among(rng, 1);
    let [bad_to, bad_from] = faults.among(rng, 2);
    let (w, h) = (limits::side(rng, bad_w), limits::side(rng, bad_h));
    let to_stride = limits::stride(rng, w, h, bad_to);
    let from_stride = limits::stride(rng, w, h, bad_from);
    let to_length = faults.length(rng, need(h, to_stride, w), faults.has(6));
    let from_length = faults.length(rng, need(h, from_stride, w), faults.has(5));
    Shape { w, h, to_stride, from_stride, to_length, from_length }
}

impl<P: Px> Call for Put<P> {
    const NAME: &'static str = "put";
    const NUMBERS: &'static [u32] = &[1, 2, 5, 6];
    const RESULTS: usize = 0;

    fn make(rng: &mut Rng, depth: i32) -> Self {
        let faults = Faults::draw(rng, Self::NUMBERS);
        let shape = shape(rng, &faults);
        Put {
            dst: limits::pixels(rng, depth, shape.to_length),
            dst_stride: shape.to_stride,
            src: limits::pixels(rng, depth, shape.from_length),
            src_stride: shape.from_stride,
            w: shape.w,
            h: shape.h,
        }
    }

    fn lent(&self) -> Vec<Buffer> {
        vec![P::buffer(self.dst.clone())]
    }
}

impl<P: Px> Call for Prep<P> {
    const NAME: &'static str = "prep";
    const NUMBERS: &'static [u32] = with_depth(P::TAKES_DEPTH, [&[1, 2, 5, 6], &[1, 2, 3, 5, 6]]);
    const RESULTS: usize = 0;

    fn make(rng: &mut Rng, depth: i32) -> Self {
        let faults = Faults::draw(rng, Self::NUMBERS);
        let shape = shape(rng, &faults);
        Prep {
            depth: limits::depth::<P>(rng, depth, faults.has(3)),
            tmp: limits::words(rng, shape.to_length),
            tmp_stride: shape.to_stride,
            src: limits::pixels(rng, depth, shape.from_length),
            src_stride: shape.from_stride,
            w: shape.w,
            h: shape.h,
        }
    }

    fn lent(&self) -> Vec<Buffer> {
        vec![Buffer::Shorts(self.tmp.clone())]
    }
}
