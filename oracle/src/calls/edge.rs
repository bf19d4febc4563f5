//! Calls of emu_edge.

use super::Call;
use crate::answer::{Buffer, Px, Room};
use crate::limits::{self, Faults, need};
use crate::rng::Rng;

#[derive(Clone, Debug)]
pub struct EmuEdge<P> {
    pub bw: usize,
    pub bh: usize,
    pub iw: usize,
    pub ih: usize,
    pub x: i64,
    pub y: i64,
    pub dst: Room<P>,
    pub dst_stride: usize,
    pub plane: Room<P>,
    pub plane_stride: usize,
}

/// A plane's side for a block's side: mostly small, for great planes cost time, or with room for the block.
pub fn plane_side(rng: &mut Rng, block: usize, great: bool, wrong: bool) -> usize {
    if wrong || great {
        return limits::side_up_to(rng, 16_384, wrong);
    }
    let roomy = block.min(128) + rng.place(1, 12);
    let small = limits::side_up_to(rng, 40, false);
    rng.pick(&[small, roomy])
}

/// A position: about the plane's borders as a block of this side sees them, at ±2^30, or outside.
pub fn position(rng: &mut Rng, block: usize, plane: usize, wrong: bool) -> i64 {
    let limit = 1i64 << 30;
    if wrong {
        return rng.pick(&[limit + 1, -limit - 1, limit + 1, -limit - 1, 1 << 32, -(1 << 32), i64::MAX, i64::MIN]);
    }
    let (block, plane) = (block.min(200) as i64, plane.min(20_000) as i64);
    let near = rng.range(-2, 2);
    let any = rng.range(-block - 3, plane + 3);
    let far = rng.range(-limit, limit);
    rng.pick(&[any, any, any, near, near - block, near + plane, near + plane - block, limit, -limit, far])
}

impl<P: Px> Call for EmuEdge<P> {
    const NAME: &'static str = "emu_edge";
    const NUMBERS: &'static [u32] = &[1, 2, 3, 5, 6];
    const RESULTS: usize = 0;

    fn make(rng: &mut Rng, depth: i32) -> Self {
        let faults = Faults::draw(rng, Self::NUMBERS);
        let [bad_bw, bad_bh, bad_iw, bad_ih] = faults.among(rng, 1);
        let [bad_dst, bad_plane] = faults.among(rng, 2);
        let [bad_x, bad_y] = faults.among(rng, 3);
        // One side of the plane at most is great.
        let great = rng.pick(&[1, 2, 0, 0, 0, 0, 0, 0, 0, 0]);
        let (bw, bh) = (limits::side_up_to(rng, 128, bad_bw), limits::side_up_to(rng, 128, bad_bh));
        let (iw, ih) = (plane_side(rng, bw, great == 1, bad_iw), plane_side(rng, bh, great == 2, bad_ih));
        let dst_stride = limits::stride(rng, bw, bh, bad_dst);
        let plane_stride = limits::stride(rng, iw, ih, bad_plane);
        let dst_length = faults.length(rng, need(bh, dst_stride, bw), faults.has(6));
        let plane_length = faults.length(rng, need(ih, plane_stride, iw), faults.has(5));
        EmuEdge {
            bw,
            bh,
            iw,
            ih,
            x: position(rng, bw, iw, bad_x),
            y: position(rng, bh, ih, bad_y),
            dst: limits::pixels(rng, depth, dst_length),
            dst_stride,
            plane: limits::pixels(rng, depth, plane_length),
            plane_stride,
        }
    }

    fn lent(&self) -> Vec<Buffer> {
        vec![P::buffer(self.dst.clone())]
    }
}
