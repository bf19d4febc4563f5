//! Calls of sad_nxn and sad_refine_mv.

use super::{Call, with_depth};
use crate::answer::{Buffer, Px, Room};
use crate::limits::{self, Faults, need};
use crate::rng::Rng;

#[derive(Clone, Debug)]
pub struct SadNxn<P> {
    pub depth: i32,
    pub p0: Room<P>,
    pub p0_stride: usize,
    pub p1: Room<P>,
    pub p1_stride: usize,
    pub w: usize,
    pub h: usize,
}

#[derive(Clone, Debug)]
pub struct SadRefineMv<P> {
    pub planes: SadNxn<P>,
    pub is_implicit: bool,
}

/// Draws two blocks; `margin` is what each side has beyond w and h.
fn draw<P: Px>(rng: &mut Rng, depth: i32, numbers: &[u32], margin: usize) -> SadNxn<P> {
    let faults = Faults::draw(rng, numbers);
    let [bad_w, bad_h] = faults.among(rng, 1);
    let [bad0, bad1] = faults.among(rng, 2);
    let [short0, short1] = faults.among(rng, 5);
    let (w, h) = (limits::side(rng, bad_w), limits::side(rng, bad_h));
    let (row, rows) = (w.saturating_add(margin), h.saturating_add(margin));
    let p0_stride = limits::stride(rng, row, rows, bad0);
    let p1_stride = limits::stride(rng, row, rows, bad1);
    let length0 = faults.length(rng, need(rows, p0_stride, row), short0);
    let length1 = faults.length(rng, need(rows, p1_stride, row), short1);
    SadNxn {
        depth: limits::depth::<P>(rng, depth, faults.has(3)),
        p0: limits::pixels(rng, depth, length0),
        p0_stride,
        p1: limits::pixels(rng, depth, length1),
        p1_stride,
        w,
        h,
    }
}

/// Makes p1 a copy of p0, moved and slightly changed, so that the search has something to find.
fn make_alike<P: Px>(rng: &mut Rng, planes: &mut SadNxn<P>) {
    let (rows, row) = (planes.h.saturating_add(8), planes.w.saturating_add(8));
    let (dx, dy) = (rng.range(-4, 4), rng.range(-4, 4));
    if rows > 72 || row > 72 {
        return;
    }
    for y in 0..rows as i64 {
        for x in 0..row as i64 {
            let (from_y, from_x) = ((y + dy).clamp(0, rows as i64 - 1), (x + dx).clamp(0, row as i64 - 1));
            let from = from_y as usize * planes.p0_stride.min(32_768) + from_x as usize;
            let to = y as usize * planes.p1_stride.min(32_768) + x as usize;
            if from < planes.p0.len() && to < planes.p1.len() && rng.chance(95) {
                planes.p1[to] = planes.p0[from];
            }
        }
    }
}

/// Makes the centre's sum s about the one where (7s+7) >> 3 meets 2(w+4)(h+4): p0 is 0, and p1 has the sum spread over
/// the counted rows of its centre.
fn make_threshold<P: Px>(rng: &mut Rng, planes: &mut SadNxn<P>) {
    let (w, h) = (planes.w.saturating_add(4), planes.h.saturating_add(4));
    if w > 68 || h > 68 || need(h + 4, planes.p1_stride, w + 4) > planes.p1.len() as u128 {
        return;
    }
    planes.p0.fill(P::low(0));
    planes.p1.fill(P::low(0));
    let limit = (2 * w * h * 8).div_ceil(7) as i64 - 1;
    let total = (limit + rng.range(-2, 1)) << (planes.depth.clamp(8, 12) - 8);
    let count = (w * h.div_ceil(2)) as i64;
    for place in 0..count {
        let (row, column) = (2 + 2 * (place as usize / w), 2 + place as usize % w);
        let share = total / count + (place < total % count) as i64;
        planes.p1[row * planes.p1_stride + column] = P::low(share);
    }
}

impl<P: Px> Call for SadNxn<P> {
    const NAME: &'static str = "sad_nxn";
    const NUMBERS: &'static [u32] = with_depth(P::TAKES_DEPTH, [&[1, 2, 5], &[1, 2, 3, 5]]);
    const RESULTS: usize = 1;

    fn make(rng: &mut Rng, depth: i32) -> Self {
        draw(rng, depth, Self::NUMBERS, 0)
    }

    fn lent(&self) -> Vec<Buffer> {
        vec![]
    }
}

impl<P: Px> Call for SadRefineMv<P> {
    const NAME: &'static str = "sad_refine_mv";
    const NUMBERS: &'static [u32] = SadNxn::<P>::NUMBERS;
    const RESULTS: usize = 2;

    fn make(rng: &mut Rng, depth: i32) -> Self {
        let mut planes = draw(rng, depth, Self::NUMBERS, 8);
        match rng.range(0, 9) {
            0..4 => make_alike(rng, &mut planes),
            4..7 => make_threshold(rng, &mut planes),
            _ => {}
        }
        SadRefineMv { planes, is_implicit: rng.chance(50) }
    }

    fn lent(&self) -> Vec<Buffer> {
        vec![]
    }
}
