//! Calls of the four scaled kernels, which predict from a reference of another size: put and prep, 8-tap and bilinear.

use super::Call;
use super::subpel::place;
use crate::answer::{Buffer, Px, Room};
use crate::limits::{self, Faults, need};
use crate::rng::Rng;
use crate::tables;

/// What all four kernels read. Starts and steps count 1/1024 of a pixel.
#[derive(Clone, Debug)]
pub struct Source<P> {
    pub depth: i32,
    pub src: Room<P>,
    pub src_off: usize,
    pub src_stride: usize,
    pub w: usize,
    pub h: usize,
    pub mx: i32,
    pub my: i32,
    pub dx: i32,
    pub dy: i32,
}

/// What an 8-tap call filters by.
#[derive(Clone, Debug)]
pub struct Filters {
    pub filter_type: i32,
    pub subpel: Room<i8>,
}

#[derive(Clone, Debug)]
pub struct Put8tapScaled<P> {
    pub dst: Room<P>,
    pub dst_stride: usize,
    pub from: Source<P>,
    pub by: Filters,
}

#[derive(Clone, Debug)]
pub struct Prep8tapScaled<P> {
    pub tmp: Room<i16>,
    pub tmp_stride: usize,
    pub from: Source<P>,
    pub by: Filters,
}

#[derive(Clone, Debug)]
pub struct PutBilinScaled<P> {
    pub dst: Room<P>,
    pub dst_stride: usize,
    pub from: Source<P>,
}

#[derive(Clone, Debug)]
pub struct PrepBilinScaled<P> {
    pub tmp: Room<i16>,
    pub tmp_stride: usize,
    pub from: Source<P>,
}

/// Where the n-th pixel of a row or column of the block stands in the source: the whole pixel, counted from the block's
/// first, and the top four bits of the fraction.
pub fn at(start: i32, step: i32, n: usize) -> (i64, i32) {
    let position = start as i64 + n as i64 * step as i64;
    (position >> 10, (position & 1023) as i32 >> 6)
}

/// The taps that a kernel fetches around a pixel. Rows are fetched whatever the fractions are.
pub struct Taps {
    first: i64,
    last: i64,
    /// Are columns fetched beside one whose fraction is 0?
    beside_whole: bool,
}

pub const EIGHT: Taps = Taps { first: -3, last: 4, beside_whole: false };
pub const TWO: Taps = Taps { first: 0, last: 1, beside_whole: true };

/// The first and the last column and row that are fetched, counted from the block's first pixel.
pub struct Fetched {
    pub columns: [i64; 2],
    pub rows: [i64; 2],
}

impl<P> Source<P> {
    /// The first and the last column that are fetched for the block's column x.
    pub fn columns_of(&self, taps: &Taps, x: usize) -> [i64; 2] {
        let (column, sixteenths) = at(self.mx, self.dx, x);
        let filtered = sixteenths != 0 || taps.beside_whole;
        if filtered { [column + taps.first, column + taps.last] } else { [column; 2] }
    }

    /// All that is fetched. Where a column has no fraction its neighbours are spared, so the first and the last column
    /// can be those of any x. A side outside its range is refused before its places are asked for: it counts as 64.
    pub fn fetched(&self, taps: &Taps) -> Fetched {
        let columns: Vec<[i64; 2]> = (0..self.w.clamp(1, 64)).map(|x| self.columns_of(taps, x)).collect();
        let first = columns.iter().map(|[first, _]| *first).min();
        let last = columns.iter().map(|[_, last]| *last).max();
        let (last_row, _) = at(self.my, self.dy, self.h.clamp(1, 64) - 1);
        Fetched { columns: [first.unwrap_or(0), last.unwrap_or(0)], rows: [taps.first, last_row + taps.last] }
    }
}

/// A start, 0 to 1023, or one outside.
fn start(rng: &mut Rng, wrong: bool) -> i32 {
    if wrong {
        return rng.pick(&[-1, -1, 1024, 1024, -64, 2048, i32::MIN, i32::MAX]);
    }
    let (sixteenths, any) = (64 * rng.range(0, 15) as i32, rng.range(0, 1023) as i32);
    rng.pick(&[0, 0, 63, 64, 1023, sixteenths, sixteenths, any, any])
}

/// A step, 0 to 4096, or one outside.
fn step(rng: &mut Rng, wrong: bool) -> i32 {
    if wrong {
        return rng.pick(&[-1, -1, 4097, 4097, -1024, 8192, i32::MIN, i32::MAX]);
    }
    let (sixteenths, any) = (64 * rng.range(0, 64) as i32, rng.range(0, 4096) as i32);
    // A reference of half the size to one of twice the size.
    let usual = rng.range(512, 2048) as i32;
    rng.pick(&[0, 1, 512, 1023, 1024, 1024, 1025, 2048, 4096, sixteenths, sixteenths, any, any, usual, usual, usual])
}

/// A filter type, 0 to 2, or one outside: ext's -1 too.
fn filter_type(rng: &mut Rng, wrong: bool) -> i32 {
    if wrong { rng.pick(&[-1, -1, 3, 3, -2, i32::MIN, i32::MAX]) } else { rng.pick(&[0, 1, 2]) }
}

/// Draws the stride, the offset and the pixels of a source whose other numbers are drawn.
fn draw_pixels<P: Px>(rng: &mut Rng, faults: &Faults, taps: &Taps, bad_stride: bool, from: &mut Source<P>) {
    let Fetched { columns: [first, last], rows: [top, bottom] } = from.fetched(taps);
    // A stride's least is w, though a row may fetch more.
    let row = if bad_stride || rng.chance(60) { from.w } else { from.w.max((last - first + 1).max(0) as usize) };
    from.src_stride = limits::stride(rng, row, (bottom - top + 1).max(0) as usize, bad_stride);
    let stride = from.src_stride as i128;
    // Only a start or a step outside its range makes these negative.
    let before = (-top as i128 * stride - first as i128).max(0) as u128;
    let after = (bottom as i128 * stride + last as i128 + 1).max(0) as u128;
    let (src_off, length) = place(rng, faults, before, after, faults.has(5));
    from.src_off = src_off;
    from.src = limits::pixels(rng, from.depth, length);
}

/// Draws the source, then the destination's stride and length; the numbers that may be wrong are the starts, the steps
/// and the depth.
fn draw<P: Px>(rng: &mut Rng, depth: i32, faults: &Faults, taps: &Taps, wrong: [bool; 5]) -> (Source<P>, usize, usize) {
    let [bad_w, bad_h] = faults.among(rng, 1);
    let [bad_to, bad_from] = faults.among(rng, 2);
    let [bad_mx, bad_my, bad_dx, bad_dy, bad_depth] = wrong;
    // The byte set has no depth to be wrong, so a start is.
    let bad_mx = bad_mx || (bad_depth && !P::TAKES_DEPTH);
    let (w, h) = (limits::side(rng, bad_w), limits::side(rng, bad_h));
    let (mx, my) = (start(rng, bad_mx), start(rng, bad_my));
    let (dx, dy) = (step(rng, bad_dx), step(rng, bad_dy));
    let mut from = Source { depth, src: Room(vec![]), src_off: 0, src_stride: 0, w, h, mx, my, dx, dy };
    draw_pixels(rng, faults, taps, bad_from, &mut from);
    let to_stride = limits::stride(rng, w, h, bad_to);
    let to_length = faults.length(rng, need(h, to_stride, w), faults.has(6));
    from.depth = limits::depth::<P>(rng, depth, bad_depth);
    (from, to_stride, to_length)
}

/// Draws an 8-tap call but for its destination's contents.
fn draw_8tap<P: Px>(rng: &mut Rng, depth: i32, numbers: &[u32]) -> (Filters, Source<P>, usize, usize) {
    let faults = Faults::draw(rng, numbers);
    let [bad_type, others @ ..]: [bool; 6] = faults.among(rng, 3);
    let by = Filters { filter_type: filter_type(rng, bad_type), subpel: tables::subpel(rng, faults.has(4)) };
    let (from, stride, length) = draw(rng, depth, &faults, &EIGHT, others);
    (by, from, stride, length)
}

/// Draws a bilinear call but for its destination's contents.
fn draw_bilin<P: Px>(rng: &mut Rng, depth: i32, numbers: &[u32]) -> (Source<P>, usize, usize) {
    let faults = Faults::draw(rng, numbers);
    let wrong = faults.among(rng, 3);
    draw(rng, depth, &faults, &TWO, wrong)
}

impl<P: Px> Call for Put8tapScaled<P> {
    const NAME: &'static str = "put_8tap_scaled";
    const NUMBERS: &'static [u32] = &[1, 2, 3, 4, 5, 6];
    const RESULTS: usize = 0;

    fn make(rng: &mut Rng, depth: i32) -> Self {
        let (by, from, dst_stride, length) = draw_8tap(rng, depth, Self::NUMBERS);
        Put8tapScaled { dst: limits::pixels(rng, depth, length), dst_stride, from, by }
    }

    fn lent(&self) -> Vec<Buffer> {
        vec![P::buffer(self.dst.clone())]
    }
}

impl<P: Px> Call for Prep8tapScaled<P> {
    const NAME: &'static str = "prep_8tap_scaled";
    const NUMBERS: &'static [u32] = &[1, 2, 3, 4, 5, 6];
    const RESULTS: usize = 0;

    fn make(rng: &mut Rng, depth: i32) -> Self {
        let (by, from, tmp_stride, length) = draw_8tap(rng, depth, Self::NUMBERS);
        Prep8tapScaled { tmp: limits::words(rng, length), tmp_stride, from, by }
    }

    fn lent(&self) -> Vec<Buffer> {
        vec![Buffer::Shorts(self.tmp.clone())]
    }
}

impl<P: Px> Call for PutBilinScaled<P> {
    const NAME: &'static str = "put_bilin_scaled";
    const NUMBERS: &'static [u32] = &[1, 2, 3, 5, 6];
    const RESULTS: usize = 0;

    fn make(rng: &mut Rng, depth: i32) -> Self {
        let (from, dst_stride, length) = draw_bilin(rng, depth, Self::NUMBERS);
        PutBilinScaled { dst: limits::pixels(rng, depth, length), dst_stride, from }
    }

    fn lent(&self) -> Vec<Buffer> {
        vec![P::buffer(self.dst.clone())]
    }
}

impl<P: Px> Call for PrepBilinScaled<P> {
    const NAME: &'static str = "prep_bilin_scaled";
    const NUMBERS: &'static [u32] = &[1, 2, 3, 5, 6];
    const RESULTS: usize = 0;

    fn make(rng: &mut Rng, depth: i32) -> Self {
        let (from, tmp_stride, length) = draw_bilin(rng, depth, Self::NUMBERS);
        PrepBilinScaled { tmp: limits::words(rng, length), tmp_stride, from }
    }

    fn lent(&self) -> Vec<Buffer> {
        vec![Buffer::Shorts(self.tmp.clone())]
    }
}
