//! Calls of warp_affine_8x8 and warp_affine_8x8t.

use super::Call;
use crate::answer::{Buffer, Px, Room};
use crate::limits::{self, Faults, need};
use crate::rng::Rng;
use crate::tables;

/// What both kernels read.
#[derive(Clone, Debug)]
pub struct Source<P> {
    pub depth: i32,
    pub src: Room<P>,
    pub src_stride: usize,
    pub src_off: usize,
    pub abcd: [i16; 4],
    pub mx: i32,
    pub my: i32,
    pub warp: Room<i8>,
}

#[derive(Clone, Debug)]
pub struct WarpAffine<P> {
    pub dst: Room<P>,
    pub dst_stride: usize,
    pub from: Source<P>,
}

#[derive(Clone, Debug)]
pub struct WarpAffineT<P> {
    pub tmp: Room<i16>,
    pub tmp_stride: usize,
    pub from: Source<P>,
}

/// One shear: any of sixteen bits, at their ends, or small as in real clips.
fn shear(rng: &mut Rng, style: i64) -> i16 {
    match style {
        0 => rng.pick(&[i16::MIN, i16::MAX, 0]),
        1 => rng.next() as i16,
        _ => rng.range(-3000, 3000) as i16,
    }
}

/// The least and the greatest shift of a filter's number before rounding, over 8 columns and so many rows.
fn reach(across: i16, down: i16, rows: i64) -> (i64, i64) {
    let ends = [0, 7 * across as i64];
    let downs = [0, (rows - 1) * down as i64];
    (ends[0].min(ends[1]) + downs[0].min(downs[1]), ends[0].max(ends[1]) + downs[0].max(downs[1]))
}

/// A start at which no filter's number falls below 0; one less than the least such start if it is wrong.
fn start(rng: &mut Rng, lowest_shift: i64, below: bool, outside: bool) -> i32 {
    let limit = 1i64 << 20;
    if outside {
        return limits::within(rng, limit, true);
    }
    let least = (-192 * 1024 - 512 - lowest_shift).max(-limit);
    if below {
        return (least - 1).max(-limit) as i32;
    }
    let (near, any) = (rng.range(least, (least + 400_000).min(limit)), rng.range(least, limit));
    let zero = 0.max(least);
    rng.pick(&[least, least, least + 1, zero, near, near, near, any, limit]) as i32
}

/// How many filters a table needs for the greatest number that this start reaches.
fn filters_needed(start: i32, highest_shift: i64) -> i64 {
    192 + ((start as i64 + highest_shift + 512) >> 10) + 1
}

/// A warp table of so many filters at least; one filter short, or of a wrong length, if it is wrong.
fn table(rng: &mut Rng, needed: i64, absent: bool, bad_length: bool) -> Room<i8> {
    let needed = needed.clamp(0, 2500) as usize;
    if absent {
        let fewer = rng.pick(&[needed.saturating_sub(1), needed.saturating_sub(1), needed / 2, 0]);
        return limits::filter_bytes(rng, 8 * fewer);
    }
    if !bad_length && needed <= 449 && rng.chance(40) {
        return tables::real_warp();
    }
    tables::filters(rng, needed, bad_length)
}

/// The offset and the length of the source: the block's first place has three rows and columns before it.
fn place(rng: &mut Rng, faults: &Faults, stride: usize) -> (usize, usize) {
    let lead = stride.min(1 << 40) * 3 + 3;
    let after = need(12, stride, 12);
    if !faults.has(5) {
        let longer = rng.place(0, 90);
        let off = lead + rng.pick(&[0, 0, 1, longer]);
        return (off, faults.length(rng, off as u128 + after, false));
    }
    let length = faults.length(rng, lead as u128 + after, false);
    match rng.range(0, 2) {
        0 => (rng.pick(&[lead - 1, lead - 1, 0]), length),
        1 => (lead, faults.length(rng, lead as u128 + after, true)),
        _ => (rng.pick(&[usize::MAX, usize::MAX - 1, 1 << 63, usize::MAX - lead, length]), length),
    }
}

/// Shears, starts and table of a call.
pub struct Shears {
    pub abcd: [i16; 4],
    pub mx: i32,
    pub my: i32,
    pub warp: Room<i8>,
}

/// Draws the shears. Number 4 comes from the table's length, from a filter below it or from one past its end.
pub fn shears(rng: &mut Rng, faults: &Faults, starts_wrong: [bool; 2]) -> Shears {
    let [bad_mx, bad_my] = starts_wrong;
    let [below_mx, below_my, absent, bad_length] = faults.among(rng, 4);
    let style = rng.range(0, 5);
    let abcd = [0; 4].map(|_: i16| shear(rng, style));
    let (across, down) = (reach(abcd[0], abcd[1], 15), reach(abcd[2], abcd[3], 8));
    let mx = start(rng, across.0, below_mx, bad_mx);
    let my = start(rng, down.0, below_my, bad_my);
    let needed = filters_needed(mx, across.1).max(filters_needed(my, down.1));
    Shears { abcd, mx, my, warp: table(rng, needed, absent, bad_length) }
}

/// Draws the source, then the destination's stride and length.
fn draw<P: Px>(rng: &mut Rng, depth: i32, numbers: &[u32]) -> (Source<P>, usize, usize) {
    let faults = Faults::draw(rng, numbers);
    let [bad_to, bad_from] = faults.among(rng, 2);
    let [bad_mx, bad_my, bad_depth] = faults.among(rng, 3);
    // The byte set has no depth to be wrong, so a start is.
    let bad_mx = bad_mx || (bad_depth && !P::TAKES_DEPTH);
    let Shears { abcd, mx, my, warp } = shears(rng, &faults, [bad_mx, bad_my]);
    let src_stride = limits::stride(rng, 8, 15, bad_from);
    let (src_off, length) = place(rng, &faults, src_stride);
    let src = limits::pixels(rng, depth, length);
    let to_stride = limits::stride(rng, 8, 8, bad_to);
    let to_length = faults.length(rng, need(8, to_stride, 8), faults.has(6));
    let depth = limits::depth::<P>(rng, depth, bad_depth);
    (Source { depth, src, src_stride, src_off, abcd, mx, my, warp }, to_stride, to_length)
}

impl<P: Px> Call for WarpAffine<P> {
    const NAME: &'static str = "warp_affine_8x8";
    const NUMBERS: &'static [u32] = &[2, 3, 4, 5, 6];
    const RESULTS: usize = 0;

    fn make(rng: &mut Rng, depth: i32) -> Self {
        let (from, dst_stride, length) = draw(rng, depth, Self::NUMBERS);
        WarpAffine { dst: limits::pixels(rng, depth, length), dst_stride, from }
    }

    fn lent(&self) -> Vec<Buffer> {
        vec![P::buffer(self.dst.clone())]
    }
}

impl<P: Px> Call for WarpAffineT<P> {
    const NAME: &'static str = "warp_affine_8x8t";
    const NUMBERS: &'static [u32] = &[2, 3, 4, 5, 6];
    const RESULTS: usize = 0;

    fn make(rng: &mut Rng, depth: i32) -> Self {
        let (from, tmp_stride, length) = draw(rng, depth, Self::NUMBERS);
        WarpAffineT { tmp: limits::words(rng, length), tmp_stride, from }
    }

    fn lent(&self) -> Vec<Buffer> {
        vec![Buffer::Shorts(self.tmp.clone())]
    }
}
