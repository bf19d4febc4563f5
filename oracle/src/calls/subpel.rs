//! Calls of put_8tap and prep_8tap.

use super::Call;
use crate::answer::{Buffer, Px, Room};
use crate::limits::{self, Faults, need};
use crate::rng::Rng;
use crate::tables;

/// What both kernels read.
#[derive(Clone, Debug)]
pub struct Source<P> {
    pub depth: i32,
    pub src: Room<P>,
    pub src_off: usize,
    pub src_stride: usize,
    pub w: usize,
    pub h: usize,
    pub mx: i32,
    pub my: i32,
    pub filter_type: i32,
    pub subpel: Room<i8>,
    pub ext: Room<i8>,
}

#[derive(Clone, Debug)]
pub struct Put8tap<P> {
    pub dst: Room<P>,
    pub dst_stride: usize,
    pub from: Source<P>,
}

#[derive(Clone, Debug)]
pub struct Prep8tap<P> {
    pub tmp: Room<i16>,
    pub tmp_stride: usize,
    pub from: Source<P>,
}

/// Filter type, fractions and tables of a call.
pub struct Motion {
    pub filter_type: i32,
    pub mx: i32,
    pub my: i32,
    pub subpel: Room<i8>,
    pub ext: Room<i8>,
}

/// An ext table: the original's, or one of a few filters, none at times.
pub fn ext_table(rng: &mut Rng, wrong: bool) -> Room<i8> {
    if !wrong && rng.chance(30) {
        return tables::real_ext();
    }
    let any = rng.place(0, 80);
    let least = rng.pick(&[0, 1, 2, 15, 16, 63, any]);
    tables::filters(rng, least, wrong)
}

/// Draws the motion. Number 4 comes from a table's length or from a fraction above the ext table.
pub fn motion(rng: &mut Rng, faults: &Faults, numbers_wrong: [bool; 3]) -> Motion {
    let [bad_type, bad_mx, bad_my] = numbers_wrong;
    let [bad_subpel, bad_ext, absent] = faults.among(rng, 4);
    let filter_type = if absent { -1 } else { limits::filter_type(rng, bad_type) };
    let subpel = tables::subpel(rng, bad_subpel);
    let ext = ext_table(rng, bad_ext);
    let last = if filter_type == -1 { (ext.len() / 8) as i32 } else { 15 };
    // Type -1 has no fraction too great for number 3: that is number 4.
    let fraction = |rng: &mut Rng, wrong: bool| match wrong && filter_type == -1 {
        true => rng.pick(&[-1, -2, i32::MIN]),
        false => limits::fraction(rng, last, wrong),
    };
    let (mut mx, mut my) = (fraction(rng, bad_mx), fraction(rng, bad_my));
    if absent {
        let above = rng.pick(&[last + 1, last + 1, last + 2, i32::MAX]);
        let target = if rng.chance(50) { &mut mx } else { &mut my };
        *target = above;
    }
    Motion { filter_type, mx, my, subpel, ext }
}

/// The offset and the length of a source that must hold `before` places before the block and `after` from its first on.
pub fn place(rng: &mut Rng, faults: &Faults, before: u128, after: u128, wrong: bool) -> (usize, usize) {
    let lead = before.min(1 << 40) as usize;
    if !wrong {
        let longer = rng.place(0, 90);
        let off = lead + rng.pick(&[0, 0, 1, longer]);
        return (off, faults.length(rng, off as u128 + after, false));
    }
    if lead > 0 && rng.chance(40) {
        let off = rng.pick(&[lead - 1, lead - 1, 0]);
        return (off, faults.length(rng, off as u128 + after, false));
    }
    let length = faults.length(rng, lead as u128 + after, false);
    if rng.chance(50) {
        return (lead, faults.length(rng, lead as u128 + after, true));
    }
    let huge = rng.pick(&[usize::MAX, usize::MAX - 1, 1 << 63, (1 << 63) - 1, usize::MAX - lead, length, length + 1]);
    (huge, length)
}

/// Draws the source, then the destination's stride and length.
fn draw<P: Px>(rng: &mut Rng, depth: i32, numbers: &[u32]) -> (Source<P>, usize, usize) {
    let faults = Faults::draw(rng, numbers);
    let [bad_w, bad_h] = faults.among(rng, 1);
    let [bad_to, bad_from] = faults.among(rng, 2);
    let [bad_type, bad_mx, bad_my, bad_depth] = faults.among(rng, 3);
    // The byte set has no depth to be wrong, so its type is.
    let bad_type = bad_type || (bad_depth && !P::TAKES_DEPTH);
    let (w, h) = (limits::side(rng, bad_w), limits::side(rng, bad_h));
    let Motion { filter_type, mx, my, subpel, ext } = motion(rng, &faults, [bad_type, bad_mx, bad_my]);
    let src_stride = limits::stride(rng, w, h, bad_from);
    let (fx, fy) = ((mx != 0) as usize, (my != 0) as usize);
    let before = 3 * fy as u128 * src_stride as u128 + 3 * fx as u128;
    let after = need(h.saturating_add(4 * fy), src_stride, w.saturating_add(4 * fx));
    let (src_off, length) = place(rng, &faults, before, after, faults.has(5));
    let src = limits::pixels(rng, depth, length);
    let to_stride = limits::stride(rng, w, h, bad_to);
    let to_length = faults.length(rng, need(h, to_stride, w), faults.has(6));
    let depth = limits::depth::<P>(rng, depth, bad_depth);
    let source = Source { depth, src, src_off, src_stride, w, h, mx, my, filter_type, subpel, ext };
    (source, to_stride, to_length)
}

impl<P: Px> Call for Put8tap<P> {
    const NAME: &'static str = "put_8tap";
    const NUMBERS: &'static [u32] = &[1, 2, 3, 4, 5, 6];
    const RESULTS: usize = 0;

    fn make(rng: &mut Rng, depth: i32) -> Self {
        let (from, dst_stride, length) = draw(rng, depth, Self::NUMBERS);
        Put8tap { dst: limits::pixels(rng, depth, length), dst_stride, from }
    }

    fn lent(&self) -> Vec<Buffer> {
        vec![P::buffer(self.dst.clone())]
    }
}

impl<P: Px> Call for Prep8tap<P> {
    const NAME: &'static str = "prep_8tap";
    const NUMBERS: &'static [u32] = &[1, 2, 3, 4, 5, 6];
    const RESULTS: usize = 0;

    fn make(rng: &mut Rng, depth: i32) -> Self {
        let (from, tmp_stride, length) = draw(rng, depth, Self::NUMBERS);
        Prep8tap { tmp: limits::words(rng, length), tmp_stride, from }
    }

    fn lent(&self) -> Vec<Buffer> {
        vec![Buffer::Shorts(self.tmp.clone())]
    }
}
