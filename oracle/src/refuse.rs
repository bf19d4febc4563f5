//! The refusal number of each call, from document 01's table and the readings of its open points: the lowest that
//! applies. Tests stand in the order of their numbers, so each may rely on those before it. Whole numbers don't wrap.

use crate::answer::Px;
use crate::calls::bilinear::{self, PrepBilin, PutBilin};
use crate::calls::combine::{self, Avg, Blend, Mask, Morph, Pair, WAvg, WMask};
use crate::calls::copy::{Prep, Put};
use crate::calls::edge::EmuEdge;
use crate::calls::search::{SadNxn, SadRefineMv};
use crate::calls::shear::{GetShearParams, MATRIX_LIMIT, ResolveDivisor32, SetAffineMv2d};
use crate::calls::subpel::{self, Prep8tap, Put8tap};
use crate::calls::warp::{self, WarpAffine, WarpAffineT};

/// A call's refusal number; 0 is done.
pub trait Refuse {
    fn number(&self) -> u32;
}

/// The number of the first test that holds, 0 if none does.
macro_rules! lowest {
    ($($number:literal if $test:expr),+ $(,)?) => {{
        $(if $test { return $number; })+
        0
    }};
}

mod order;
mod scaled;

/// Is a number outside its range?
fn outside(value: i128, low: i128, high: i128) -> bool {
    value < low || value > high
}

/// Is a number outside plus and minus a limit?
fn past(value: impl Into<i128>, limit: i128) -> bool {
    outside(value.into(), -limit, limit)
}

/// Is a side outside 1 to this limit?
fn bad_side(side: usize, limit: i128) -> bool {
    outside(side as i128, 1, limit)
}

/// Is a block's width or height outside 1 to 64?
fn bad_block(w: usize, h: usize) -> bool {
    bad_side(w, 64) || bad_side(h, 64)
}

/// Is a stride below its row or above 32,768?
fn bad_stride(stride: usize, row: usize) -> bool {
    outside(stride as i128, row as i128, 32_768)
}

/// Is the depth one that the set doesn't have?
fn bad_depth<P: Px>(depth: i32) -> bool {
    P::TAKES_DEPTH && depth != 10 && depth != 12
}

/// Doesn't a buffer hold (rows - 1) x stride + row places?
fn short<T>(buffer: &[T], rows: usize, stride: usize, row: usize) -> bool {
    (buffer.len() as i128) < (rows as i128 - 1) * stride as i128 + row as i128
}

/// Doesn't a buffer hold every place from first to last?
fn misses<T>(buffer: &[T], first: i128, last: i128) -> bool {
    first < 0 || last >= buffer.len() as i128
}

impl<P: Px> Refuse for Put<P> {
    fn number(&self) -> u32 {
        lowest! {
            1 if bad_block(self.w, self.h),
            2 if bad_stride(self.dst_stride, self.w) || bad_stride(self.src_stride, self.w),
            5 if short(&self.src, self.h, self.src_stride, self.w),
            6 if short(&self.dst, self.h, self.dst_stride, self.w),
        }
    }
}

impl<P: Px> Refuse for Prep<P> {
    fn number(&self) -> u32 {
        lowest! {
            1 if bad_block(self.w, self.h),
            2 if bad_stride(self.tmp_stride, self.w) || bad_stride(self.src_stride, self.w),
            3 if bad_depth::<P>(self.depth),
            5 if short(&self.src, self.h, self.src_stride, self.w),
            6 if short(&self.tmp, self.h, self.tmp_stride, self.w),
        }
    }
}

/// The number of a pair that is combined: `another` says that a number beside the depth is outside its range, `read`
/// that a buffer beside the intermediates is short.
fn pair_number<P: Px>(pair: &Pair<P>, another: bool, read: impl Fn() -> bool) -> u32 {
    let Pair { w, h, .. } = *pair;
    lowest! {
        1 if bad_block(w, h),
        2 if bad_stride(pair.dst_stride, w),
        3 if bad_depth::<P>(pair.depth) || another,
        5 if short(&pair.tmp1, h, w, w) || short(&pair.tmp2, h, w, w) || read(),
        6 if short(&pair.dst, h, pair.dst_stride, w),
    }
}

impl<P: Px> Refuse for Avg<P> {
    fn number(&self) -> u32 {
        pair_number(&self.0, false, || false)
    }
}

impl<P: Px> Refuse for WAvg<P> {
    fn number(&self) -> u32 {
        pair_number(&self.pair, outside(self.weight as i128, -16, 32), || false)
    }
}

impl<P: Px> Refuse for Mask<P> {
    fn number(&self) -> u32 {
        pair_number(&self.pair, false, || short(&self.mask, self.pair.h, self.pair.w, self.pair.w))
    }
}

impl<P: Px> Refuse for Blend<P> {
    fn number(&self) -> u32 {
        let Blend { w, h, .. } = *self;
        lowest! {
            1 if bad_block(w, h),
            2 if bad_stride(self.dst_stride, w),
            5 if short(&self.tmp, h, w, w) || short(&self.mask, h, w, w),
            6 if short(&self.dst, h, self.dst_stride, w),
            7 if combine::first_above_64(self).is_some(),
        }
    }
}

impl<P: Px> Refuse for Morph<P> {
    fn number(&self) -> u32 {
        lowest! {
            1 if bad_block(self.w, self.h),
            2 if bad_stride(self.dst_stride, self.w),
            3 if bad_depth::<P>(self.depth) || past(self.alpha, 1 << 14) || past(self.beta, 1 << 22),
            6 if short(&self.dst, self.h, self.dst_stride, self.w),
        }
    }
}

impl<P: Px> Refuse for WMask<P> {
    fn number(&self) -> u32 {
        let Pair { w, h, dst_stride, depth, .. } = self.pair;
        let (mask_w, mask_h) = (w >> self.ss_hor as u32, h >> self.ss_ver as u32);
        let odd = (self.ss_hor && w % 2 == 1) || (self.ss_ver && h % 2 == 1);
        let bad_flags = self.ss_ver && !self.ss_hor;
        lowest! {
            1 if bad_block(w, h) || odd,
            2 if bad_stride(dst_stride, w) || bad_stride(self.mask_stride, mask_w),
            3 if bad_depth::<P>(depth) || outside(self.sign as i128, 0, 1) || bad_flags,
            5 if short(&self.pair.tmp1, h, w, w) || short(&self.pair.tmp2, h, w, w),
            6 if short(&self.pair.dst, h, dst_stride, w) || short(&self.mask, mask_h, self.mask_stride, mask_w),
        }
    }
}

impl<P: Px> Refuse for EmuEdge<P> {
    fn number(&self) -> u32 {
        let bad_plane = bad_side(self.iw, 16_384) || bad_side(self.ih, 16_384);
        lowest! {
            1 if bad_side(self.bw, 128) || bad_side(self.bh, 128) || bad_plane,
            2 if bad_stride(self.dst_stride, self.bw) || bad_stride(self.plane_stride, self.iw),
            3 if past(self.x, 1 << 30) || past(self.y, 1 << 30),
            5 if short(&self.plane, self.ih, self.plane_stride, self.iw),
            6 if short(&self.dst, self.bh, self.dst_stride, self.bw),
        }
    }
}

/// The number of an 8-tap call whose destination has this stride; `room` says that the destination is short.
fn subpel_number<P: Px>(from: &subpel::Source<P>, stride: usize, room: impl Fn() -> bool) -> u32 {
    lowest! {
        1 if bad_block(from.w, from.h),
        2 if bad_stride(stride, from.w) || bad_stride(from.src_stride, from.w),
        3 if bad_depth::<P>(from.depth) || bad_motion(from.filter_type, from.mx, from.my),
        4 if bad_subpel(&from.subpel) || part_filter(&from.ext),
        4 if filter_missing(&from.ext, from.filter_type, from.mx, from.my),
        5 if taps_missing(from),
        6 if room(),
    }
}

/// Is the filter type outside -1 to 2, or a fraction outside 0 to 15 (type -1: below 0)?
fn bad_motion(filter_type: i32, mx: i32, my: i32) -> bool {
    let last = if filter_type == -1 { i128::MAX } else { 15 };
    outside(filter_type as i128, -1, 2) || outside(mx as i128, 0, last) || outside(my as i128, 0, last)
}

/// Hasn't a subpel table 600 numbers?
fn bad_subpel(table: &[i8]) -> bool {
    table.len() != 600
}

/// Isn't a table a whole number of filters?
fn part_filter(table: &[i8]) -> bool {
    !table.len().is_multiple_of(8)
}

/// Does type -1 need a filter that isn't in ext? Fraction f needs filter f - 1.
fn filter_missing(ext: &[i8], filter_type: i32, mx: i32, my: i32) -> bool {
    let filters = (ext.len() / 8) as i128;
    filter_type == -1 && (mx as i128 > filters || my as i128 > filters)
}

/// Doesn't the source hold the place of each tap? Taps stand at -3 to +4 on an axis that has a fraction.
fn taps_missing<P: Px>(from: &subpel::Source<P>) -> bool {
    let (off, stride) = (from.src_off as i128, from.src_stride as i128);
    let (fx, fy) = ((from.mx != 0) as i128, (from.my != 0) as i128);
    let first = off - 3 * fy * stride - 3 * fx;
    let last = off + (from.h as i128 - 1 + 4 * fy) * stride + from.w as i128 - 1 + 4 * fx;
    misses(&from.src, first, last)
}

impl<P: Px> Refuse for Put8tap<P> {
    fn number(&self) -> u32 {
        subpel_number(&self.from, self.dst_stride, || short(&self.dst, self.from.h, self.dst_stride, self.from.w))
    }
}

impl<P: Px> Refuse for Prep8tap<P> {
    fn number(&self) -> u32 {
        subpel_number(&self.from, self.tmp_stride, || short(&self.tmp, self.from.h, self.tmp_stride, self.from.w))
    }
}

/// The number of a bilinear call whose destination has this stride; `room` says that the destination is short.
fn bilinear_number<P: Px>(from: &bilinear::Source<P>, stride: usize, room: impl Fn() -> bool) -> u32 {
    let bad_fraction = outside(from.mx as i128, 0, 15) || outside(from.my as i128, 0, 15);
    let (fx, fy) = ((from.mx != 0) as usize, (from.my != 0) as usize);
    lowest! {
        1 if bad_block(from.w, from.h),
        2 if bad_stride(stride, from.w) || bad_stride(from.src_stride, from.w),
        3 if bad_depth::<P>(from.depth) || bad_fraction,
        5 if short(&from.src, from.h + fy, from.src_stride, from.w + fx),
        6 if room(),
    }
}

impl<P: Px> Refuse for PutBilin<P> {
    fn number(&self) -> u32 {
        bilinear_number(&self.from, self.dst_stride, || short(&self.dst, self.from.h, self.dst_stride, self.from.w))
    }
}

impl<P: Px> Refuse for PrepBilin<P> {
    fn number(&self) -> u32 {
        bilinear_number(&self.from, self.tmp_stride, || short(&self.tmp, self.from.h, self.tmp_stride, self.from.w))
    }
}

/// The number of two blocks that are compared, each side longer than w and h by a margin.
fn search_number<P: Px>(call: &SadNxn<P>, margin: usize) -> u32 {
    // Sides outside their range are refused before the margin's sum is used, so it may stop at the top.
    let (row, rows) = (call.w.saturating_add(margin), call.h.saturating_add(margin));
    lowest! {
        1 if bad_block(call.w, call.h),
        2 if bad_stride(call.p0_stride, row) || bad_stride(call.p1_stride, row),
        3 if bad_depth::<P>(call.depth),
        5 if short(&call.p0, rows, call.p0_stride, row) || short(&call.p1, rows, call.p1_stride, row),
    }
}

impl<P: Px> Refuse for SadNxn<P> {
    fn number(&self) -> u32 {
        search_number(self, 0)
    }
}

impl<P: Px> Refuse for SadRefineMv<P> {
    fn number(&self) -> u32 {
        search_number(&self.planes, 8)
    }
}

/// The number of a warp call whose destination has this stride; `room` says that the destination is short.
fn warp_number<P: Px>(from: &warp::Source<P>, stride: usize, room: impl Fn() -> bool) -> u32 {
    let (off, src_stride) = (from.src_off as i128, from.src_stride as i128);
    lowest! {
        2 if bad_stride(stride, 8) || bad_stride(from.src_stride, 8),
        3 if bad_depth::<P>(from.depth) || bad_starts(from.mx, from.my),
        4 if part_filter(&from.warp) || warp_filter_missing(&from.warp, from.abcd, from.mx, from.my),
        5 if misses(&from.src, off - 3 * src_stride - 3, off + 11 * src_stride + 11),
        6 if room(),
    }
}

/// Is a warp's mx or my outside ±2^20?
fn bad_starts(mx: i32, my: i32) -> bool {
    past(mx, 1 << 20) || past(my, 1 << 20)
}

/// Isn't one of the 184 filter numbers, of 15 rows across and 8 rows down, in the table?
fn warp_filter_missing(table: &[i8], abcd: [i16; 4], mx: i32, my: i32) -> bool {
    let filters = (table.len() / 8) as i128;
    let [a, b, c, d] = abcd.map(i128::from);
    let missing = |start: i32, across: i128, down: i128, rows: i128| {
        (0..rows).any(|r| {
            (0..8).any(|col| {
                let number = 192 + ((start as i128 + col * across + r * down + 512) >> 10);
                outside(number, 0, filters - 1)
            })
        })
    };
    missing(mx, a, b, 15) || missing(my, c, d, 8)
}

impl<P: Px> Refuse for WarpAffine<P> {
    fn number(&self) -> u32 {
        warp_number(&self.from, self.dst_stride, || short(&self.dst, 8, self.dst_stride, 8))
    }
}

impl<P: Px> Refuse for WarpAffineT<P> {
    fn number(&self) -> u32 {
        warp_number(&self.from, self.tmp_stride, || short(&self.tmp, 8, self.tmp_stride, 8))
    }
}

impl Refuse for ResolveDivisor32 {
    fn number(&self) -> u32 {
        lowest! {
            3 if outside(self.d as i128, 1, (1 << 31) - 1),
            4 if self.recip.len() != 129,
        }
    }
}

/// Is one of the matrix entries 2 to 5 outside its range?
fn bad_matrix(matrix: &[i32; 6]) -> bool {
    matrix[2..].iter().any(|entry| past(*entry, MATRIX_LIMIT as i128))
}

impl Refuse for GetShearParams {
    fn number(&self) -> u32 {
        lowest! {
            3 if bad_matrix(&self.record.matrix),
            4 if self.recip.len() != 129,
            8 if self.record.matrix[2] <= 0,
        }
    }
}

impl Refuse for SetAffineMv2d {
    fn number(&self) -> u32 {
        let bad_size = outside(self.bw4 as i128, 1, 64) || outside(self.bh4 as i128, 1, 64);
        let bad_place = outside(self.bx4 as i128, 0, 16_384) || outside(self.by4 as i128, 0, 16_384);
        let bad_mv = past(self.mv_x, 1 << 20) || past(self.mv_y, 1 << 20);
        lowest! {
            1 if bad_size,
            3 if bad_place || bad_mv || bad_matrix(&self.matrix),
        }
    }
}
