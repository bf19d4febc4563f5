//! The numbers of the four scaled kernels, from document 02's request E1 and its readings.

use super::{Refuse, bad_block, bad_depth, bad_stride, bad_subpel, misses, outside, short};
use crate::answer::Px;
use crate::calls::scaled::{
    EIGHT, Fetched, Filters, Prep8tapScaled, PrepBilinScaled, Put8tapScaled, PutBilinScaled, Source, TWO, Taps,
};

/// The number of a call whose destination has this stride; `room` says that the destination is short. Bilinear has no
/// filters to test.
fn number<P: Px>(from: &Source<P>, by: Option<&Filters>, stride: usize, room: impl Fn() -> bool) -> u32 {
    let taps = if by.is_some() { &EIGHT } else { &TWO };
    lowest! {
        1 if bad_block(from.w, from.h),
        2 if bad_stride(stride, from.w) || bad_stride(from.src_stride, from.w),
        3 if bad_depth::<P>(from.depth) || bad_steps(from) || by.is_some_and(bad_type),
        4 if by.is_some_and(|by| bad_subpel(&by.subpel)),
        5 if fetch_missing(from, taps),
        6 if room(),
    }
}

/// Is a start outside 0 to 1023, or a step outside 0 to 4096?
fn bad_steps<P: Px>(from: &Source<P>) -> bool {
    let bad_start = [from.mx, from.my].iter().any(|start| outside(*start as i128, 0, 1023));
    bad_start || [from.dx, from.dy].iter().any(|step| outside(*step as i128, 0, 4096))
}

/// Is the type outside 0 to 2? Ext's -1 is.
fn bad_type(by: &Filters) -> bool {
    outside(by.filter_type as i128, 0, 2)
}

/// Doesn't the source hold every place that is fetched? A row's places are from its first column to its last.
fn fetch_missing<P: Px>(from: &Source<P>, taps: &Taps) -> bool {
    let Fetched { columns, rows } = from.fetched(taps);
    let (off, stride) = (from.src_off as i128, from.src_stride as i128);
    let place = |end: usize| off + rows[end] as i128 * stride + columns[end] as i128;
    misses(&from.src, place(0), place(1))
}

impl<P: Px> Refuse for Put8tapScaled<P> {
    fn number(&self) -> u32 {
        let (from, stride) = (&self.from, self.dst_stride);
        number(from, Some(&self.by), stride, || short(&self.dst, from.h, stride, from.w))
    }
}

impl<P: Px> Refuse for Prep8tapScaled<P> {
    fn number(&self) -> u32 {
        let (from, stride) = (&self.from, self.tmp_stride);
        number(from, Some(&self.by), stride, || short(&self.tmp, from.h, stride, from.w))
    }
}

impl<P: Px> Refuse for PutBilinScaled<P> {
    fn number(&self) -> u32 {
        let (from, stride) = (&self.from, self.dst_stride);
        number(from, None, stride, || short(&self.dst, from.h, stride, from.w))
    }
}

impl<P: Px> Refuse for PrepBilinScaled<P> {
    fn number(&self) -> u32 {
        let (from, stride) = (&self.from, self.tmp_stride);
        number(from, None, stride, || short(&self.tmp, from.h, stride, from.w))
    }
}
