//! What the tests share: tables with few filters in them, planes, and the test of a refusal.
#![allow(dead_code)]

use std::fmt::Debug;

use hemavolups::{Frame, Pixel, Plane, PlaneName, Refusal, Tables};

/// A subpel table whose family 3 has one tap, at the pixel itself: 30 for fraction 8, 64 for fraction 4.
pub fn one_tap_subpel() -> [i8; 600] {
    let mut table = [0; 600];
    let family = 8 * 15 * 3;
    table[family + 8 * 7 + 3] = 30;
    table[family + 8 * 3 + 3] = 64;
    table
}

/// 193 warp filters, of which the last takes the mean of a pixel and the next: the filter of a block without shears.
pub fn mean_warp() -> [i8; 8 * 193] {
    let mut table = [0; 8 * 193];
    table[8 * 192 + 3] = 64;
    table[8 * 192 + 4] = 64;
    table
}

/// Tables of right lengths, for kinds that use none of them.
pub const EMPTY: Tables = Tables { subpel: &[0; 600], ext: &[], warp: &[] };

/// A plane of luma without gaps.
pub fn luma<P>(luma_w: usize, pixels: &[P]) -> Plane<'_, P> {
    let frame = Frame { luma_w, luma_h: pixels.len() / luma_w, ss_hor: false, ss_ver: false };
    Plane { frame, name: PlaneName::Luma, pixels, stride: luma_w }
}

/// A pixel of either set, as tests need it.
pub trait Tested: Pixel + From<u8> + Debug + PartialEq {}

impl<P: Pixel + From<u8> + Debug + PartialEq> Tested for P {}

/// The refusal of a call that is lent a buffer: the buffer has to come back as it was.
pub fn refusal<T, R>(buffer: &mut [T], call: impl FnOnce(&mut [T]) -> Result<R, Refusal>) -> Refusal
where
    T: Clone + Debug + PartialEq,
{
    let before = buffer.to_vec();
    let refusal = call(buffer).err().expect("the call is refused");
    assert_eq!(buffer, before, "a refusal changed a buffer");
    refusal
}
