//! Warped predictions of 8 x 8 pixels.

use crate::Pixel;
use crate::refusal::{Refusal, done};

/// The four shears of a warped block, and its mx and my.
#[derive(Clone, Copy, Debug, PartialEq, Eq)]
pub struct Shears {
    /// What a column adds to mx.
    pub a: i16,
    /// What a row adds to mx.
    pub b: i16,
    /// What a column adds to my.
    pub c: i16,
    /// What a row adds to my.
    pub d: i16,
    /// The place in the filters, horizontally: 1024 to a filter, 0 at filter 192. Within ±2^20.
    pub mx: i32,
    /// The place in the filters, vertically.
    pub my: i32,
}

/// Predicts a block of 8 x 8 pixels. Its first pixel is `src[src_off]`; `src` holds the rows and columns -3 to 11.
pub fn warp_affine_8x8<P: Pixel>(
    depth: P::Depth,
    dst: &mut [P],
    dst_stride: usize,
    src: &[P],
    src_stride: usize,
    src_off: usize,
    shears: Shears,
    warp: &[i8],
) -> Result<(), Refusal> {
    let Shears { a, b, c, d, mx, my } = shears;
    #[rustfmt::skip]
    let number = unsafe {
        P::warp_affine_8x8(
            depth.into(), dst.as_mut_ptr(), dst.len(), dst_stride, src.as_ptr(), src.len(), src_stride, src_off,
            a, b, c, d, mx, my, warp.as_ptr(), warp.len(),
        )
    };
    done(number)
}

/// Predicts the intermediate of such a block.
pub fn warp_affine_8x8t<P: Pixel>(
    depth: P::Depth,
    tmp: &mut [i16],
    tmp_stride: usize,
    src: &[P],
    src_stride: usize,
    src_off: usize,
    shears: Shears,
    warp: &[i8],
) -> Result<(), Refusal> {
    let Shears { a, b, c, d, mx, my } = shears;
    #[rustfmt::skip]
    let number = unsafe {
        P::warp_affine_8x8t(
            depth.into(), tmp.as_mut_ptr(), tmp.len(), tmp_stride, src.as_ptr(), src.len(), src_stride, src_off,
            a, b, c, d, mx, my, warp.as_ptr(), warp.len(),
        )
    };
    done(number)
}
