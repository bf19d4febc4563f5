//! Bilinear predictions.

use crate::Pixel;
use crate::refusal::{Refusal, done};

/// The motion of a bilinear block.
#[derive(Clone, Copy, Debug, PartialEq, Eq)]
pub struct BilinMotion {
    /// The horizontal fraction, in sixteenths of a pixel: 0 to 15.
    pub mx: i32,
    /// The vertical fraction, likewise.
    pub my: i32,
}

/// Predicts a block of pixels. Its first pixel is `src[0]`; `src` has a column, or a row, more where that fraction
/// isn't 0.
///
/// ```
/// use hemavolups::{BilinMotion, Eight, put_bilin};
///
/// let mut dst = [0u8];
/// put_bilin(Eight, &mut dst, 1, &[10, 21], 2, 1, 1, BilinMotion { mx: 5, my: 0 })?;
/// assert_eq!(dst, [13]);
/// # Ok::<(), hemavolups::Refusal>(())
/// ```
pub fn put_bilin<P: Pixel>(
    depth: P::Depth,
    dst: &mut [P],
    dst_stride: usize,
    src: &[P],
    src_stride: usize,
    w: usize,
    h: usize,
    motion: BilinMotion,
) -> Result<(), Refusal> {
    #[rustfmt::skip]
    let number = unsafe {
        P::put_bilin(
            depth.into(), dst.as_mut_ptr(), dst.len(), dst_stride, src.as_ptr(), src.len(), src_stride, w, h,
            motion.mx, motion.my,
        )
    };
    done(number)
}

/// Predicts a block's intermediate, from pixels as [`put_bilin`] takes them.
pub fn prep_bilin<P: Pixel>(
    depth: P::Depth,
    tmp: &mut [i16],
    tmp_stride: usize,
    src: &[P],
    src_stride: usize,
    w: usize,
    h: usize,
    motion: BilinMotion,
) -> Result<(), Refusal> {
    #[rustfmt::skip]
    let number = unsafe {
        P::prep_bilin(
            depth.into(), tmp.as_mut_ptr(), tmp.len(), tmp_stride, src.as_ptr(), src.len(), src_stride, w, h,
            motion.mx, motion.my,
        )
    };
    done(number)
}
