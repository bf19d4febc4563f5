//! Combinations: two intermediates without gaps become a block of pixels.

use crate::Pixel;
use crate::refusal::{Refusal, done};

/// Their average.
pub fn avg<P: Pixel>(
    depth: P::Depth,
    dst: &mut [P],
    dst_stride: usize,
    tmp1: &[i16],
    tmp2: &[i16],
    w: usize,
    h: usize,
) -> Result<(), Refusal> {
    #[rustfmt::skip]
    let number = unsafe {
        P::avg(
            depth.into(), dst.as_mut_ptr(), dst.len(), dst_stride, tmp1.as_ptr(), tmp1.len(), tmp2.as_ptr(), tmp2.len(),
            w, h,
        )
    };
    done(number)
}

/// Their weighted average: `weight`, -16 to 32, of `tmp1` against 16 - `weight` of `tmp2`.
///
/// ```
/// use hemavolups::{Eight, w_avg};
///
/// let mut dst = [0u8];
/// w_avg(Eight, &mut dst, 1, &[3200], &[0], 1, 1, 12)?;
/// assert_eq!(dst, [150]);
/// # Ok::<(), hemavolups::Refusal>(())
/// ```
pub fn w_avg<P: Pixel>(
    depth: P::Depth,
    dst: &mut [P],
    dst_stride: usize,
    tmp1: &[i16],
    tmp2: &[i16],
    w: usize,
    h: usize,
    weight: i32,
) -> Result<(), Refusal> {
    #[rustfmt::skip]
    let number = unsafe {
        P::w_avg(
            depth.into(), dst.as_mut_ptr(), dst.len(), dst_stride, tmp1.as_ptr(), tmp1.len(), tmp2.as_ptr(), tmp2.len(),
            w, h, weight,
        )
    };
    done(number)
}

/// Their average by a mask without gaps: m of `tmp1` against 64 - m of `tmp2`, pixel by pixel.
pub fn mask<P: Pixel>(
    depth: P::Depth,
    dst: &mut [P],
    dst_stride: usize,
    tmp1: &[i16],
    tmp2: &[i16],
    w: usize,
    h: usize,
    mask: &[u8],
) -> Result<(), Refusal> {
    #[rustfmt::skip]
    let number = unsafe {
        P::mask(
            depth.into(), dst.as_mut_ptr(), dst.len(), dst_stride, tmp1.as_ptr(), tmp1.len(), tmp2.as_ptr(), tmp2.len(),
            w, h, mask.as_ptr(), mask.len(),
        )
    };
    done(number)
}
