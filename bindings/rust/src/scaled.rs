//! Predictions from a reference of another size.

use crate::Pixel;
use crate::refusal::{Refusal, done};

/// Where in its first pixel a scaled block starts and how it steps, in 1/1024 of a pixel. Column x stands at mx + x dx,
/// row y at my + y dy; the top four bits of the fraction are 8-tap's filter (0 is none) or bilinear's weight.
#[derive(Clone, Copy, Debug, PartialEq, Eq)]
pub struct ScaledMotion {
    /// The horizontal start, 0 to 1023.
    pub mx: i32,
    /// The vertical start, likewise.
    pub my: i32,
    /// The horizontal step, 0 to 4096; 1024 is no scaling.
    pub dx: i32,
    /// The vertical step, likewise.
    pub dy: i32,
}

/// Predicts a block of pixels by 8 taps. Its first pixel is `src[src_off]`. Every row is fetched from 3 before the first
/// to 4 after the one that the block's last row stands in, whatever the fractions are; in each, for a column whose
/// fraction's top four bits are 0 its own pixel alone, else from 3 before it to 4 after it. The type is 0 to 2.
///
/// ```
/// use hemavolups::{Eight, ScaledMotion, put_8tap_scaled};
///
/// // A reference of twice the width and height: each second pixel of each second row. No pixel has a fraction, but
/// // three rows are fetched before the first and four after the last.
/// let src: [u8; 40] = std::array::from_fn(|place| place as u8);
/// let motion = ScaledMotion { mx: 0, my: 0, dx: 2048, dy: 2048 };
/// let mut dst = [0u8; 4];
/// put_8tap_scaled(Eight, &mut dst, 2, &src, 12, 4, 2, 2, motion, 0, &[0; 600])?;
/// assert_eq!(dst, [12, 14, 20, 22]);
/// # Ok::<(), hemavolups::Refusal>(())
/// ```
pub fn put_8tap_scaled<P: Pixel>(
    depth: P::Depth,
    dst: &mut [P],
    dst_stride: usize,
    src: &[P],
    src_off: usize,
    src_stride: usize,
    w: usize,
    h: usize,
    motion: ScaledMotion,
    filter_type: i32,
    subpel: &[i8],
) -> Result<(), Refusal> {
    let ScaledMotion { mx, my, dx, dy } = motion;
    #[rustfmt::skip]
    let number = unsafe {
        P::put_8tap_scaled(
            depth.into(), dst.as_mut_ptr(), dst.len(), dst_stride, src.as_ptr(), src.len(), src_off, src_stride, w, h,
            mx, my, dx, dy, filter_type, subpel.as_ptr(), subpel.len(),
        )
    };
    done(number)
}

/// Predicts a block's intermediate, from pixels as [`put_8tap_scaled`] takes them.
pub fn prep_8tap_scaled<P: Pixel>(
    depth: P::Depth,
    tmp: &mut [i16],
    tmp_stride: usize,
    src: &[P],
    src_off: usize,
    src_stride: usize,
    w: usize,
    h: usize,
    motion: ScaledMotion,
    filter_type: i32,
    subpel: &[i8],
) -> Result<(), Refusal> {
    let ScaledMotion { mx, my, dx, dy } = motion;
    #[rustfmt::skip]
    let number = unsafe {
        P::prep_8tap_scaled(
            depth.into(), tmp.as_mut_ptr(), tmp.len(), tmp_stride, src.as_ptr(), src.len(), src_off, src_stride, w, h,
            mx, my, dx, dy, filter_type, subpel.as_ptr(), subpel.len(),
        )
    };
    done(number)
}

/// Predicts a block of pixels, bilinear. Its first pixel is `src[src_off]`; a column and a row more are always fetched.
///
/// ```
/// use hemavolups::{Eight, ScaledMotion, put_bilin_scaled};
///
/// // A reference of half the width: every second pixel stands between two of its pixels.
/// let motion = ScaledMotion { mx: 0, my: 0, dx: 512, dy: 1024 };
/// let mut dst = [0u8; 4];
/// put_bilin_scaled(Eight, &mut dst, 4, &[10, 20, 40, 0, 0, 0, 0], 0, 4, 4, 1, motion)?;
/// assert_eq!(dst, [10, 15, 20, 30]);
/// # Ok::<(), hemavolups::Refusal>(())
/// ```
pub fn put_bilin_scaled<P: Pixel>(
    depth: P::Depth,
    dst: &mut [P],
    dst_stride: usize,
    src: &[P],
    src_off: usize,
    src_stride: usize,
    w: usize,
    h: usize,
    motion: ScaledMotion,
) -> Result<(), Refusal> {
    let ScaledMotion { mx, my, dx, dy } = motion;
    #[rustfmt::skip]
    let number = unsafe {
        P::put_bilin_scaled(
            depth.into(), dst.as_mut_ptr(), dst.len(), dst_stride, src.as_ptr(), src.len(), src_off, src_stride, w, h,
            mx, my, dx, dy,
        )
    };
    done(number)
}

/// Predicts a block's intermediate, from pixels as [`put_bilin_scaled`] takes them.
pub fn prep_bilin_scaled<P: Pixel>(
    depth: P::Depth,
    tmp: &mut [i16],
    tmp_stride: usize,
    src: &[P],
    src_off: usize,
    src_stride: usize,
    w: usize,
    h: usize,
    motion: ScaledMotion,
) -> Result<(), Refusal> {
    let ScaledMotion { mx, my, dx, dy } = motion;
    #[rustfmt::skip]
    let number = unsafe {
        P::prep_bilin_scaled(
            depth.into(), tmp.as_mut_ptr(), tmp.len(), tmp_stride, src.as_ptr(), src.len(), src_off, src_stride, w, h,
            mx, my, dx, dy,
        )
    };
    done(number)
}
