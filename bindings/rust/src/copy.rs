//! Copies: a block of pixels, and its intermediate.

use crate::Pixel;
use crate::refusal::{Refusal, done};

/// Copies a block of pixels from `src` to `dst`.
///
/// ```
/// let mut dst = [0; 5];
/// hemavolups::put(&mut dst, 3, &[1u8, 2, 3, 4], 2, 2, 2)?;
/// assert_eq!(dst, [1, 2, 0, 3, 4]);
/// # Ok::<(), hemavolups::Refusal>(())
/// ```
pub fn put<P: Pixel>(
    dst: &mut [P],
    dst_stride: usize,
    src: &[P],
    src_stride: usize,
    w: usize,
    h: usize,
) -> Result<(), Refusal> {
    done(unsafe { P::put(dst.as_mut_ptr(), dst.len(), dst_stride, src.as_ptr(), src.len(), src_stride, w, h) })
}

/// Makes the intermediate of a block: pixels times 2^B, minus the bias.
///
/// ```
/// let mut tmp = [0];
/// hemavolups::prep(hemavolups::Depth::Ten, &mut tmp, 1, &[600u16], 1, 1, 1)?;
/// assert_eq!(tmp, [600 * 16 - 8192]);
/// # Ok::<(), hemavolups::Refusal>(())
/// ```
pub fn prep<P: Pixel>(
    depth: P::Depth,
    tmp: &mut [i16],
    tmp_stride: usize,
    src: &[P],
    src_stride: usize,
    w: usize,
    h: usize,
) -> Result<(), Refusal> {
    #[rustfmt::skip]
    let number = unsafe {
        P::prep(
            depth.into(), tmp.as_mut_ptr(), tmp.len(), tmp_stride, src.as_ptr(), src.len(), src_stride, w, h,
        )
    };
    done(number)
}
