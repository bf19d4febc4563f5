//! The mask that comes of a difference.

use crate::Pixel;
use crate::refusal::{Refusal, done};

/// Combines two intermediates without gaps, by weights that come of their difference, and writes these weights to
/// `mask`, halved in width with `ss_hor`, and in height too with `ss_ver`. `sign` is 0 or 1.
///
/// ```
/// use hemavolups::{Eight, w_mask};
///
/// let (mut dst, mut mask) = ([0u8; 2], [0; 2]);
/// w_mask(Eight, &mut dst, 2, &[0, 3200], &[0, 0], 2, 1, &mut mask, 2, 0, false, false)?;
/// assert_eq!((dst, mask), ([0, 156], [38, 50]));
/// # Ok::<(), hemavolups::Refusal>(())
/// ```
pub fn w_mask<P: Pixel>(
    depth: P::Depth,
    dst: &mut [P],
    dst_stride: usize,
    tmp1: &[i16],
    tmp2: &[i16],
    w: usize,
    h: usize,
    mask: &mut [u8],
    mask_stride: usize,
    sign: i32,
    ss_hor: bool,
    ss_ver: bool,
) -> Result<(), Refusal> {
    #[rustfmt::skip]
    let number = unsafe {
        P::w_mask(
            depth.into(), dst.as_mut_ptr(), dst.len(), dst_stride, tmp1.as_ptr(), tmp1.len(), tmp2.as_ptr(), tmp2.len(),
            w, h, mask.as_mut_ptr(), mask.len(), mask_stride, sign, ss_hor, ss_ver,
        )
    };
    done(number)
}
