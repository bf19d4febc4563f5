//! 8-tap predictions.

use crate::Pixel;
use crate::refusal::{Refusal, done};

/// The motion of an 8-tap block.
#[derive(Clone, Copy, Debug, PartialEq, Eq)]
pub struct SubpelMotion {
    /// The horizontal fraction, in sixteenths of a pixel: 0 to 15; 0 is no filter. With type -1 it is a filter of ext,
    /// counted from 1.
    pub mx: i32,
    /// The vertical fraction, likewise.
    pub my: i32,
    /// 0 to 2 for the filters of subpel, or -1 for those of ext.
    pub filter_type: i32,
}

/// Predicts a block of pixels. Its first pixel is `src[src_off]`; taps reach from 3 before a pixel to 4 after it.
///
/// ```
/// use hemavolups::{Eight, SubpelMotion, put_8tap};
///
/// // A filter of ext that takes the mean of a pixel and the next.
/// let ext = [0, 0, 0, 64, 64, 0, 0, 0];
/// let motion = SubpelMotion { mx: 1, my: 0, filter_type: -1 };
/// let mut dst = [0u8];
/// put_8tap(Eight, &mut dst, 1, &[0, 0, 0, 10, 20, 0, 0, 0], 3, 8, 1, 1, motion, &[0; 600], &ext)?;
/// assert_eq!(dst, [15]);
/// # Ok::<(), hemavolups::Refusal>(())
/// ```
pub fn put_8tap<P: Pixel>(
    depth: P::Depth,
    dst: &mut [P],
    dst_stride: usize,
    src: &[P],
    src_off: usize,
    src_stride: usize,
    w: usize,
    h: usize,
    motion: SubpelMotion,
    subpel: &[i8],
    ext: &[i8],
) -> Result<(), Refusal> {
    let SubpelMotion { mx, my, filter_type } = motion;
    #[rustfmt::skip]
    let number = unsafe {
        P::put_8tap(
            depth.into(), dst.as_mut_ptr(), dst.len(), dst_stride, src.as_ptr(), src.len(), src_off, src_stride, w, h,
            mx, my, filter_type, subpel.as_ptr(), subpel.len(), ext.as_ptr(), ext.len(),
        )
    };
    done(number)
}

/// Predicts a block's intermediate, from pixels as [`put_8tap`] takes them.
pub fn prep_8tap<P: Pixel>(
    depth: P::Depth,
    tmp: &mut [i16],
    tmp_stride: usize,
    src: &[P],
    src_off: usize,
    src_stride: usize,
    w: usize,
    h: usize,
    motion: SubpelMotion,
    subpel: &[i8],
    ext: &[i8],
) -> Result<(), Refusal> {
    let SubpelMotion { mx, my, filter_type } = motion;
    #[rustfmt::skip]
    let number = unsafe {
        P::prep_8tap(
            depth.into(), tmp.as_mut_ptr(), tmp.len(), tmp_stride, src.as_ptr(), src.len(), src_off, src_stride, w, h,
            mx, my, filter_type, subpel.as_ptr(), subpel.len(), ext.as_ptr(), ext.len(),
        )
    };
    done(number)
}
