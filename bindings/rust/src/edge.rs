//! Blocks of a plane that goes on for ever.

use crate::Pixel;
use crate::refusal::{Refusal, done};

/// Fetches a block of `bw` x `bh` at column `x`, row `y` of a plane of `iw` x `ih` that goes on for ever by repeating
/// its border pixels.
///
/// ```
/// let mut dst = [0u8; 12];
/// hemavolups::emu_edge(4, 3, 3, 2, -1, 0, &mut dst, 4, &[1, 2, 3, 4, 5, 6], 3)?;
/// assert_eq!(dst, [1, 1, 2, 3, 4, 4, 5, 6, 4, 4, 5, 6]);
/// # Ok::<(), hemavolups::Refusal>(())
/// ```
pub fn emu_edge<P: Pixel>(
    bw: usize,
    bh: usize,
    iw: usize,
    ih: usize,
    x: i64,
    y: i64,
    dst: &mut [P],
    dst_stride: usize,
    plane: &[P],
    plane_stride: usize,
) -> Result<(), Refusal> {
    #[rustfmt::skip]
    let number = unsafe {
        P::emu_edge(
            bw, bh, iw, ih, x, y, dst.as_mut_ptr(), dst.len(), dst_stride, plane.as_ptr(), plane.len(), plane_stride,
        )
    };
    done(number)
}
