//! Changes of pixels that are there.

use crate::Pixel;
use crate::refusal::{Refusal, done};

/// Blends `tmp` into `dst`: m of `tmp` against 64 - m of `dst`. `tmp` and `mask` have no gaps.
///
/// ```
/// use hemavolups::{Refusal, blend};
///
/// let mut dst = [10u8, 10];
/// blend(&mut dst, 2, &[74, 74], 2, 1, &[32, 64])?;
/// assert_eq!(dst, [42, 74]);
///
/// let refused = blend(&mut dst, 2, &[74, 74], 2, 1, &[32, 65]);
/// assert_eq!(refused, Err(Refusal::MaskValue { row: 0, col: 1 }));
/// # Ok::<(), hemavolups::Refusal>(())
/// ```
pub fn blend<P: Pixel>(
    dst: &mut [P],
    dst_stride: usize,
    tmp: &[P],
    w: usize,
    h: usize,
    mask: &[u8],
) -> Result<(), Refusal> {
    let (mut row, mut col) = (0, 0);
    #[rustfmt::skip]
    let number = unsafe {
        P::blend(
            dst.as_mut_ptr(), dst.len(), dst_stride, tmp.as_ptr(), tmp.len(), w, h, mask.as_ptr(), mask.len(),
            &mut row, &mut col,
        )
    };
    match number {
        7 => Err(Refusal::MaskValue { row, col }),
        other => done(other),
    }
}

/// Changes each pixel d to (`alpha` x d + `beta`) >> 8, clamped to the depth. `alpha` is within ±2^14, `beta` within
/// ±2^22.
pub fn morph<P: Pixel>(
    depth: P::Depth,
    dst: &mut [P],
    dst_stride: usize,
    alpha: i32,
    beta: i32,
    w: usize,
    h: usize,
) -> Result<(), Refusal> {
    done(unsafe { P::morph(depth.into(), dst.as_mut_ptr(), dst.len(), dst_stride, alpha, beta, w, h) })
}
