//! Sums of differences, and the search by them.

use crate::Pixel;
use crate::refusal::{Refusal, done};

/// Where a search ended, -2 to 2 on each axis.
#[derive(Clone, Copy, Debug, PartialEq, Eq)]
pub struct Offset {
    /// Columns.
    pub dx: i32,
    /// Rows.
    pub dy: i32,
}

/// The sum of absolute differences of two blocks over the rows 0, 2, 4 and so on, shifted right by depth - 8.
///
/// ```
/// use hemavolups::{Eight, sad_nxn};
///
/// assert_eq!(sad_nxn(Eight, &[10u8, 20, 0, 0], 2, &[13, 16, 99, 99], 2, 2, 2), Ok(3 + 4));
/// ```
pub fn sad_nxn<P: Pixel>(
    depth: P::Depth,
    p0: &[P],
    p0_stride: usize,
    p1: &[P],
    p1_stride: usize,
    w: usize,
    h: usize,
) -> Result<i32, Refusal> {
    let mut sum = 0;
    #[rustfmt::skip]
    let number = unsafe {
        P::sad_nxn(
            depth.into(), p0.as_ptr(), p0.len(), p0_stride, p1.as_ptr(), p1.len(), p1_stride, w, h, &mut sum,
        )
    };
    done(number).map(|()| sum)
}

/// The offset at which two blocks match best, the one moved by it and the other against it. Both hold (w + 8) x (h + 8)
/// pixels. An explicit search (`is_implicit` not set) never answers the centre; an implicit one prefers it.
pub fn sad_refine_mv<P: Pixel>(
    depth: P::Depth,
    p0: &[P],
    p0_stride: usize,
    p1: &[P],
    p1_stride: usize,
    w: usize,
    h: usize,
    is_implicit: bool,
) -> Result<Offset, Refusal> {
    let (mut dx, mut dy) = (0, 0);
    #[rustfmt::skip]
    let number = unsafe {
        P::sad_refine_mv(
            depth.into(), p0.as_ptr(), p0.len(), p0_stride, p1.as_ptr(), p1.len(), p1_stride, w, h, is_implicit,
            &mut dx, &mut dy,
        )
    };
    done(number).map(|()| Offset { dx, dy })
}
