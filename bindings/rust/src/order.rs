//! Prediction orders.

use crate::refusal::{Refusal, done};
use crate::{BilinMotion, Pixel, Plane, Shears, SubpelMotion};

/// How a block is predicted.
#[derive(Clone, Copy, Debug, PartialEq, Eq)]
pub enum Kind {
    /// Copied.
    Copy,
    /// By 8 taps.
    Subpel(SubpelMotion),
    /// Bilinearly.
    Bilinear(BilinMotion),
    /// Warped; the block is 8 x 8.
    Warp(Shears),
}

/// The tables that orders are lent. Each has to have a right length, also where the order's kind doesn't use it.
#[derive(Clone, Copy, Debug)]
pub struct Tables<'a> {
    /// 600 numbers: 5 families of 15 filters of 8.
    pub subpel: &'a [i8],
    /// Any whole number of filters of 8, none too.
    pub ext: &'a [i8],
    /// Any whole number of filters of 8, none too.
    pub warp: &'a [i8],
}

/// A block to predict from a plane that goes on for ever by repeating its border pixels.
#[derive(Clone, Copy, Debug, PartialEq, Eq)]
pub struct Order {
    /// The reference plane's column of the block's first pixel, whole motion included. Within ±2^30.
    pub x: i64,
    /// Its row, likewise.
    pub y: i64,
    /// The block's width.
    pub w: usize,
    /// The block's height.
    pub h: usize,
    /// How it is predicted.
    pub kind: Kind,
}

/// A kind's motion as the C functions take it, 0 for what the kind doesn't have.
#[derive(Default)]
struct Motion {
    mx: i32,
    my: i32,
    filter_type: i32,
    abcd: [i16; 4],
}

impl Kind {
    /// The kind's number.
    pub(crate) fn number(self) -> u32 {
        match self {
            Kind::Copy => 0,
            Kind::Subpel(_) => 1,
            Kind::Bilinear(_) => 2,
            Kind::Warp(_) => 3,
        }
    }

    /// The kind's motion.
    fn motion(self) -> Motion {
        match self {
            Kind::Copy => Motion::default(),
            Kind::Subpel(SubpelMotion { mx, my, filter_type }) => Motion { mx, my, filter_type, ..Motion::default() },
            Kind::Bilinear(BilinMotion { mx, my }) => Motion { mx, my, ..Motion::default() },
            Kind::Warp(Shears { a, b, c, d, mx, my }) => Motion { mx, my, abcd: [a, b, c, d], ..Motion::default() },
        }
    }
}

impl Order {
    /// Predicts the block's pixels into `dst`, which begins at its first pixel. Scratch has to hold the block's window.
    /// A copied or warped block's window is always written there (`Mode::AlwaysScratch`, the default), an 8-tap or
    /// bilinear one's where it isn't inside the plane (`Mode::PlaneIfInside`).
    ///
    /// ```
    /// use hemavolups::{BilinMotion, Eight, Frame, Kind, Order, Plane, PlaneName, SCRATCH_LEN, Tables};
    ///
    /// let frame = Frame { luma_w: 2, luma_h: 1, ss_hor: false, ss_ver: false };
    /// let plane = Plane { frame, name: PlaneName::Luma, pixels: &[10u8, 21], stride: 2 };
    /// let tables = Tables { subpel: &[0; 600], ext: &[], warp: &[] };
    ///
    /// // Three pixels, the first of them left of the plane, moved by five sixteenths.
    /// let order = Order { x: -1, y: 0, w: 3, h: 1, kind: Kind::Bilinear(BilinMotion { mx: 5, my: 0 }) };
    /// let mut dst = [0; 3];
    /// order.put(Eight, &plane, &tables, &mut [0; SCRATCH_LEN], &mut dst, 3)?;
    /// assert_eq!(dst, [10, 13, 21]);
    /// # Ok::<(), hemavolups::Refusal>(())
    /// ```
    pub fn put<P: Pixel>(
        &self,
        depth: P::Depth,
        plane: &Plane<P>,
        tables: &Tables,
        scratch: &mut [P],
        dst: &mut [P],
        dst_stride: usize,
    ) -> Result<(), Refusal> {
        let Plane { frame, name, pixels, stride } = *plane;
        let Motion { mx, my, filter_type, abcd: [a, b, c, d] } = self.kind.motion();
        let Tables { subpel, ext, warp } = *tables;
        #[rustfmt::skip]
        let number = unsafe {
            P::order_put(
                depth.into(), frame.luma_w, frame.luma_h, frame.ss_hor, frame.ss_ver, name as u32, pixels.as_ptr(),
                pixels.len(), stride, self.kind.number(), self.x, self.y, self.w, self.h, mx, my, filter_type,
                a, b, c, d, subpel.as_ptr(), subpel.len(), ext.as_ptr(), ext.len(), warp.as_ptr(), warp.len(),
                scratch.as_mut_ptr(), scratch.len(), dst.as_mut_ptr(), dst.len(), dst_stride,
            )
        };
        done(number)
    }

    /// Predicts the block's intermediate into `tmp`, as [`Order::put`] does its pixels.
    pub fn prep<P: Pixel>(
        &self,
        depth: P::Depth,
        plane: &Plane<P>,
        tables: &Tables,
        scratch: &mut [P],
        tmp: &mut [i16],
        tmp_stride: usize,
    ) -> Result<(), Refusal> {
        let Plane { frame, name, pixels, stride } = *plane;
        let Motion { mx, my, filter_type, abcd: [a, b, c, d] } = self.kind.motion();
        let Tables { subpel, ext, warp } = *tables;
        #[rustfmt::skip]
        let number = unsafe {
            P::order_prep(
                depth.into(), frame.luma_w, frame.luma_h, frame.ss_hor, frame.ss_ver, name as u32, pixels.as_ptr(),
                pixels.len(), stride, self.kind.number(), self.x, self.y, self.w, self.h, mx, my, filter_type,
                a, b, c, d, subpel.as_ptr(), subpel.len(), ext.as_ptr(), ext.len(), warp.as_ptr(), warp.len(),
                scratch.as_mut_ptr(), scratch.len(), tmp.as_mut_ptr(), tmp.len(), tmp_stride,
            )
        };
        done(number)
    }
}
