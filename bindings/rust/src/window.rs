//! Frames, and the parts of their planes that blocks are predicted from.

use crate::refusal::{Refusal, done};
use crate::{Order, Pixel};

/// Scratch of this length holds every window: a block of 64 x 64 and the margins of 8 taps.
pub const SCRATCH_LEN: usize = 71 * 71;

/// Luma's sides, 1 to 16,384, and the subsampling flags; ss_ver needs ss_hor.
#[derive(Clone, Copy, Debug, PartialEq, Eq)]
pub struct Frame {
    /// Luma's width.
    pub luma_w: usize,
    /// Luma's height.
    pub luma_h: usize,
    /// Chroma has half of luma's width, rounded up.
    pub ss_hor: bool,
    /// Chroma has half of luma's height, rounded up.
    pub ss_ver: bool,
}

/// A plane of a frame.
#[derive(Clone, Copy, Debug, PartialEq, Eq)]
pub enum PlaneName {
    /// Brightness.
    Luma = 0,
    /// Either of the two of colour.
    Chroma = 1,
}

/// A view of a frame's plane.
#[derive(Clone, Copy, Debug)]
pub struct Plane<'a, P> {
    /// The frame that it belongs to.
    pub frame: Frame,
    /// Which of the frame's planes it is.
    pub name: PlaneName,
    /// Its pixels, row after row.
    pub pixels: &'a [P],
    /// From a pixel to the one below.
    pub stride: usize,
}

/// Where a window is taken from. The two numbers have changed places (CHANGELOG.md, E12): 0 was `PlaneIfInside`.
#[derive(Clone, Copy, Debug, Default, PartialEq, Eq)]
pub enum Mode {
    /// Always from scratch, which stays as it is whatever becomes of the plane.
    #[default]
    AlwaysScratch = 0,
    /// From the plane if the window lies inside, else from scratch.
    PlaneIfInside = 1,
}

/// A lent buffer.
#[derive(Clone, Copy, Debug, PartialEq, Eq)]
pub enum Buffer {
    /// The plane.
    Plane,
    /// Scratch.
    Scratch,
}

/// A part of a lent buffer.
#[derive(Clone, Copy, Debug, PartialEq, Eq)]
pub struct Part<'a, P> {
    /// The buffer.
    pub buffer: Buffer,
    /// The part's first place in it.
    pub place: usize,
    /// From a pixel to the one below.
    pub stride: usize,
    /// The part itself, from its first pixel to its last.
    pub pixels: &'a [P],
}

/// What the C functions write for a part.
#[derive(Default)]
struct Answer {
    buffer: u32,
    place: usize,
    stride: usize,
    len: usize,
}

impl Answer {
    /// The part that is meant, of the plane or of scratch.
    fn part<'a, P>(&self, plane: &'a [P], scratch: &'a [P]) -> Part<'a, P> {
        let (buffer, lent) = if self.buffer == 1 { (Buffer::Plane, plane) } else { (Buffer::Scratch, scratch) };
        Part { buffer, place: self.place, stride: self.stride, pixels: &lent[self.place..self.place + self.len] }
    }
}

impl<'a, P: Pixel> Plane<'a, P> {
    /// The window of an order's block: the pixels that it is predicted from, with the margins of its kind. Of the kind,
    /// its numbers aren't looked at. Scratch has to hold the window in either mode; it changes where it is the answer.
    ///
    /// ```
    /// use hemavolups::{Buffer, Frame, Kind, Mode, Order, Plane, PlaneName};
    ///
    /// let frame = Frame { luma_w: 3, luma_h: 2, ss_hor: false, ss_ver: false };
    /// let plane = Plane { frame, name: PlaneName::Luma, pixels: &[1u8, 2, 3, 4, 5, 6], stride: 3 };
    /// let mut scratch = [0; 4];
    ///
    /// let inside = Order { x: 1, y: 0, w: 2, h: 2, kind: Kind::Copy };
    /// let window = plane.window(&inside, Mode::default(), &mut scratch)?;
    /// assert_eq!((window.buffer, window.stride, window.pixels), (Buffer::Scratch, 2, &[2, 3, 5, 6][..]));
    /// let window = plane.window(&inside, Mode::PlaneIfInside, &mut scratch)?;
    /// assert_eq!((window.buffer, window.stride, window.pixels), (Buffer::Plane, 3, &[2, 3, 4, 5, 6][..]));
    ///
    /// let across = Order { x: -1, ..inside };
    /// let window = plane.window(&across, Mode::PlaneIfInside, &mut scratch)?;
    /// assert_eq!((window.buffer, window.stride, window.pixels), (Buffer::Scratch, 2, &[1, 1, 4, 4][..]));
    /// # Ok::<(), hemavolups::Refusal>(())
    /// ```
    pub fn window(&self, order: &Order, mode: Mode, scratch: &'a mut [P]) -> Result<Part<'a, P>, Refusal> {
        let Plane { frame, name, pixels, stride } = self;
        let Order { x, y, w, h, kind } = *order;
        let mut answer = Answer::default();
        #[rustfmt::skip]
        let number = unsafe {
            P::window(
                frame.luma_w, frame.luma_h, frame.ss_hor, frame.ss_ver, *name as u32, pixels.as_ptr(), pixels.len(),
                *stride, kind.number(), w, h, x, y, mode as u32, scratch.as_mut_ptr(), scratch.len(),
                &mut answer.buffer, &mut answer.place, &mut answer.stride, &mut answer.len,
            )
        };
        done(number).map(|()| answer.part(pixels, scratch))
    }

    /// One row of the plane.
    ///
    /// ```
    /// use hemavolups::{Frame, Plane, PlaneName, Refusal};
    ///
    /// let frame = Frame { luma_w: 3, luma_h: 2, ss_hor: false, ss_ver: false };
    /// let plane = Plane { frame, name: PlaneName::Luma, pixels: &[1u8, 2, 3, 4, 5, 6], stride: 3 };
    /// assert_eq!(plane.row(1)?.pixels, [4, 5, 6]);
    /// assert_eq!(plane.row(2), Err(Refusal::Number));
    /// # Ok::<(), hemavolups::Refusal>(())
    /// ```
    pub fn row(&self, row: i64) -> Result<Part<'a, P>, Refusal> {
        let Plane { frame, name, pixels, stride } = self;
        let mut answer = Answer::default();
        #[rustfmt::skip]
        let number = unsafe {
            P::row(
                frame.luma_w, frame.luma_h, frame.ss_hor, frame.ss_ver, *name as u32, pixels.as_ptr(), pixels.len(),
                *stride, row, &mut answer.buffer, &mut answer.place, &mut answer.stride, &mut answer.len,
            )
        };
        done(number).map(|()| answer.part(pixels, &[]))
    }
}
