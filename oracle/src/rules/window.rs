//! window and row.

use super::Rules;
use crate::answer::{Answer, Px, Room};
use crate::calls::window::{ALWAYS_SCRATCH, Area, Block, Lie, PLANE_IF_INSIDE, Reference, Row, Window};

/// Where a block's window lies, in words.
fn lies<P>(from: &Reference<P>, block: &Block) -> &'static str {
    match from.lie(&block.window()) {
        Lie::Inside => "window inside the plane",
        Lie::Across => "window across a border",
        Lie::Outside => "window wholly outside",
    }
}

/// Whether the way a half is rounded matters, in words.
fn rounded<P>(from: &Reference<P>) -> Option<&'static str> {
    from.odd().then_some("chroma of an odd luma side")
}

/// Whether a window is in scratch though the plane has all of it, in words.
fn yet_in_scratch<P>(from: &Reference<P>, block: &Block, mode: u32) -> Option<&'static str> {
    let inside = from.lie(&block.window()) == Lie::Inside;
    (inside && mode == ALWAYS_SCRATCH).then_some("window inside the plane, yet in scratch")
}

/// What is to be told of a block's window in a mode.
pub fn told<P>(from: &Reference<P>, block: &Block, mode: u32) -> Vec<&'static str> {
    [lies(from, block)].into_iter().chain(yet_in_scratch(from, block, mode)).chain(rounded(from)).collect()
}

/// The endless plane's pixels in an area, without gaps: at column clamp(x+i, 0, iw-1), row clamp(y+j, 0, ih-1).
pub fn endless<P: Px>(from: &Reference<P>, area: &Area) -> Vec<P> {
    let (iw, ih) = from.sides();
    let clamped = |start: i64, step: usize, side: usize| (start + step as i64).clamp(0, side as i64 - 1) as usize;
    let places = (0..area.h).flat_map(|j| (0..area.w).map(move |i| (i, j)));
    let place = |(i, j)| clamped(area.y, j, ih) * from.plane_stride + clamped(area.x, i, iw);
    places.map(|at| from.plane[place(at)]).collect()
}

/// Scratch after a window's pixels came into it: only its first places change.
pub fn filled<P: Px>(scratch: &Room<P>, pixels: &[P]) -> Room<P> {
    let mut scratch = scratch.clone();
    scratch[..pixels.len()].copy_from_slice(pixels);
    scratch
}

/// Does a window answer with a part of the plane? Mode 0 never does; mode 1 if the whole window is inside it (E12).
pub fn in_plane<P>(from: &Reference<P>, block: &Block, mode: u32) -> bool {
    mode == PLANE_IF_INSIDE && from.lie(&block.window()) == Lie::Inside
}

/// Buffer, place, stride and length of a window's part. It begins at the window's first pixel and ends after its last.
pub fn part<P>(from: &Reference<P>, block: &Block, mode: u32) -> [i64; 4] {
    let Area { x, y, w, h } = block.window();
    let in_plane = in_plane(from, block, mode);
    let stride = if in_plane { from.plane_stride as i64 } else { w as i64 };
    let length = (h as i64 - 1) * stride + w as i64;
    if in_plane { [1, y * stride + x, stride, length] } else { [2, 0, stride, length] }
}

/// A window's answer, if this is what its scratch is filled with.
pub fn answer<P: Px>(call: &Window<P>, pixels: impl FnOnce() -> Vec<P>) -> Answer {
    let Window { from, block, mode, scratch } = call;
    let after = if in_plane(from, block, *mode) { scratch.clone() } else { filled(scratch, &pixels()) };
    Answer::done(part(from, block, *mode).to_vec(), vec![P::buffer(after)])
}

impl<P: Px> Rules for Window<P> {
    fn rule(&self) -> Answer {
        answer(self, || endless(&self.from, &self.block.window()))
    }

    fn rare(&self) -> Vec<&'static str> {
        told(&self.from, &self.block, self.mode)
    }
}

impl<P: Px> Rules for Row<P> {
    // One row of the plane, as a part of it.
    fn rule(&self) -> Answer {
        let stride = self.from.plane_stride as i64;
        Answer::done(vec![1, self.row * stride, stride, self.from.sides().0 as i64], vec![])
    }

    fn rare(&self) -> Vec<&'static str> {
        rounded(&self.from).into_iter().collect()
    }
}
