//! Calls of window and row.

use super::{Call, edge};
use crate::answer::{Buffer, Px, Room};
use crate::limits::{self, Faults, need};
use crate::rng::Rng;

/// The greatest luma side.
const LUMA: usize = 16_384;

/// The mode of a window that is always in scratch, the default (E12).
pub const ALWAYS_SCRATCH: u32 = 0;
/// The mode of a window that is a part of the plane where it is inside.
pub const PLANE_IF_INSIDE: u32 = 1;

/// A frame, the plane of it that a call names, and that plane's pixels.
#[derive(Clone, Debug)]
pub struct Reference<P> {
    pub luma_w: usize,
    pub luma_h: usize,
    pub ss_hor: bool,
    pub ss_ver: bool,
    pub plane_no: u32,
    pub plane: Room<P>,
    pub plane_stride: usize,
}

/// Where an area lies to a plane: with all of its pixels inside, with some, or with none.
#[derive(Clone, Copy, Debug, PartialEq)]
pub enum Lie {
    Inside,
    Across,
    Outside,
}

impl<P> Reference<P> {
    /// Width and height of the named plane: chroma's are luma's divided by two, rounded up, where the flag is set.
    pub fn sides(&self) -> (usize, usize) {
        let side = |luma: usize, halved: bool| if halved { luma.div_ceil(2) } else { luma };
        let [across, down] = self.halved();
        (side(self.luma_w, across), side(self.luma_h, down))
    }

    /// Has the named plane half of luma's width; of its height?
    fn halved(&self) -> [bool; 2] {
        [self.ss_hor, self.ss_ver].map(|flag| self.plane_no == 1 && flag)
    }

    /// Is half of an odd luma side a side of the named plane? Only then does it matter which way a half is rounded.
    pub fn odd(&self) -> bool {
        let [across, down] = self.halved();
        (across && self.luma_w % 2 == 1) || (down && self.luma_h % 2 == 1)
    }

    /// Where an area lies to the named plane.
    pub fn lie(&self, area: &Area) -> Lie {
        let (iw, ih) = self.sides();
        let inside = |start: i64, n: usize, side: usize| start >= 0 && start + n as i64 <= side as i64;
        let outside = |start: i64, n: usize, side: usize| start + n as i64 <= 0 || start >= side as i64;
        if inside(area.x, area.w, iw) && inside(area.y, area.h, ih) {
            Lie::Inside
        } else if outside(area.x, area.w, iw) || outside(area.y, area.h, ih) {
            Lie::Outside
        } else {
            Lie::Across
        }
    }
}

/// A block at its place on the reference plane; kind 0 copy, 1 8-tap, 2 bilinear, 3 warp.
#[derive(Clone, Copy, Debug)]
pub struct Block {
    pub kind: u32,
    pub x: i64,
    pub y: i64,
    pub w: usize,
    pub h: usize,
}

/// Columns and rows of the endless plane.
#[derive(Clone, Copy, Debug)]
pub struct Area {
    pub x: i64,
    pub y: i64,
    pub w: usize,
    pub h: usize,
}

/// Margins before and after a block of a kind, on both axes.
fn margins(kind: u32) -> (usize, usize) {
    match kind {
        1 | 3 => (3, 4),
        2 => (0, 1),
        _ => (0, 0),
    }
}

impl Block {
    /// The block's own pixels.
    pub fn area(&self) -> Area {
        Area { x: self.x, y: self.y, w: self.w, h: self.h }
    }

    /// The block's window. A number far outside its range stops at the top; it is refused before its window is used.
    pub fn window(&self) -> Area {
        let (before, after) = margins(self.kind);
        let start = |place: i64| place.saturating_sub(before as i64);
        let side = |side: usize| side.saturating_add(before + after);
        Area { x: start(self.x), y: start(self.y), w: side(self.w), h: side(self.h) }
    }
}

#[derive(Clone, Debug)]
pub struct Window<P> {
    pub from: Reference<P>,
    pub block: Block,
    pub mode: u32,
    pub scratch: Room<P>,
}

#[derive(Clone, Debug)]
pub struct Row<P> {
    pub from: Reference<P>,
    pub row: i64,
}

/// What goes wrong with a reference, and with the place of a block on it.
#[derive(Default)]
pub struct Wrong {
    pub luma: [bool; 2],
    pub stride: bool,
    pub flags: bool,
    pub plane_no: bool,
    pub place: [bool; 2],
}

/// A luma side for a side of the named plane, which may be half of it, of an odd one as of an even one; or one outside.
fn luma(rng: &mut Rng, side: usize, halved: bool, wrong: bool) -> usize {
    match (wrong, halved) {
        (true, _) => limits::side_up_to(rng, LUMA, true),
        (false, true) => (2 * side - rng.place(0, 1)).min(LUMA),
        (false, false) => side,
    }
}

/// Draws a reference whose named plane has these sides, where nothing is wrong and luma's don't grow too great.
fn reference<P: Px>(rng: &mut Rng, depth: i32, faults: &Faults, wrong: &Wrong, sides: [usize; 2]) -> Reference<P> {
    let (ss_hor, ss_ver) =
        if wrong.flags { (false, true) } else { rng.pick(&[(false, false), (true, false), (true, true)]) };
    let plane_no = if wrong.plane_no { rng.pick(&[2, 2, 3, 256, 257, 1 << 31, u32::MAX]) } else { rng.pick(&[0, 1]) };
    let chroma = plane_no == 1;
    let luma_w = luma(rng, sides[0], chroma && ss_hor, wrong.luma[0]);
    let luma_h = luma(rng, sides[1], chroma && ss_ver, wrong.luma[1]);
    let mut from = Reference { luma_w, luma_h, ss_hor, ss_ver, plane_no, plane: Room(vec![]), plane_stride: 0 };
    let (iw, ih) = from.sides();
    from.plane_stride = limits::stride(rng, iw, ih, wrong.stride);
    let length = faults.length(rng, need(ih, from.plane_stride, iw), faults.has(5));
    from.plane = limits::pixels(rng, depth, length);
    from
}

/// A plane's sides for a window's: with room for it, or any.
fn plane_sides(rng: &mut Rng, window: &Area, roomy: bool) -> [usize; 2] {
    if roomy {
        return [window.w, window.h].map(|side| side.min(128) + rng.place(0, 12));
    }
    // One side of the plane at most is great.
    let great = rng.pick(&[1, 2, 0, 0, 0, 0, 0, 0, 0, 0, 0, 0, 0, 0, 0, 0, 0, 0, 0, 0]);
    [edge::plane_side(rng, window.w, great == 1, false), edge::plane_side(rng, window.h, great == 2, false)]
}

/// The first column or row of a window of this side, which is to lie so to a plane of that side.
fn start(rng: &mut Rng, window: usize, plane: usize, aim: Lie) -> i64 {
    let (n, side) = (window as i64, plane as i64);
    match aim {
        Lie::Inside if window <= plane => {
            let any = rng.range(0, side - n);
            rng.pick(&[0, side - n, any])
        }
        Lie::Across => {
            let any = rng.range(1 - n, side - 1);
            rng.pick(&[1 - n, -1, side - n + 1, side - 1, any, any, any])
        }
        // These lie anywhere, many far away.
        _ => edge::position(rng, window, plane, false),
    }
}

/// A block's position by its window's side and the plane's, or one outside its range.
fn position(rng: &mut Rng, before: usize, [window, plane]: [usize; 2], aim: Lie, wrong: bool) -> i64 {
    // A side outside its range is refused wherever the window begins.
    if wrong || window > 200 || plane > LUMA {
        return edge::position(rng, window, plane, wrong);
    }
    let start = start(rng, window, plane, aim);
    // Far away it is the block that stands at a limit; about the plane it is its window.
    let far = !(-20_000..=40_000).contains(&start);
    if far { start } else { start + before as i64 }
}

/// Draws a reference and the place of a block of this kind and size on it.
pub fn place<P: Px>(
    rng: &mut Rng,
    depth: i32,
    faults: &Faults,
    wrong: &Wrong,
    mut block: Block,
) -> (Reference<P>, Block) {
    let (window, before) = (block.window(), margins(block.kind).0);
    let aim = rng.pick(&[Lie::Inside, Lie::Across, Lie::Outside]);
    let sides = plane_sides(rng, &window, aim == Lie::Inside);
    let from = reference::<P>(rng, depth, faults, wrong, sides);
    let (iw, ih) = from.sides();
    block.x = position(rng, before, [window.w, iw], aim, wrong.place[0]);
    block.y = position(rng, before, [window.h, ih], aim, wrong.place[1]);
    (from, block)
}

/// One of the four kinds, or another number.
pub fn kind(rng: &mut Rng, wrong: bool) -> u32 {
    if wrong { rng.pick(&[4, 4, 5, 7, 256, 257, 1 << 31, u32::MAX]) } else { rng.pick(&[0, 1, 2, 3]) }
}

/// Scratch for a block's window, or one that is short.
pub fn scratch<P: Px>(rng: &mut Rng, depth: i32, faults: &Faults, block: &Block, short: bool) -> Room<P> {
    let window = block.window();
    let length = faults.length(rng, need(window.h, window.w, window.w), short);
    limits::pixels(rng, depth, length)
}

impl<P: Px> Call for Window<P> {
    const NAME: &'static str = "window";
    const NUMBERS: &'static [u32] = &[1, 2, 3, 5, 6];
    const RESULTS: usize = 4;

    fn make(rng: &mut Rng, depth: i32) -> Self {
        let faults = Faults::draw(rng, Self::NUMBERS);
        let [bad_w, bad_h, luma_w, luma_h] = faults.among(rng, 1);
        let [flags, plane_no, bad_kind, bad_x, bad_y, bad_mode] = faults.among(rng, 3);
        let wrong = Wrong { luma: [luma_w, luma_h], stride: faults.has(2), flags, plane_no, place: [bad_x, bad_y] };
        let kind = kind(rng, bad_kind);
        let (w, h) = (limits::side(rng, bad_w), limits::side(rng, bad_h));
        let (from, block) = place(rng, depth, &faults, &wrong, Block { kind, x: 0, y: 0, w, h });
        let modes: &[u32] =
            if bad_mode { &[2, 2, 3, 256, 1 << 31, u32::MAX] } else { &[ALWAYS_SCRATCH, PLANE_IF_INSIDE] };
        let mode = rng.pick(modes);
        let scratch = scratch(rng, depth, &faults, &block, faults.has(6));
        Window { from, block, mode, scratch }
    }

    fn lent(&self) -> Vec<Buffer> {
        vec![P::buffer(self.scratch.clone())]
    }
}

/// A row of a plane of this height, or one outside.
fn row(rng: &mut Rng, height: usize, wrong: bool) -> i64 {
    let height = height as i64;
    if wrong {
        return rng.pick(&[-1, -1, height, height, -height, 1 << 32, -(1 << 32), i64::MIN, i64::MAX]);
    }
    let last = (height - 1).clamp(0, 20_000);
    let any = rng.range(0, last);
    rng.pick(&[0, last, any, any])
}

impl<P: Px> Call for Row<P> {
    const NAME: &'static str = "row";
    const NUMBERS: &'static [u32] = &[1, 2, 3, 5];
    const RESULTS: usize = 4;

    fn make(rng: &mut Rng, depth: i32) -> Self {
        let faults = Faults::draw(rng, Self::NUMBERS);
        let luma = faults.among(rng, 1);
        let [flags, plane_no, bad_row] = faults.among(rng, 3);
        let wrong = Wrong { luma, stride: faults.has(2), flags, plane_no, place: [false; 2] };
        let sides = plane_sides(rng, &Area { x: 0, y: 0, w: 8, h: 8 }, false);
        let from = reference(rng, depth, &faults, &wrong, sides);
        let height = from.sides().1;
        Row { from, row: row(rng, height, bad_row) }
    }

    fn lent(&self) -> Vec<Buffer> {
        vec![]
    }
}
