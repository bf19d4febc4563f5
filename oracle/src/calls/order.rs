//! Calls of order_put and order_prep.

use super::window::{self, Block, Reference, Wrong};
use super::{Call, subpel, warp};
use crate::answer::{Buffer, Px, Room};
use crate::limits::{self, Faults, need};
use crate::rng::Rng;
use crate::tables;

/// The numbers and tables that an order has beside its block; a kind uses some of them.
#[derive(Clone, Debug)]
pub struct Motion {
    pub mx: i32,
    pub my: i32,
    pub filter_type: i32,
    pub abcd: [i16; 4],
    pub subpel: Room<i8>,
    pub ext: Room<i8>,
    pub warp: Room<i8>,
}

/// What both runs of an order read, and the scratch that they fill.
#[derive(Clone, Debug)]
pub struct Order<P> {
    pub depth: i32,
    pub from: Reference<P>,
    pub block: Block,
    pub motion: Motion,
    pub scratch: Room<P>,
}

#[derive(Clone, Debug)]
pub struct OrderPut<P> {
    pub order: Order<P>,
    pub dst: Room<P>,
    pub dst_stride: usize,
}

#[derive(Clone, Debug)]
pub struct OrderPrep<P> {
    pub order: Order<P>,
    pub tmp: Room<i16>,
    pub tmp_stride: usize,
}

/// The numbers of a kind that has none or few: what it doesn't have may be anything.
fn plain(rng: &mut Rng, numbers_wrong: [bool; 3]) -> Motion {
    let [any_type, bad_mx, bad_my] = numbers_wrong;
    Motion {
        mx: limits::fraction(rng, 15, bad_mx),
        my: limits::fraction(rng, 15, bad_my),
        filter_type: limits::filter_type(rng, any_type),
        abcd: [0; 4].map(|_| rng.next() as i16),
        subpel: tables::subpel(rng, false),
        ext: subpel::ext_table(rng, false),
        warp: tables::filters(rng, 3, false),
    }
}

/// Draws what an order of a kind has beside its block.
pub fn motion(rng: &mut Rng, faults: &Faults, kind: u32, numbers_wrong: [bool; 3]) -> Motion {
    let [bad_type, bad_mx, bad_my] = numbers_wrong;
    let mut motion = plain(rng, numbers_wrong);
    if kind == 1 {
        let subpel::Motion { filter_type, mx, my, subpel, ext } = subpel::motion(rng, faults, numbers_wrong);
        motion = Motion { filter_type, mx, my, subpel, ext, ..motion };
    }
    if kind == 3 {
        // A warp order has no type to be wrong, so a start is.
        let warp::Shears { abcd, mx, my, warp } = warp::shears(rng, faults, [bad_mx || bad_type, bad_my]);
        motion = Motion { abcd, mx, my, warp, ..motion };
    }
    // The length of each table is tested, whatever the kind.
    if faults.has(4) && (kind != 1 && kind != 3 || rng.chance(30)) {
        let length = motion.subpel.len() + 8;
        match rng.range(0, 2) {
            0 => motion.subpel = limits::filter_bytes(rng, length),
            1 => motion.ext.push(1),
            _ => motion.warp.push(1),
        }
    }
    motion
}

/// Sides of a block of a kind; a wrong one of a warped block may be any but 8.
fn sides(rng: &mut Rng, kind: u32, wrong: [bool; 2]) -> [usize; 2] {
    wrong.map(|wrong| match (kind == 3, wrong) {
        (true, false) => 8,
        (true, true) if rng.chance(60) => rng.pick(&[1, 4, 7, 9, 16, 64]),
        _ => limits::side(rng, wrong),
    })
}

/// Draws the order, then the destination's stride and length.
fn draw<P: Px>(rng: &mut Rng, depth: i32, numbers: &[u32]) -> (Order<P>, usize, usize) {
    let faults = Faults::draw(rng, numbers);
    let [bad_w, bad_h, luma_w, luma_h] = faults.among(rng, 1);
    let [bad_to, stride] = faults.among(rng, 2);
    let [flags, plane_no, bad_kind, bad_x, bad_y, bad_type, bad_mx, bad_my, bad_depth] = faults.among(rng, 3);
    let [short_scratch, short_to] = faults.among(rng, 6);
    let wrong = Wrong { luma: [luma_w, luma_h], stride, flags, plane_no, place: [bad_x, bad_y] };
    // The byte set has no depth to be wrong, so the kind is.
    let kind = window::kind(rng, bad_kind || (bad_depth && !P::TAKES_DEPTH));
    let [w, h] = sides(rng, kind, [bad_w, bad_h]);
    let motion = motion(rng, &faults, kind, [bad_type, bad_mx, bad_my]);
    let (from, block) = window::place(rng, depth, &faults, &wrong, Block { kind, x: 0, y: 0, w, h });
    let scratch = window::scratch(rng, depth, &faults, &block, short_scratch);
    let to_stride = limits::stride(rng, w, h, bad_to);
    let to_length = faults.length(rng, need(h, to_stride, w), short_to);
    let depth = limits::depth::<P>(rng, depth, bad_depth);
    (Order { depth, from, block, motion, scratch }, to_stride, to_length)
}

impl<P: Px> Call for OrderPut<P> {
    const NAME: &'static str = "order_put";
    const NUMBERS: &'static [u32] = &[1, 2, 3, 4, 5, 6];
    const RESULTS: usize = 0;

    fn make(rng: &mut Rng, depth: i32) -> Self {
        let (order, dst_stride, length) = draw(rng, depth, Self::NUMBERS);
        OrderPut { order, dst: limits::pixels(rng, depth, length), dst_stride }
    }

    fn lent(&self) -> Vec<Buffer> {
        vec![P::buffer(self.order.scratch.clone()), P::buffer(self.dst.clone())]
    }
}

impl<P: Px> Call for OrderPrep<P> {
    const NAME: &'static str = "order_prep";
    const NUMBERS: &'static [u32] = &[1, 2, 3, 4, 5, 6];
    const RESULTS: usize = 0;

    fn make(rng: &mut Rng, depth: i32) -> Self {
        let (order, tmp_stride, length) = draw(rng, depth, Self::NUMBERS);
        OrderPrep { order, tmp: limits::words(rng, length), tmp_stride }
    }

    fn lent(&self) -> Vec<Buffer> {
        vec![P::buffer(self.order.scratch.clone()), Buffer::Shorts(self.tmp.clone())]
    }
}
