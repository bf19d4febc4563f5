//! The numbers of window, row and the orders.

use super::{
    Refuse, bad_block, bad_depth, bad_motion, bad_side, bad_starts, bad_stride, bad_subpel, filter_missing, outside,
    part_filter, past, short, warp_filter_missing,
};
use crate::answer::Px;
use crate::calls::order::{Motion, Order, OrderPrep, OrderPut};
use crate::calls::window::{Block, Reference, Row, Window};

/// Is a luma side outside its range? No plane has a side of 0 otherwise: half of 1, rounded up, is 1.
fn bad_frame<P>(from: &Reference<P>) -> bool {
    bad_side(from.luma_w, 16_384) || bad_side(from.luma_h, 16_384)
}

/// Is the plane neither luma nor chroma, or ss_ver set without ss_hor?
fn bad_names<P>(from: &Reference<P>) -> bool {
    from.plane_no > 1 || (from.ss_ver && !from.ss_hor)
}

/// Is a position outside ±2^30, or the kind none of the four?
fn bad_place(block: &Block) -> bool {
    past(block.x, 1 << 30) || past(block.y, 1 << 30) || block.kind > 3
}

/// Doesn't the plane hold its rows?
fn short_plane<P>(from: &Reference<P>) -> bool {
    let (iw, ih) = from.sides();
    short(&from.plane, ih, from.plane_stride, iw)
}

/// Doesn't scratch hold the block's window?
fn short_scratch<P>(scratch: &[P], block: &Block) -> bool {
    let window = block.window();
    short(scratch, window.h, window.w, window.w)
}

impl<P: Px> Refuse for Window<P> {
    fn number(&self) -> u32 {
        let Window { from, block, .. } = self;
        lowest! {
            1 if bad_frame(from) || bad_block(block.w, block.h),
            2 if bad_stride(from.plane_stride, from.sides().0),
            3 if bad_names(from) || bad_place(block) || self.mode > 1,
            5 if short_plane(from),
            6 if short_scratch(&self.scratch, block),
        }
    }
}

impl<P: Px> Refuse for Row<P> {
    fn number(&self) -> u32 {
        let from = &self.from;
        let (iw, ih) = from.sides();
        lowest! {
            1 if bad_frame(from),
            2 if bad_stride(from.plane_stride, iw),
            3 if bad_names(from) || outside(self.row as i128, 0, ih as i128 - 1),
            5 if short_plane(from),
        }
    }
}

/// Is a number that the kind has outside its range?
fn bad_numbers(kind: u32, motion: &Motion) -> bool {
    let Motion { mx, my, filter_type, .. } = *motion;
    match kind {
        1 => bad_motion(filter_type, mx, my),
        2 => outside(mx as i128, 0, 15) || outside(my as i128, 0, 15),
        3 => bad_starts(mx, my),
        _ => false,
    }
}

/// Has a table a wrong length, used or not, or does it lack a filter that the kind needs?
fn bad_tables(kind: u32, motion: &Motion) -> bool {
    let Motion { mx, my, filter_type, abcd, .. } = *motion;
    let missing = match kind {
        1 => filter_missing(&motion.ext, filter_type, mx, my),
        3 => warp_filter_missing(&motion.warp, abcd, mx, my),
        _ => false,
    };
    bad_subpel(&motion.subpel) || part_filter(&motion.ext) || part_filter(&motion.warp) || missing
}

/// The number of an order whose destination has this stride; `room` says that the destination is short.
fn order_number<P: Px>(order: &Order<P>, stride: usize, room: impl Fn() -> bool) -> u32 {
    let Order { from, block, motion, .. } = order;
    let not_8x8 = block.kind == 3 && (block.w != 8 || block.h != 8);
    lowest! {
        1 if bad_frame(from) || bad_block(block.w, block.h) || not_8x8,
        2 if bad_stride(from.plane_stride, from.sides().0) || bad_stride(stride, block.w),
        3 if bad_depth::<P>(order.depth) || bad_names(from) || bad_place(block) || bad_numbers(block.kind, motion),
        4 if bad_tables(block.kind, motion),
        5 if short_plane(from),
        6 if short_scratch(&order.scratch, block) || room(),
    }
}

impl<P: Px> Refuse for OrderPut<P> {
    fn number(&self) -> u32 {
        let Block { w, h, .. } = self.order.block;
        order_number(&self.order, self.dst_stride, || short(&self.dst, h, self.dst_stride, w))
    }
}

impl<P: Px> Refuse for OrderPrep<P> {
    fn number(&self) -> u32 {
        let Block { w, h, .. } = self.order.block;
        order_number(&self.order, self.tmp_stride, || short(&self.tmp, h, self.tmp_stride, w))
    }
}
