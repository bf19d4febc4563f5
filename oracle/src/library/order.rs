//! order_put and order_prep.

use super::{Library, pixels, shorts};
use crate::answer::{Answer, Px, Room};
use crate::ask::Answers;
use crate::calls::order::{Motion, Order, OrderPrep, OrderPut};
use crate::calls::window::{Block, Reference};
use crate::lend::{Ground, Lent, lend};

/// What both runs read, and scratch, lent.
struct Read<'a, P: Px, G: Ground> {
    plane: Lent<'a, P, G>,
    subpel: Lent<'a, i8, G>,
    ext: Lent<'a, i8, G>,
    warp: Lent<'a, i8, G>,
    scratch: Lent<'a, P, G>,
}

/// Lends what both runs have.
fn lend_order<P: Px, G: Ground>(order: &Order<P>) -> Read<'_, P, G> {
    Read {
        plane: lend("plane", &order.from.plane),
        subpel: lend("subpel", &order.motion.subpel),
        ext: lend("ext", &order.motion.ext),
        warp: lend("warp", &order.motion.warp),
        scratch: lend("scratch", &order.scratch),
    }
}

impl<P: Px, G: Ground> Read<'_, P, G> {
    /// What of it has changed, or beside scratch.
    fn kept(&self) -> Option<String> {
        let tables = self.subpel.kept().or(self.ext.kept()).or(self.warp.kept());
        self.plane.kept().or(tables).or(self.scratch.guards())
    }

    /// The answer with scratch before the destination.
    fn with_scratch(&self, mut answer: Answer) -> Answer {
        answer.buffers.insert(0, P::buffer(Room(self.scratch.now().to_vec())));
        answer
    }
}

impl<P: Px, A: archive::OrderPut<P>, G: Ground> Answers<OrderPut<P>> for Library<A, G> {
    const REFUSES: bool = true;
    const THERE: bool = A::THERE;

    fn answer(OrderPut { order, dst, dst_stride }: &OrderPut<P>) -> Answer {
        let Reference { luma_w, luma_h, ss_hor, ss_ver, plane_no, plane_stride, .. } = order.from;
        let Block { kind, x, y, w, h } = order.block;
        let Motion { mx, my, filter_type, abcd: [a, b, c, d], .. } = order.motion;
        let mut dst = lend::<G, _>("dst", dst);
        let mut read = lend_order::<P, G>(order);
        let (plane, scratch, to) = (read.plane.start(), read.scratch.start(), dst.start());
        let (subpel, ext, warp) = (read.subpel.start(), read.ext.start(), read.warp.start());
        #[rustfmt::skip]
        let number = unsafe {
            A::call(order.depth, luma_w, luma_h, ss_hor, ss_ver, plane_no, plane, read.plane.len(), plane_stride,
                    kind, x, y, w, h, mx, my, filter_type, a, b, c, d, subpel, read.subpel.len(), ext, read.ext.len(),
                    warp, read.warp.len(), scratch, read.scratch.len(), to, dst.len(), *dst_stride)
        };
        read.with_scratch(pixels(number, &dst, read.kept()))
    }
}

impl<P: Px, A: archive::OrderPrep<P>, G: Ground> Answers<OrderPrep<P>> for Library<A, G> {
    const REFUSES: bool = true;
    const THERE: bool = A::THERE;

    fn answer(OrderPrep { order, tmp, tmp_stride }: &OrderPrep<P>) -> Answer {
        let Reference { luma_w, luma_h, ss_hor, ss_ver, plane_no, plane_stride, .. } = order.from;
        let Block { kind, x, y, w, h } = order.block;
        let Motion { mx, my, filter_type, abcd: [a, b, c, d], .. } = order.motion;
        let mut tmp = lend::<G, _>("tmp", tmp);
        let mut read = lend_order::<P, G>(order);
        let (plane, scratch, to) = (read.plane.start(), read.scratch.start(), tmp.start());
        let (subpel, ext, warp) = (read.subpel.start(), read.ext.start(), read.warp.start());
        #[rustfmt::skip]
        let number = unsafe {
            A::call(order.depth, luma_w, luma_h, ss_hor, ss_ver, plane_no, plane, read.plane.len(), plane_stride,
                    kind, x, y, w, h, mx, my, filter_type, a, b, c, d, subpel, read.subpel.len(), ext, read.ext.len(),
                    warp, read.warp.len(), scratch, read.scratch.len(), to, tmp.len(), *tmp_stride)
        };
        read.with_scratch(shorts(number, &tmp, read.kept()))
    }
}
