//! The kernel's call that an order comes down to, once its window is fetched, and whoever answers it.

use crate::answer::{Buffer, Px, Room};
use crate::ask::Answers;
use crate::calls::bilinear::{self, PrepBilin, PutBilin};
use crate::calls::copy::{Prep, Put};
use crate::calls::order::{Order, OrderPrep, OrderPut};
use crate::calls::subpel::{self, Prep8tap, Put8tap};
use crate::calls::warp::{self, WarpAffine, WarpAffineT};
use crate::calls::window::Block;

/// Pixels that begin at a window's first one, and their stride.
pub struct Fetched<P> {
    pub src: Room<P>,
    pub stride: usize,
}

impl<P: Px> Fetched<P> {
    /// The block's first place: three rows and columns stand before it.
    fn first(&self) -> usize {
        3 * self.stride + 3
    }

    /// What 8-tap reads.
    fn subpel(self, order: &Order<P>) -> subpel::Source<P> {
        let (Order { depth, motion, .. }, Block { w, h, .. }) = (order, order.block);
        let (subpel, ext) = (motion.subpel.clone(), motion.ext.clone());
        let (mx, my, filter_type) = (motion.mx, motion.my, motion.filter_type);
        let (src_off, src_stride) = (self.first(), self.stride);
        subpel::Source { depth: *depth, src: self.src, src_off, src_stride, w, h, mx, my, filter_type, subpel, ext }
    }

    /// What bilinear reads.
    fn bilinear(self, order: &Order<P>) -> bilinear::Source<P> {
        let (Order { depth, motion, .. }, Block { w, h, .. }) = (order, order.block);
        let (mx, my) = (motion.mx, motion.my);
        bilinear::Source { depth: *depth, src: self.src, src_stride: self.stride, w, h, mx, my }
    }

    /// What warp reads.
    fn warp(self, order: &Order<P>) -> warp::Source<P> {
        let Order { depth, motion, .. } = order;
        let (src_off, src_stride) = (self.first(), self.stride);
        let (abcd, mx, my, warp) = (motion.abcd, motion.mx, motion.my, motion.warp.clone());
        warp::Source { depth: *depth, src: self.src, src_stride, src_off, abcd, mx, my, warp }
    }
}

/// Somebody who answers each kernel.
pub trait Kernels<P>:
    Answers<Put<P>>
    + Answers<Prep<P>>
    + Answers<Put8tap<P>>
    + Answers<Prep8tap<P>>
    + Answers<PutBilin<P>>
    + Answers<PrepBilin<P>>
    + Answers<WarpAffine<P>>
    + Answers<WarpAffineT<P>>
{
}

impl<P, S> Kernels<P> for S where
    S: Answers<Put<P>>
        + Answers<Prep<P>>
        + Answers<Put8tap<P>>
        + Answers<Prep8tap<P>>
        + Answers<PutBilin<P>>
        + Answers<PrepBilin<P>>
        + Answers<WarpAffine<P>>
        + Answers<WarpAffineT<P>>
{
}

/// An order's destination after its kernel ran as put.
pub fn put<P: Px, S: Kernels<P>>(call: &OrderPut<P>, fetched: Fetched<P>) -> Option<Buffer> {
    let OrderPut { order, dst_stride, .. } = call;
    let (dst, dst_stride, Block { w, h, .. }) = (call.dst.clone(), *dst_stride, order.block);
    let answer = match order.block.kind {
        0 => S::answer(&Put { dst, dst_stride, src: fetched.src, src_stride: fetched.stride, w, h }),
        1 => S::answer(&Put8tap { dst, dst_stride, from: fetched.subpel(order) }),
        2 => S::answer(&PutBilin { dst, dst_stride, from: fetched.bilinear(order) }),
        _ => S::answer(&WarpAffine { dst, dst_stride, from: fetched.warp(order) }),
    };
    answer.buffers.into_iter().next()
}

/// An order's intermediates after its kernel ran as prep.
pub fn prep<P: Px, S: Kernels<P>>(call: &OrderPrep<P>, fetched: Fetched<P>) -> Option<Buffer> {
    let OrderPrep { order, tmp_stride, .. } = call;
    let (tmp, tmp_stride, Block { w, h, .. }) = (call.tmp.clone(), *tmp_stride, order.block);
    let depth = order.depth;
    let answer = match order.block.kind {
        0 => S::answer(&Prep { depth, tmp, tmp_stride, src: fetched.src, src_stride: fetched.stride, w, h }),
        1 => S::answer(&Prep8tap { tmp, tmp_stride, from: fetched.subpel(order) }),
        2 => S::answer(&PrepBilin { tmp, tmp_stride, from: fetched.bilinear(order) }),
        _ => S::answer(&WarpAffineT { tmp, tmp_stride, from: fetched.warp(order) }),
    };
    answer.buffers.into_iter().next()
}
