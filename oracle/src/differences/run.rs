//! The original, run on a call's own buffers, so that what it wrote before a panic is seen.

mod filtered;
mod motion;
mod scaled;

use original::mc;

use crate::answer::Px;
use crate::calls::combine::{Avg, Blend, Mask, Morph, WAvg, WMask};
use crate::calls::copy::{Prep, Put};
use crate::calls::edge::EmuEdge;

/// A call that the original can be run on.
pub trait Run {
    /// Runs it. What it tells beside its buffers is given in words.
    fn run(&mut self) -> String;
}

/// A run that tells nothing beside its buffers.
fn silent(_: ()) -> String {
    String::new()
}

impl<P: Px> Run for Put<P> {
    fn run(&mut self) -> String {
        silent(mc::put(&mut self.dst, self.dst_stride, &self.src, self.src_stride, self.w, self.h))
    }
}

impl<P: Px> Run for Prep<P> {
    fn run(&mut self) -> String {
        let depth = P::depth(self.depth);
        silent(mc::prep(depth, &mut self.tmp, self.tmp_stride, &self.src, self.src_stride, self.w, self.h))
    }
}

impl<P: Px> Run for Avg<P> {
    fn run(&mut self) -> String {
        let (depth, c) = (P::depth(self.0.depth), &mut self.0);
        silent(mc::avg(depth, &mut c.dst, c.dst_stride, &c.tmp1, &c.tmp2, c.w, c.h))
    }
}

impl<P: Px> Run for WAvg<P> {
    fn run(&mut self) -> String {
        let (depth, c) = (P::depth(self.pair.depth), &mut self.pair);
        silent(mc::w_avg(depth, &mut c.dst, c.dst_stride, &c.tmp1, &c.tmp2, c.w, c.h, self.weight))
    }
}

impl<P: Px> Run for Mask<P> {
    fn run(&mut self) -> String {
        let (depth, c) = (P::depth(self.pair.depth), &mut self.pair);
        silent(mc::mask_fn(depth, &mut c.dst, c.dst_stride, &c.tmp1, &c.tmp2, c.w, c.h, &self.mask))
    }
}

impl<P: Px> Run for Blend<P> {
    fn run(&mut self) -> String {
        silent(mc::blend(&mut self.dst, self.dst_stride, &self.tmp, self.w, self.h, &self.mask))
    }
}

impl<P: Px> Run for Morph<P> {
    fn run(&mut self) -> String {
        let depth = P::depth(self.depth);
        silent(mc::morph(depth, &mut self.dst, self.dst_stride, self.alpha, self.beta, self.w, self.h))
    }
}

impl<P: Px> Run for WMask<P> {
    fn run(&mut self) -> String {
        let WMask { pair, mask, mask_stride, sign, ss_hor, ss_ver } = self;
        let (w, h, stride, depth) = (pair.w, pair.h, pair.dst_stride, P::depth(pair.depth));
        let (dst, tmp1, tmp2) = (&mut pair.dst, &pair.tmp1, &pair.tmp2);
        silent(mc::w_mask(depth, dst, stride, tmp1, tmp2, w, h, mask, *mask_stride, *sign, *ss_hor, *ss_ver))
    }
}

impl<P: Px> Run for EmuEdge<P> {
    fn run(&mut self) -> String {
        let EmuEdge { bw, bh, iw, ih, dst_stride, plane_stride, .. } = *self;
        let (x, y) = (self.x as isize, self.y as isize);
        silent(mc::emu_edge(bw, bh, iw, ih, x, y, &mut self.dst, dst_stride, &self.plane, plane_stride))
    }
}
