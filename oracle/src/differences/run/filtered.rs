//! 8-tap, bilinear and warp.

use original::mc;
use original::tables::with_tables;

use super::{Run, silent};
use crate::answer::Px;
use crate::calls::bilinear::{PrepBilin, PutBilin};
use crate::calls::subpel::{Prep8tap, Put8tap};
use crate::calls::warp::{WarpAffine, WarpAffineT};

impl<P: Px> Run for Put8tap<P> {
    fn run(&mut self) -> String {
        let (f, dst, stride, depth) = (&self.from, &mut self.dst, self.dst_stride, P::depth(self.from.depth));
        silent(with_tables(&f.subpel, &f.ext, &[], &[], || {
            mc::put_8tap(depth, dst, stride, &f.src, f.src_off, f.src_stride, f.w, f.h, f.mx, f.my, f.filter_type)
        }))
    }
}

impl<P: Px> Run for Prep8tap<P> {
    fn run(&mut self) -> String {
        let (f, tmp, stride, depth) = (&self.from, &mut self.tmp, self.tmp_stride, P::depth(self.from.depth));
        silent(with_tables(&f.subpel, &f.ext, &[], &[], || {
            mc::prep_8tap(depth, tmp, stride, &f.src, f.src_off, f.src_stride, f.w, f.h, f.mx, f.my, f.filter_type)
        }))
    }
}

impl<P: Px> Run for PutBilin<P> {
    fn run(&mut self) -> String {
        let (f, dst, stride, depth) = (&self.from, &mut self.dst, self.dst_stride, P::depth(self.from.depth));
        silent(mc::put_bilin(depth, dst, stride, &f.src, f.src_stride, f.w, f.h, f.mx, f.my))
    }
}

impl<P: Px> Run for PrepBilin<P> {
    fn run(&mut self) -> String {
        let (f, tmp, stride, depth) = (&self.from, &mut self.tmp, self.tmp_stride, P::depth(self.from.depth));
        silent(mc::prep_bilin(depth, tmp, stride, &f.src, f.src_stride, f.w, f.h, f.mx, f.my))
    }
}

impl<P: Px> Run for WarpAffine<P> {
    fn run(&mut self) -> String {
        let (f, dst, stride, depth) = (&self.from, &mut self.dst, self.dst_stride, P::depth(self.from.depth));
        silent(with_tables(&[], &[], &f.warp, &[], || {
            mc::warp_affine_8x8(depth, dst, stride, &f.src, f.src_stride, f.src_off, &f.abcd, f.mx, f.my)
        }))
    }
}

impl<P: Px> Run for WarpAffineT<P> {
    fn run(&mut self) -> String {
        let (f, tmp, stride, depth) = (&self.from, &mut self.tmp, self.tmp_stride, P::depth(self.from.depth));
        silent(with_tables(&[], &[], &f.warp, &[], || {
            mc::warp_affine_8x8t(depth, tmp, stride, &f.src, f.src_stride, f.src_off, &f.abcd, f.mx, f.my)
        }))
    }
}
