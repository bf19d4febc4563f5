//! The scaled kernels. The original's own ext table is lent to 8-tap too: type -1 takes it.

use original::mc;
use original::tables::with_tables;

use super::{Run, silent};
use crate::answer::Px;
use crate::calls::scaled::{Prep8tapScaled, PrepBilinScaled, Put8tapScaled, PutBilinScaled, Source};
use crate::tables::real_ext;

impl<P: Px> Run for Put8tapScaled<P> {
    fn run(&mut self) -> String {
        let (f, dst, stride, kind) = (&self.from, &mut self.dst, self.dst_stride, self.by.filter_type);
        let Source { src_off, w, h, mx, my, dx, dy, .. } = *f;
        let (ss, depth) = (f.src_stride as isize, P::depth(f.depth));
        silent(with_tables(&self.by.subpel, &real_ext(), &[], &[], || {
            mc::put_8tap_scaled(depth, dst, stride, &f.src, src_off, ss, w, h, mx, my, dx, dy, kind)
        }))
    }
}

impl<P: Px> Run for Prep8tapScaled<P> {
    fn run(&mut self) -> String {
        let (f, tmp, stride, kind) = (&self.from, &mut self.tmp, self.tmp_stride, self.by.filter_type);
        let Source { src_off, w, h, mx, my, dx, dy, .. } = *f;
        let (ss, depth) = (f.src_stride as isize, P::depth(f.depth));
        silent(with_tables(&self.by.subpel, &real_ext(), &[], &[], || {
            mc::prep_8tap_scaled(depth, tmp, stride, &f.src, src_off, ss, w, h, mx, my, dx, dy, kind)
        }))
    }
}

impl<P: Px> Run for PutBilinScaled<P> {
    fn run(&mut self) -> String {
        let (f, dst, stride, ss) = (&self.from, &mut self.dst, self.dst_stride, self.from.src_stride as isize);
        let depth = P::depth(f.depth);
        silent(mc::put_bilin_scaled(depth, dst, stride, &f.src, f.src_off, ss, f.w, f.h, f.mx, f.my, f.dx, f.dy))
    }
}

impl<P: Px> Run for PrepBilinScaled<P> {
    fn run(&mut self) -> String {
        let (f, tmp, stride, ss) = (&self.from, &mut self.tmp, self.tmp_stride, self.from.src_stride as isize);
        let depth = P::depth(f.depth);
        silent(mc::prep_bilin_scaled(depth, tmp, stride, &f.src, f.src_off, ss, f.w, f.h, f.mx, f.my, f.dx, f.dy))
    }
}
