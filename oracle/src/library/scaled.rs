//! The four scaled kernels.

use super::{Library, pixels, shorts};
use crate::answer::{Answer, Px};
use crate::ask::Answers;
use crate::calls::scaled::{Prep8tapScaled, PrepBilinScaled, Put8tapScaled, PutBilinScaled, Source};
use crate::lend::{Ground, lend};

impl<P: Px, A: archive::Put8tapScaled<P>, G: Ground> Answers<Put8tapScaled<P>> for Library<A, G> {
    const REFUSES: bool = true;
    const THERE: bool = A::THERE;

    fn answer(Put8tapScaled { dst, dst_stride, from, by }: &Put8tapScaled<P>) -> Answer {
        let Source { depth, src_off, src_stride, w, h, mx, my, dx, dy, .. } = *from;
        let mut dst = lend::<G, _>("dst", dst);
        let (mut src, mut subpel) = (lend::<G, _>("src", &from.src), lend::<G, _>("subpel", &by.subpel));
        let (to, at, table) = (dst.start(), src.start(), subpel.start());
        #[rustfmt::skip]
        let number = unsafe {
            A::call(depth, to, dst.len(), *dst_stride, at, src.len(), src_off, src_stride, w, h, mx, my, dx, dy,
                    by.filter_type, table, subpel.len())
        };
        pixels(number, &dst, src.kept().or(subpel.kept()))
    }
}

impl<P: Px, A: archive::Prep8tapScaled<P>, G: Ground> Answers<Prep8tapScaled<P>> for Library<A, G> {
    const REFUSES: bool = true;
    const THERE: bool = A::THERE;

    fn answer(Prep8tapScaled { tmp, tmp_stride, from, by }: &Prep8tapScaled<P>) -> Answer {
        let Source { depth, src_off, src_stride, w, h, mx, my, dx, dy, .. } = *from;
        let mut tmp = lend::<G, _>("tmp", tmp);
        let (mut src, mut subpel) = (lend::<G, _>("src", &from.src), lend::<G, _>("subpel", &by.subpel));
        let (to, at, table) = (tmp.start(), src.start(), subpel.start());
        #[rustfmt::skip]
        let number = unsafe {
            A::call(depth, to, tmp.len(), *tmp_stride, at, src.len(), src_off, src_stride, w, h, mx, my, dx, dy,
                    by.filter_type, table, subpel.len())
        };
        shorts(number, &tmp, src.kept().or(subpel.kept()))
    }
}

impl<P: Px, A: archive::PutBilinScaled<P>, G: Ground> Answers<PutBilinScaled<P>> for Library<A, G> {
    const REFUSES: bool = true;
    const THERE: bool = A::THERE;

    fn answer(PutBilinScaled { dst, dst_stride, from }: &PutBilinScaled<P>) -> Answer {
        let Source { depth, src_off, src_stride, w, h, mx, my, dx, dy, .. } = *from;
        let mut dst = lend::<G, _>("dst", dst);
        let mut src = lend::<G, _>("src", &from.src);
        let (to, at) = (dst.start(), src.start());
        #[rustfmt::skip]
        let number = unsafe {
            A::call(depth, to, dst.len(), *dst_stride, at, src.len(), src_off, src_stride, w, h, mx, my, dx, dy)
        };
        pixels(number, &dst, src.kept())
    }
}

impl<P: Px, A: archive::PrepBilinScaled<P>, G: Ground> Answers<PrepBilinScaled<P>> for Library<A, G> {
    const REFUSES: bool = true;
    const THERE: bool = A::THERE;

    fn answer(PrepBilinScaled { tmp, tmp_stride, from }: &PrepBilinScaled<P>) -> Answer {
        let Source { depth, src_off, src_stride, w, h, mx, my, dx, dy, .. } = *from;
        let mut tmp = lend::<G, _>("tmp", tmp);
        let mut src = lend::<G, _>("src", &from.src);
        let (to, at) = (tmp.start(), src.start());
        #[rustfmt::skip]
        let number = unsafe {
            A::call(depth, to, tmp.len(), *tmp_stride, at, src.len(), src_off, src_stride, w, h, mx, my, dx, dy)
        };
        shorts(number, &tmp, src.kept())
    }
}
