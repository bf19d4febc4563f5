//! put_bilin and prep_bilin.

use super::{Library, pixels, shorts};
use crate::answer::{Answer, Px};
use crate::ask::Answers;
use crate::calls::bilinear::{PrepBilin, PutBilin, Source};
use crate::lend::{Ground, lend};

impl<P: Px, A: archive::PutBilin<P>, G: Ground> Answers<PutBilin<P>> for Library<A, G> {
    const REFUSES: bool = true;
    const THERE: bool = A::THERE;

    fn answer(PutBilin { dst, dst_stride, from }: &PutBilin<P>) -> Answer {
        let Source { depth, src_stride, w, h, mx, my, .. } = *from;
        let mut dst = lend::<G, _>("dst", dst);
        let mut src = lend::<G, _>("src", &from.src);
        let (to, at) = (dst.start(), src.start());
        let number = unsafe { A::call(depth, to, dst.len(), *dst_stride, at, src.len(), src_stride, w, h, mx, my) };
        pixels(number, &dst, src.kept())
    }
}

impl<P: Px, A: archive::PrepBilin<P>, G: Ground> Answers<PrepBilin<P>> for Library<A, G> {
    const REFUSES: bool = true;
    const THERE: bool = A::THERE;

    fn answer(PrepBilin { tmp, tmp_stride, from }: &PrepBilin<P>) -> Answer {
        let Source { depth, src_stride, w, h, mx, my, .. } = *from;
        let mut tmp = lend::<G, _>("tmp", tmp);
        let mut src = lend::<G, _>("src", &from.src);
        let (to, at) = (tmp.start(), src.start());
        let number = unsafe { A::call(depth, to, tmp.len(), *tmp_stride, at, src.len(), src_stride, w, h, mx, my) };
        shorts(number, &tmp, src.kept())
    }
}
