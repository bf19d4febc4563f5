//! warp_affine_8x8 and warp_affine_8x8t.

use super::{Library, pixels, shorts};
use crate::answer::{Answer, Px};
use crate::ask::Answers;
use crate::calls::warp::{Source, WarpAffine, WarpAffineT};
use crate::lend::{Ground, lend};

impl<P: Px, A: archive::WarpAffine<P>, G: Ground> Answers<WarpAffine<P>> for Library<A, G> {
    const REFUSES: bool = true;
    const THERE: bool = A::THERE;

    fn answer(WarpAffine { dst, dst_stride, from }: &WarpAffine<P>) -> Answer {
        let Source { depth, src_stride, src_off, abcd: [a, b, c, d], mx, my, .. } = *from;
        let mut dst = lend::<G, _>("dst", dst);
        let (mut src, mut warp) = (lend::<G, _>("src", &from.src), lend::<G, _>("warp", &from.warp));
        let (to, at, table) = (dst.start(), src.start(), warp.start());
        #[rustfmt::skip]
        let number = unsafe {
            A::call(depth, to, dst.len(), *dst_stride, at, src.len(), src_stride, src_off,
                    a, b, c, d, mx, my, table, warp.len())
        };
        pixels(number, &dst, src.kept().or(warp.kept()))
    }
}

impl<P: Px, A: archive::WarpAffineT<P>, G: Ground> Answers<WarpAffineT<P>> for Library<A, G> {
    const REFUSES: bool = true;
    const THERE: bool = A::THERE;

    fn answer(WarpAffineT { tmp, tmp_stride, from }: &WarpAffineT<P>) -> Answer {
        let Source { depth, src_stride, src_off, abcd: [a, b, c, d], mx, my, .. } = *from;
        let mut tmp = lend::<G, _>("tmp", tmp);
        let (mut src, mut warp) = (lend::<G, _>("src", &from.src), lend::<G, _>("warp", &from.warp));
        let (to, at, table) = (tmp.start(), src.start(), warp.start());
        #[rustfmt::skip]
        let number = unsafe {
            A::call(depth, to, tmp.len(), *tmp_stride, at, src.len(), src_stride, src_off,
                    a, b, c, d, mx, my, table, warp.len())
        };
        shorts(number, &tmp, src.kept().or(warp.kept()))
    }
}
