//! put_8tap and prep_8tap.

use super::{Library, pixels, shorts};
use crate::answer::{Answer, Px};
use crate::ask::Answers;
use crate::calls::subpel::{Prep8tap, Put8tap, Source};
use crate::lend::{Ground, Lent, lend};

/// The buffers that both kernels read, lent.
struct Read<'a, P: Px, G: Ground> {
    src: Lent<'a, P, G>,
    subpel: Lent<'a, i8, G>,
    ext: Lent<'a, i8, G>,
}

/// Lends what both kernels read.
fn lend_source<P: Px, G: Ground>(from: &Source<P>) -> Read<'_, P, G> {
    Read { src: lend("src", &from.src), subpel: lend("subpel", &from.subpel), ext: lend("ext", &from.ext) }
}

impl<P: Px, G: Ground> Read<'_, P, G> {
    /// What of it has changed.
    fn kept(&self) -> Option<String> {
        self.src.kept().or(self.subpel.kept()).or(self.ext.kept())
    }
}

impl<P: Px, A: archive::Put8tap<P>, G: Ground> Answers<Put8tap<P>> for Library<A, G> {
    const REFUSES: bool = true;
    const THERE: bool = A::THERE;

    fn answer(Put8tap { dst, dst_stride, from }: &Put8tap<P>) -> Answer {
        let Source { depth, src_off, src_stride, w, h, mx, my, filter_type, .. } = *from;
        let mut dst = lend::<G, _>("dst", dst);
        let mut read = lend_source::<P, G>(from);
        let (to, src, subpel, ext) = (dst.start(), read.src.start(), read.subpel.start(), read.ext.start());
        #[rustfmt::skip]
        let number = unsafe {
            A::call(depth, to, dst.len(), *dst_stride, src, read.src.len(), src_off, src_stride, w, h,
                    mx, my, filter_type, subpel, read.subpel.len(), ext, read.ext.len())
        };
        pixels(number, &dst, read.kept())
    }
}

impl<P: Px, A: archive::Prep8tap<P>, G: Ground> Answers<Prep8tap<P>> for Library<A, G> {
    const REFUSES: bool = true;
    const THERE: bool = A::THERE;

    fn answer(Prep8tap { tmp, tmp_stride, from }: &Prep8tap<P>) -> Answer {
        let Source { depth, src_off, src_stride, w, h, mx, my, filter_type, .. } = *from;
        let mut tmp = lend::<G, _>("tmp", tmp);
        let mut read = lend_source::<P, G>(from);
        let (to, src, subpel, ext) = (tmp.start(), read.src.start(), read.subpel.start(), read.ext.start());
        #[rustfmt::skip]
        let number = unsafe {
            A::call(depth, to, tmp.len(), *tmp_stride, src, read.src.len(), src_off, src_stride, w, h,
                    mx, my, filter_type, subpel, read.subpel.len(), ext, read.ext.len())
        };
        shorts(number, &tmp, read.kept())
    }
}
