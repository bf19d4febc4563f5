//! put and prep.

use super::{Library, pixels, shorts};
use crate::answer::{Answer, Px};
use crate::ask::Answers;
use crate::calls::copy::{Prep, Put};
use crate::lend::{Ground, lend};

impl<P: Px, A: archive::Put<P>, G: Ground> Answers<Put<P>> for Library<A, G> {
    const REFUSES: bool = true;
    const THERE: bool = A::THERE;

    fn answer(call: &Put<P>) -> Answer {
        let Put { dst_stride, src_stride, w, h, .. } = *call;
        let mut dst = lend::<G, _>("dst", &call.dst);
        let mut src = lend::<G, _>("src", &call.src);
        let number = unsafe { A::call(dst.start(), dst.len(), dst_stride, src.start(), src.len(), src_stride, w, h) };
        pixels(number, &dst, src.kept())
    }
}

impl<P: Px, A: archive::Prep<P>, G: Ground> Answers<Prep<P>> for Library<A, G> {
    const REFUSES: bool = true;
    const THERE: bool = A::THERE;

    fn answer(call: &Prep<P>) -> Answer {
        let Prep { depth, tmp_stride, src_stride, w, h, .. } = *call;
        let mut tmp = lend::<G, _>("tmp", &call.tmp);
        let mut src = lend::<G, _>("src", &call.src);
        let number =
            unsafe { A::call(depth, tmp.start(), tmp.len(), tmp_stride, src.start(), src.len(), src_stride, w, h) };
        shorts(number, &tmp, src.kept())
    }
}
