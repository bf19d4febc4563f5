//! emu_edge.

use super::{Library, pixels};
use crate::answer::{Answer, Px};
use crate::ask::Answers;
use crate::calls::edge::EmuEdge;
use crate::lend::{Ground, lend};

impl<P: Px, A: archive::EmuEdge<P>, G: Ground> Answers<EmuEdge<P>> for Library<A, G> {
    const REFUSES: bool = true;
    const THERE: bool = A::THERE;

    fn answer(call: &EmuEdge<P>) -> Answer {
        let EmuEdge { bw, bh, iw, ih, x, y, dst_stride, plane_stride, .. } = *call;
        let mut dst = lend::<G, _>("dst", &call.dst);
        let mut plane = lend::<G, _>("plane", &call.plane);
        let (to, from) = (dst.start(), plane.start());
        let number =
            unsafe { A::call(bw, bh, iw, ih, x, y, to, dst.len(), dst_stride, from, plane.len(), plane_stride) };
        pixels(number, &dst, plane.kept())
    }
}
