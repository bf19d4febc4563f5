//! sad_nxn and sad_refine_mv.

use super::Library;
use crate::answer::{Answer, Px};
use crate::ask::Answers;
use crate::calls::search::{SadNxn, SadRefineMv};
use crate::lend::{Ground, JUNK, lend};

impl<P: Px, A: archive::SadNxn<P>, G: Ground> Answers<SadNxn<P>> for Library<A, G> {
    const REFUSES: bool = true;
    const THERE: bool = A::THERE;

    fn answer(call: &SadNxn<P>) -> Answer {
        let SadNxn { depth, p0_stride, p1_stride, w, h, .. } = *call;
        let (mut p0, mut p1) = (lend::<G, _>("p0", &call.p0), lend::<G, _>("p1", &call.p1));
        let mut sum = lend::<G, _>("sum", &[JUNK]);
        let (at0, at1) = (p0.start(), p1.start());
        let number = unsafe { A::call(depth, at0, p0.len(), p0_stride, at1, p1.len(), p1_stride, w, h, sum.start()) };
        let harm = p0.kept().or(p1.kept()).or(sum.guards());
        Answer { number, results: vec![sum.now()[0] as i64], buffers: vec![], harm }
    }
}

impl<P: Px, A: archive::SadRefineMv<P>, G: Ground> Answers<SadRefineMv<P>> for Library<A, G> {
    const REFUSES: bool = true;
    const THERE: bool = A::THERE;

    fn answer(SadRefineMv { planes, is_implicit }: &SadRefineMv<P>) -> Answer {
        let SadNxn { depth, p0_stride, p1_stride, w, h, .. } = *planes;
        let (mut p0, mut p1) = (lend::<G, _>("p0", &planes.p0), lend::<G, _>("p1", &planes.p1));
        let (mut dx, mut dy) = (lend::<G, _>("dx", &[JUNK]), lend::<G, _>("dy", &[JUNK]));
        let (at0, at1, to_dx, to_dy) = (p0.start(), p1.start(), dx.start(), dy.start());
        #[rustfmt::skip]
        let number = unsafe {
            A::call(depth, at0, p0.len(), p0_stride, at1, p1.len(), p1_stride, w, h, *is_implicit, to_dx, to_dy)
        };
        let harm = p0.kept().or(p1.kept()).or(dx.guards()).or(dy.guards());
        Answer { number, results: vec![dx.now()[0] as i64, dy.now()[0] as i64], buffers: vec![], harm }
    }
}
