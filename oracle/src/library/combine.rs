//! avg, w_avg, mask, blend, morph and w_mask.

use super::{Library, pixels};
use crate::answer::{Answer, Buffer, Px, Room};
use crate::ask::Answers;
use crate::calls::combine::{Avg, Blend, Mask, Morph, Pair, WAvg, WMask};
use crate::lend::{Ground, JUNK_PLACE, Lent, lend};

/// The three buffers of a pair, lent.
struct Three<'a, P: Px, G: Ground> {
    dst: Lent<'a, P, G>,
    tmp1: Lent<'a, i16, G>,
    tmp2: Lent<'a, i16, G>,
}

/// Lends the buffers of a pair.
fn lend_pair<P: Px, G: Ground>(pair: &Pair<P>) -> Three<'_, P, G> {
    Three { dst: lend("dst", &pair.dst), tmp1: lend("tmp1", &pair.tmp1), tmp2: lend("tmp2", &pair.tmp2) }
}

impl<P: Px, A: archive::Avg<P>, G: Ground> Answers<Avg<P>> for Library<A, G> {
    const REFUSES: bool = true;
    const THERE: bool = A::THERE;

    fn answer(Avg(pair): &Avg<P>) -> Answer {
        let Pair { depth, dst_stride, w, h, .. } = *pair;
        let Three { mut dst, mut tmp1, mut tmp2 } = lend_pair::<P, G>(pair);
        let (to, one, two) = (dst.start(), tmp1.start(), tmp2.start());
        let number = unsafe { A::call(depth, to, dst.len(), dst_stride, one, tmp1.len(), two, tmp2.len(), w, h) };
        pixels(number, &dst, tmp1.kept().or(tmp2.kept()))
    }
}

impl<P: Px, A: archive::WAvg<P>, G: Ground> Answers<WAvg<P>> for Library<A, G> {
    const REFUSES: bool = true;
    const THERE: bool = A::THERE;

    fn answer(WAvg { pair, weight }: &WAvg<P>) -> Answer {
        let Pair { depth, dst_stride, w, h, .. } = *pair;
        let Three { mut dst, mut tmp1, mut tmp2 } = lend_pair::<P, G>(pair);
        let (to, one, two) = (dst.start(), tmp1.start(), tmp2.start());
        let number =
            unsafe { A::call(depth, to, dst.len(), dst_stride, one, tmp1.len(), two, tmp2.len(), w, h, *weight) };
        pixels(number, &dst, tmp1.kept().or(tmp2.kept()))
    }
}

impl<P: Px, A: archive::Mask<P>, G: Ground> Answers<Mask<P>> for Library<A, G> {
    const REFUSES: bool = true;
    const THERE: bool = A::THERE;

    fn answer(Mask { pair, mask }: &Mask<P>) -> Answer {
        let Pair { depth, dst_stride, w, h, .. } = *pair;
        let Three { mut dst, mut tmp1, mut tmp2 } = lend_pair::<P, G>(pair);
        let mut mask = lend::<G, _>("mask", mask);
        let (to, one, two, by) = (dst.start(), tmp1.start(), tmp2.start(), mask.start());
        let number = unsafe {
            A::call(depth, to, dst.len(), dst_stride, one, tmp1.len(), two, tmp2.len(), w, h, by, mask.len())
        };
        pixels(number, &dst, tmp1.kept().or(tmp2.kept()).or(mask.kept()))
    }
}

impl<P: Px, A: archive::Blend<P>, G: Ground> Answers<Blend<P>> for Library<A, G> {
    const REFUSES: bool = true;
    const THERE: bool = A::THERE;

    fn answer(call: &Blend<P>) -> Answer {
        let Blend { dst_stride, w, h, .. } = *call;
        let mut dst = lend::<G, _>("dst", &call.dst);
        let mut tmp = lend::<G, _>("tmp", &call.tmp);
        let mut mask = lend::<G, _>("mask", &call.mask);
        let (mut row, mut col) = (lend::<G, _>("row", &[JUNK_PLACE]), lend::<G, _>("col", &[JUNK_PLACE]));
        let (to, from, by) = (dst.start(), tmp.start(), mask.start());
        let (row_at, col_at) = (row.start(), col.start());
        let number =
            unsafe { A::call(to, dst.len(), dst_stride, from, tmp.len(), w, h, by, mask.len(), row_at, col_at) };
        let harm = tmp.kept().or(mask.kept()).or(row.guards()).or(col.guards());
        let results = vec![row.now()[0] as i64, col.now()[0] as i64];
        Answer { results, ..pixels(number, &dst, harm) }
    }
}

impl<P: Px, A: archive::Morph<P>, G: Ground> Answers<Morph<P>> for Library<A, G> {
    const REFUSES: bool = true;
    const THERE: bool = A::THERE;

    fn answer(call: &Morph<P>) -> Answer {
        let Morph { depth, dst_stride, alpha, beta, w, h, .. } = *call;
        let mut dst = lend::<G, _>("dst", &call.dst);
        let number = unsafe { A::call(depth, dst.start(), dst.len(), dst_stride, alpha, beta, w, h) };
        pixels(number, &dst, None)
    }
}

impl<P: Px, A: archive::WMask<P>, G: Ground> Answers<WMask<P>> for Library<A, G> {
    const REFUSES: bool = true;
    const THERE: bool = A::THERE;

    fn answer(call: &WMask<P>) -> Answer {
        let Pair { depth, dst_stride, w, h, .. } = call.pair;
        let WMask { mask_stride, sign, ss_hor, ss_ver, .. } = *call;
        let Three { mut dst, mut tmp1, mut tmp2 } = lend_pair::<P, G>(&call.pair);
        let mut mask = lend::<G, _>("mask", &call.mask);
        let (to, one, two) = (dst.start(), tmp1.start(), tmp2.start());
        let (length, length1, length2) = (dst.len(), tmp1.len(), tmp2.len());
        let (kept, places) = (mask.start(), mask.len());
        #[rustfmt::skip]
        let number = unsafe {
            A::call(depth, to, length, dst_stride, one, length1, two, length2, w, h,
                    kept, places, mask_stride, sign, ss_hor, ss_ver)
        };
        let mut answer = pixels(number, &dst, tmp1.kept().or(tmp2.kept()).or(mask.guards()));
        answer.buffers.push(Buffer::Bytes(Room(mask.now().to_vec())));
        answer
    }
}
