//! The four scaled kernels. The original's strides are signed; the interface's aren't.

use original::mc;
use original::tables::with_tables;

use super::{Answers, Original, pixels, shorts};
use crate::answer::{Answer, Px};
use crate::calls::scaled::{Prep8tapScaled, PrepBilinScaled, Put8tapScaled, PutBilinScaled, Source};

impl<P: Px> Answers<Put8tapScaled<P>> for Original {
    const REFUSES: bool = false;

    fn answer(call: &Put8tapScaled<P>) -> Answer {
        let (mut dst, from, by) = (call.dst.clone(), &call.from, call.by.filter_type);
        let Source { src_off, w, h, mx, my, dx, dy, .. } = *from;
        let (depth, stride, src_stride) = (P::depth(from.depth), call.dst_stride, from.src_stride as isize);
        with_tables(&call.by.subpel, &[], &[], &[], || {
            mc::put_8tap_scaled(depth, &mut dst, stride, &from.src, src_off, src_stride, w, h, mx, my, dx, dy, by)
        });
        pixels(dst)
    }
}

impl<P: Px> Answers<Prep8tapScaled<P>> for Original {
    const REFUSES: bool = false;

    fn answer(call: &Prep8tapScaled<P>) -> Answer {
        let (mut tmp, from, by) = (call.tmp.clone(), &call.from, call.by.filter_type);
        let Source { src_off, w, h, mx, my, dx, dy, .. } = *from;
        let (depth, stride, src_stride) = (P::depth(from.depth), call.tmp_stride, from.src_stride as isize);
        with_tables(&call.by.subpel, &[], &[], &[], || {
            mc::prep_8tap_scaled(depth, &mut tmp, stride, &from.src, src_off, src_stride, w, h, mx, my, dx, dy, by)
        });
        shorts(tmp)
    }
}

impl<P: Px> Answers<PutBilinScaled<P>> for Original {
    const REFUSES: bool = false;

    fn answer(call: &PutBilinScaled<P>) -> Answer {
        let (mut dst, from) = (call.dst.clone(), &call.from);
        let Source { src_off, w, h, mx, my, dx, dy, .. } = *from;
        let (depth, stride, src_stride) = (P::depth(from.depth), call.dst_stride, from.src_stride as isize);
        mc::put_bilin_scaled(depth, &mut dst, stride, &from.src, src_off, src_stride, w, h, mx, my, dx, dy);
        pixels(dst)
    }
}

impl<P: Px> Answers<PrepBilinScaled<P>> for Original {
    const REFUSES: bool = false;

    fn answer(call: &PrepBilinScaled<P>) -> Answer {
        let (mut tmp, from) = (call.tmp.clone(), &call.from);
        let Source { src_off, w, h, mx, my, dx, dy, .. } = *from;
        let (depth, stride, src_stride) = (P::depth(from.depth), call.tmp_stride, from.src_stride as isize);
        mc::prep_bilin_scaled(depth, &mut tmp, stride, &from.src, src_off, src_stride, w, h, mx, my, dx, dy);
        shorts(tmp)
    }
}
