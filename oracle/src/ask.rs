//! The original Rust, asked for its answer to an accepted call. Anything else that answers calls is asked in the same
//! way: a type of its own with `Answers` for each call.

pub mod order;
mod scaled;

use original::headers::WarpedMotionParams;
use original::levels::MvXY;
use original::tables::with_tables;
use original::{mc, warpmv};

use crate::answer::{Answer, Buffer, Px, Room};
use crate::calls::bilinear::{PrepBilin, PutBilin};
use crate::calls::combine::{Avg, Blend, Mask, Morph, WAvg, WMask};
use crate::calls::copy::{Prep, Put};
use crate::calls::edge::EmuEdge;
use crate::calls::search::{SadNxn, SadRefineMv};
use crate::calls::shear::{GetShearParams, Record, ResolveDivisor32, SetAffineMv2d};
use crate::calls::subpel::{self, Prep8tap, Put8tap};
use crate::calls::warp::{WarpAffine, WarpAffineT};

/// Something that answers the calls of an entry.
pub trait Answers<C> {
    /// Does it refuse by document 01's numbers? One that doesn't is only asked for accepted calls.
    const REFUSES: bool;
    /// Does it have the entry? One that hasn't is never asked.
    const THERE: bool = true;

    /// Its answer, every lent buffer whole.
    fn answer(call: &C) -> Answer;
}

/// The original Rust: it has no refusal numbers.
pub struct Original;

/// The answer whose only result is one buffer of pixels.
fn pixels<P: Px>(dst: Room<P>) -> Answer {
    Answer::done(vec![], vec![P::buffer(dst)])
}

/// The answer whose only result is one buffer of intermediates.
fn shorts(tmp: Room<i16>) -> Answer {
    Answer::done(vec![], vec![Buffer::Shorts(tmp)])
}

impl<P: Px> Answers<Put<P>> for Original {
    const REFUSES: bool = false;

    fn answer(call: &Put<P>) -> Answer {
        let mut dst = call.dst.clone();
        mc::put(&mut dst, call.dst_stride, &call.src, call.src_stride, call.w, call.h);
        pixels(dst)
    }
}

impl<P: Px> Answers<Prep<P>> for Original {
    const REFUSES: bool = false;

    fn answer(call: &Prep<P>) -> Answer {
        let mut tmp = call.tmp.clone();
        let depth = P::depth(call.depth);
        mc::prep(depth, &mut tmp, call.tmp_stride, &call.src, call.src_stride, call.w, call.h);
        shorts(tmp)
    }
}

impl<P: Px> Answers<Avg<P>> for Original {
    const REFUSES: bool = false;

    fn answer(Avg(pair): &Avg<P>) -> Answer {
        let mut dst = pair.dst.clone();
        mc::avg(P::depth(pair.depth), &mut dst, pair.dst_stride, &pair.tmp1, &pair.tmp2, pair.w, pair.h);
        pixels(dst)
    }
}

impl<P: Px> Answers<WAvg<P>> for Original {
    const REFUSES: bool = false;

    fn answer(WAvg { pair, weight }: &WAvg<P>) -> Answer {
        let mut dst = pair.dst.clone();
        let depth = P::depth(pair.depth);
        mc::w_avg(depth, &mut dst, pair.dst_stride, &pair.tmp1, &pair.tmp2, pair.w, pair.h, *weight);
        pixels(dst)
    }
}

impl<P: Px> Answers<Mask<P>> for Original {
    const REFUSES: bool = false;

    fn answer(Mask { pair, mask }: &Mask<P>) -> Answer {
        let mut dst = pair.dst.clone();
        let depth = P::depth(pair.depth);
        mc::mask_fn(depth, &mut dst, pair.dst_stride, &pair.tmp1, &pair.tmp2, pair.w, pair.h, mask);
        pixels(dst)
    }
}

impl<P: Px> Answers<Blend<P>> for Original {
    const REFUSES: bool = false;

    // Row and column belong to number 7, which the original hasn't.
    fn answer(call: &Blend<P>) -> Answer {
        let mut dst = call.dst.clone();
        mc::blend(&mut dst, call.dst_stride, &call.tmp, call.w, call.h, &call.mask);
        Answer::done(vec![0, 0], vec![P::buffer(dst)])
    }
}

impl<P: Px> Answers<Morph<P>> for Original {
    const REFUSES: bool = false;

    fn answer(call: &Morph<P>) -> Answer {
        let mut dst = call.dst.clone();
        mc::morph(P::depth(call.depth), &mut dst, call.dst_stride, call.alpha, call.beta, call.w, call.h);
        pixels(dst)
    }
}

impl<P: Px> Answers<WMask<P>> for Original {
    const REFUSES: bool = false;

    fn answer(call: &WMask<P>) -> Answer {
        let pair = &call.pair;
        let (mut dst, mut mask) = (pair.dst.clone(), call.mask.clone());
        mc::w_mask(
            P::depth(pair.depth),
            &mut dst,
            pair.dst_stride,
            &pair.tmp1,
            &pair.tmp2,
            pair.w,
            pair.h,
            &mut mask,
            call.mask_stride,
            call.sign,
            call.ss_hor,
            call.ss_ver,
        );
        Answer::done(vec![], vec![P::buffer(dst), Buffer::Bytes(mask)])
    }
}

impl<P: Px> Answers<EmuEdge<P>> for Original {
    const REFUSES: bool = false;

    fn answer(call: &EmuEdge<P>) -> Answer {
        let mut dst = call.dst.clone();
        let (x, y) = (call.x as isize, call.y as isize);
        let EmuEdge { bw, bh, iw, ih, dst_stride, plane_stride, .. } = *call;
        mc::emu_edge(bw, bh, iw, ih, x, y, &mut dst, dst_stride, &call.plane, plane_stride);
        pixels(dst)
    }
}

/// Runs the original with the subpel and ext tables of an 8-tap call.
fn with_subpel<P: Px>(from: &subpel::Source<P>, call: impl FnOnce()) {
    with_tables(&from.subpel, &from.ext, &[], &[], call);
}

impl<P: Px> Answers<Put8tap<P>> for Original {
    const REFUSES: bool = false;

    fn answer(call: &Put8tap<P>) -> Answer {
        let (mut dst, from) = (call.dst.clone(), &call.from);
        let subpel::Source { src_off, src_stride, w, h, mx, my, filter_type, .. } = *from;
        let (depth, stride) = (P::depth(from.depth), call.dst_stride);
        with_subpel(from, || {
            mc::put_8tap(depth, &mut dst, stride, &from.src, src_off, src_stride, w, h, mx, my, filter_type)
        });
        pixels(dst)
    }
}

impl<P: Px> Answers<Prep8tap<P>> for Original {
    const REFUSES: bool = false;

    fn answer(call: &Prep8tap<P>) -> Answer {
        let (mut tmp, from) = (call.tmp.clone(), &call.from);
        let subpel::Source { src_off, src_stride, w, h, mx, my, filter_type, .. } = *from;
        let (depth, stride) = (P::depth(from.depth), call.tmp_stride);
        with_subpel(from, || {
            mc::prep_8tap(depth, &mut tmp, stride, &from.src, src_off, src_stride, w, h, mx, my, filter_type)
        });
        shorts(tmp)
    }
}

impl<P: Px> Answers<PutBilin<P>> for Original {
    const REFUSES: bool = false;

    fn answer(call: &PutBilin<P>) -> Answer {
        let (mut dst, from) = (call.dst.clone(), &call.from);
        let depth = P::depth(from.depth);
        mc::put_bilin(depth, &mut dst, call.dst_stride, &from.src, from.src_stride, from.w, from.h, from.mx, from.my);
        pixels(dst)
    }
}

impl<P: Px> Answers<PrepBilin<P>> for Original {
    const REFUSES: bool = false;

    fn answer(call: &PrepBilin<P>) -> Answer {
        let (mut tmp, from) = (call.tmp.clone(), &call.from);
        let depth = P::depth(from.depth);
        mc::prep_bilin(depth, &mut tmp, call.tmp_stride, &from.src, from.src_stride, from.w, from.h, from.mx, from.my);
        shorts(tmp)
    }
}

impl<P: Px> Answers<SadNxn<P>> for Original {
    const REFUSES: bool = false;

    fn answer(call: &SadNxn<P>) -> Answer {
        let SadNxn { p0_stride, p1_stride, w, h, depth, .. } = *call;
        let sum = mc::sad_nxn(&call.p0, p0_stride, &call.p1, p1_stride, w, h, depth - 8);
        Answer::done(vec![sum as i64], vec![])
    }
}

impl<P: Px> Answers<SadRefineMv<P>> for Original {
    const REFUSES: bool = false;

    fn answer(SadRefineMv { planes, is_implicit }: &SadRefineMv<P>) -> Answer {
        let SadNxn { p0_stride, p1_stride, w, h, depth, .. } = *planes;
        let (dx, dy) = mc::sad_refine_mv(&planes.p0, p0_stride, &planes.p1, p1_stride, w, h, *is_implicit, depth - 8);
        Answer::done(vec![dx as i64, dy as i64], vec![])
    }
}

impl<P: Px> Answers<WarpAffine<P>> for Original {
    const REFUSES: bool = false;

    fn answer(call: &WarpAffine<P>) -> Answer {
        let (mut dst, from) = (call.dst.clone(), &call.from);
        let (depth, stride) = (P::depth(from.depth), call.dst_stride);
        with_tables(&[], &[], &from.warp, &[], || {
            let (src_stride, src_off) = (from.src_stride, from.src_off);
            mc::warp_affine_8x8(depth, &mut dst, stride, &from.src, src_stride, src_off, &from.abcd, from.mx, from.my)
        });
        pixels(dst)
    }
}

impl<P: Px> Answers<WarpAffineT<P>> for Original {
    const REFUSES: bool = false;

    fn answer(call: &WarpAffineT<P>) -> Answer {
        let (mut tmp, from) = (call.tmp.clone(), &call.from);
        let (depth, stride) = (P::depth(from.depth), call.tmp_stride);
        with_tables(&[], &[], &from.warp, &[], || {
            let (src_stride, src_off) = (from.src_stride, from.src_off);
            mc::warp_affine_8x8t(depth, &mut tmp, stride, &from.src, src_stride, src_off, &from.abcd, from.mx, from.my)
        });
        shorts(tmp)
    }
}

impl Answers<ResolveDivisor32> for Original {
    const REFUSES: bool = false;

    fn answer(call: &ResolveDivisor32) -> Answer {
        let mut shift = 0;
        let y = with_tables(&[], &[], &[], &call.recip, || warpmv::resolve_divisor_32(call.d, &mut shift));
        Answer::done(vec![y as i64, shift as i64], vec![])
    }
}

/// The original's record with this matrix, abcd and affine.
fn params(record: &Record) -> WarpedMotionParams {
    let Record { matrix, abcd, affine } = record.clone();
    WarpedMotionParams { matrix, abcd, affine, ..Default::default() }
}

impl Answers<GetShearParams> for Original {
    const REFUSES: bool = false;

    // Its answer 1 is document 01's number 8.
    fn answer(call: &GetShearParams) -> Answer {
        let mut wm = params(&call.record);
        let refused = with_tables(&[], &[], &[], &call.recip, || warpmv::get_shear_params(&mut wm));
        let record = Record { matrix: wm.matrix, abcd: wm.abcd, affine: wm.affine };
        Answer::new(8 * refused as u32, vec![], record.buffers())
    }
}

impl Answers<SetAffineMv2d> for Original {
    const REFUSES: bool = false;

    fn answer(call: &SetAffineMv2d) -> Answer {
        let mut wm = params(&Record { matrix: call.matrix, abcd: [0; 4], affine: 0 });
        let mv = MvXY { x: call.mv_x, y: call.mv_y };
        warpmv::set_affine_mv2d(call.bw4, call.bh4, mv, &mut wm, call.bx4, call.by4);
        Answer::done(vec![], vec![Buffer::Ints(Room(wm.matrix.to_vec()))])
    }
}
