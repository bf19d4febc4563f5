//! avg, w_avg, mask, blend, morph and w_mask.

use super::{FAR, changes, depth, depths, nines, ramp, sides};
use crate::answer::{Px, Room};
use crate::calls::combine::{Avg, Blend, Mask, Morph, Pair, WAvg, WMask};

/// The rows of this family.
pub fn cases() -> Vec<String> {
    [avgs(), w_avgs(), masks(), blends(), morphs(), w_masks()].concat()
}

/// Intermediates of the pixels 1, 2, 3 and so on, one at least.
fn prepared(places: usize) -> Room<i16> {
    Room((0..places.max(1)).map(|place| 16 * (1 + place as i16 % 97)).collect())
}

/// An accepted pair, its destination without gaps.
fn pair<P: Px>(w: usize, h: usize) -> Pair<P> {
    let (tmp1, tmp2) = (prepared(w * h), prepared(w * h));
    Pair { depth: depth::<P>(), dst: nines(w * h), dst_stride: w, tmp1, tmp2, w, h }
}

/// A mask of so many greatest weights, one at least.
fn weights(places: usize) -> Room<u8> {
    Room(vec![64; places.max(1)])
}

/// An accepted avg.
fn avg<P: Px>(w: usize, h: usize) -> Avg<P> {
    Avg(pair(w, h))
}

/// avg's tests.
fn avgs() -> Vec<String> {
    let tests = changes(
        &avg::<u8>(2, 2),
        &[
            ("dst_stride below the row", |c| c.0.dst_stride = 1),
            ("dst_stride 32,769", |c| (c.0.dst_stride, c.0.dst) = (FAR, nines(FAR + 2))),
            ("tmp1 short by a place", |c| c.0.tmp1.truncate(3)),
            ("tmp2 short by a place", |c| c.0.tmp2.truncate(3)),
            ("dst short by a place", |c| c.0.dst.truncate(3)),
        ],
    );
    [sides(avg::<u8>), tests, depths(&avg::<u16>(1, 1), |c| &mut c.0.depth)].concat()
}

/// An accepted w_avg.
fn w_avg<P: Px>(w: usize, h: usize) -> WAvg<P> {
    WAvg { pair: pair(w, h), weight: 8 }
}

/// w_avg's tests.
fn w_avgs() -> Vec<String> {
    let tests = changes(
        &w_avg::<u8>(2, 2),
        &[
            ("dst_stride below the row", |c| c.pair.dst_stride = 1),
            ("dst_stride 32,769", |c| (c.pair.dst_stride, c.pair.dst) = (FAR, nines(FAR + 2))),
            ("tmp1 short by a place", |c| c.pair.tmp1.truncate(3)),
            ("tmp2 short by a place", |c| c.pair.tmp2.truncate(3)),
            ("dst short by a place", |c| c.pair.dst.truncate(3)),
        ],
    );
    // Unlike intermediates, or the weight would make no difference.
    let mut one = w_avg::<u8>(1, 1);
    one.pair.tmp2 = Room(vec![320]);
    let numbers = changes(&one, &[("weight -17", |c| c.weight = -17), ("weight 33", |c| c.weight = 33)]);
    [sides(w_avg::<u8>), tests, numbers, depths(&w_avg::<u16>(1, 1), |c| &mut c.pair.depth)].concat()
}

/// An accepted mask.
fn mask<P: Px>(w: usize, h: usize) -> Mask<P> {
    Mask { pair: pair(w, h), mask: weights(w * h) }
}

/// mask's tests.
fn masks() -> Vec<String> {
    let tests = changes(
        &mask::<u8>(2, 2),
        &[
            ("dst_stride below the row", |c| c.pair.dst_stride = 1),
            ("dst_stride 32,769", |c| (c.pair.dst_stride, c.pair.dst) = (FAR, nines(FAR + 2))),
            ("tmp1 short by a place", |c| c.pair.tmp1.truncate(3)),
            ("tmp2 short by a place", |c| c.pair.tmp2.truncate(3)),
            ("mask short by a place", |c| c.mask.truncate(3)),
            ("dst short by a place", |c| c.pair.dst.truncate(3)),
        ],
    );
    [sides(mask::<u8>), tests, depths(&mask::<u16>(1, 1), |c| &mut c.pair.depth)].concat()
}

/// An accepted blend, without gaps.
fn blend(w: usize, h: usize) -> Blend<u8> {
    Blend { dst: nines(w * h), dst_stride: w, tmp: ramp(w * h), w, h, mask: weights(w * h) }
}

/// blend's tests.
fn blends() -> Vec<String> {
    let tests = changes(
        &blend(2, 2),
        &[
            ("dst_stride below the row", |c| c.dst_stride = 1),
            ("dst_stride 32,769", |c| (c.dst_stride, c.dst) = (FAR, nines(FAR + 2))),
            ("tmp short by a place", |c| c.tmp.truncate(3)),
            ("mask short by a place", |c| c.mask.truncate(3)),
            ("dst short by a place", |c| c.dst.truncate(3)),
            ("a mask value of 65", |c| c.mask[3] = 65),
        ],
    );
    [sides(blend), tests].concat()
}

/// An accepted morph, without gaps: each pixel and one more.
fn morph<P: Px>(w: usize, h: usize) -> Morph<P> {
    Morph { depth: depth::<P>(), dst: ramp(w * h), dst_stride: w, alpha: 256, beta: 256, w, h }
}

/// morph's tests.
fn morphs() -> Vec<String> {
    let tests = changes(
        &morph::<u8>(2, 2),
        &[
            ("dst_stride below the row", |c| c.dst_stride = 1),
            ("dst_stride 32,769", |c| (c.dst_stride, c.dst) = (FAR, ramp(FAR + 2))),
            ("dst short by a place", |c| c.dst.truncate(3)),
        ],
    );
    let numbers = changes(
        &morph::<u8>(1, 1),
        &[
            ("alpha 2^14 + 1", |c| c.alpha = (1 << 14) + 1),
            ("alpha -2^14 - 1", |c| c.alpha = -(1 << 14) - 1),
            ("beta 2^22 + 1", |c| c.beta = (1 << 22) + 1),
            ("beta -2^22 - 1", |c| c.beta = -(1 << 22) - 1),
        ],
    );
    [sides(morph::<u8>), tests, numbers, depths(&morph::<u16>(1, 1), |c| &mut c.depth)].concat()
}

/// An accepted w_mask that keeps each weight, without gaps.
fn w_mask<P: Px>(w: usize, h: usize) -> WMask<P> {
    WMask { pair: pair(w, h), mask: nines(w * h), mask_stride: w, sign: 0, ss_hor: false, ss_ver: false }
}

/// w_mask's tests.
fn w_masks() -> Vec<String> {
    let tests = changes(
        &w_mask::<u8>(2, 2),
        &[
            ("odd w with ss_hor", |c| (c.pair.w, c.ss_hor) = (1, true)),
            ("odd h with ss_ver", |c| (c.pair.h, c.ss_hor, c.ss_ver) = (1, true, true)),
            ("dst_stride below the row", |c| c.pair.dst_stride = 1),
            ("dst_stride 32,769", |c| (c.pair.dst_stride, c.pair.dst) = (FAR, nines(FAR + 2))),
            ("mask_stride below the row", |c| c.mask_stride = 1),
            ("mask_stride 32,769", |c| (c.mask_stride, c.mask) = (FAR, nines(FAR + 2))),
            ("sign 2, ss_hor", |c| (c.sign, c.ss_hor) = (2, true)),
            ("sign -1, ss_hor", |c| (c.sign, c.ss_hor) = (-1, true)),
            ("ss_ver without ss_hor", |c| c.ss_ver = true),
            ("tmp1 short by a place", |c| c.pair.tmp1.truncate(3)),
            ("tmp2 short by a place", |c| c.pair.tmp2.truncate(3)),
            ("dst short by a place", |c| c.pair.dst.truncate(3)),
            ("mask short by a place", |c| c.mask.truncate(3)),
        ],
    );
    [sides(w_mask::<u8>), tests, depths(&w_mask::<u16>(1, 1), |c| &mut c.pair.depth)].concat()
}
