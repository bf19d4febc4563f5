//! Calls of avg, w_avg, mask, blend, morph and w_mask.

use super::{Call, with_depth};
use crate::answer::{Answer, Buffer, Px, Room};
use crate::limits::{self, Faults, need};
use crate::rng::Rng;

/// What avg, w_avg, mask and w_mask have in common: two intermediates, combined into a destination.
#[derive(Clone, Debug)]
pub struct Pair<P> {
    pub depth: i32,
    pub dst: Room<P>,
    pub dst_stride: usize,
    pub tmp1: Room<i16>,
    pub tmp2: Room<i16>,
    pub w: usize,
    pub h: usize,
}

#[derive(Clone, Debug)]
pub struct Avg<P>(pub Pair<P>);

#[derive(Clone, Debug)]
pub struct WAvg<P> {
    pub pair: Pair<P>,
    pub weight: i32,
}

#[derive(Clone, Debug)]
pub struct Mask<P> {
    pub pair: Pair<P>,
    pub mask: Room<u8>,
}

#[derive(Clone, Debug)]
pub struct Blend<P> {
    pub dst: Room<P>,
    pub dst_stride: usize,
    pub tmp: Room<P>,
    pub w: usize,
    pub h: usize,
    pub mask: Room<u8>,
}

/// Row and column of the first mask value above 64, in reading order, for sides and a mask that passed their tests.
pub fn first_above_64<P: Px>(call: &Blend<P>) -> Option<(usize, usize)> {
    let block = &call.mask[..call.w * call.h];
    let place = block.iter().position(|m| *m > 64)?;
    Some((place / call.w, place % call.w))
}

#[derive(Clone, Debug)]
pub struct Morph<P> {
    pub depth: i32,
    pub dst: Room<P>,
    pub dst_stride: usize,
    pub alpha: i32,
    pub beta: i32,
    pub w: usize,
    pub h: usize,
}

#[derive(Clone, Debug)]
pub struct WMask<P> {
    pub pair: Pair<P>,
    pub mask: Room<u8>,
    pub mask_stride: usize,
    pub sign: i32,
    pub ss_hor: bool,
    pub ss_ver: bool,
}

/// What a draw has settled before the pair is made: its sides, and which of its parts are to be wrong.
struct Wanted {
    w: usize,
    h: usize,
    stride_wrong: bool,
    depth_wrong: bool,
    short: [bool; 2],
    dst_short: bool,
}

/// Makes a pair as wanted.
fn pair<P: Px>(rng: &mut Rng, depth: i32, faults: &Faults, wanted: Wanted) -> Pair<P> {
    let Wanted { w, h, .. } = wanted;
    let dst_stride = limits::stride(rng, w, h, wanted.stride_wrong);
    let dst_length = faults.length(rng, need(h, dst_stride, w), wanted.dst_short);
    let length1 = faults.length(rng, need(h, w, w), wanted.short[0]);
    let length2 = faults.length(rng, need(h, w, w), wanted.short[1]);
    Pair {
        depth: limits::depth::<P>(rng, depth, wanted.depth_wrong),
        dst: limits::pixels(rng, depth, dst_length),
        dst_stride,
        tmp1: limits::words(rng, length1),
        tmp2: limits::words(rng, length2),
        w,
        h,
    }
}

/// Two sides, wrong where number 1 is to be earned.
fn sides(rng: &mut Rng, faults: &Faults) -> (usize, usize) {
    let [bad_w, bad_h] = faults.among(rng, 1);
    (limits::side(rng, bad_w), limits::side(rng, bad_h))
}

/// Mask values: at the limits of weights and of bytes, up to this last one.
fn mask_values(rng: &mut Rng, length: usize, last: u8) -> Room<u8> {
    match rng.range(0, 3) {
        0 => {
            let same = rng.range(0, last as i64) as u8;
            limits::list(rng, length, |_| same)
        }
        1 => limits::list(rng, length, |rng| rng.pick(&[0, 1, 32, 63, 64, 65, 128, 255]).min(last)),
        _ => limits::list(rng, length, |rng| rng.range(0, last as i64) as u8),
    }
}

impl<P: Px> Call for Avg<P> {
    const NAME: &'static str = "avg";
    const NUMBERS: &'static [u32] = with_depth(P::TAKES_DEPTH, [&[1, 2, 5, 6], &[1, 2, 3, 5, 6]]);
    const RESULTS: usize = 0;

    fn make(rng: &mut Rng, depth: i32) -> Self {
        let faults = Faults::draw(rng, Self::NUMBERS);
        let (w, h) = sides(rng, &faults);
        let short = faults.among(rng, 5);
        let (stride_wrong, depth_wrong, dst_short) = (faults.has(2), faults.has(3), faults.has(6));
        Avg(pair(rng, depth, &faults, Wanted { w, h, stride_wrong, depth_wrong, short, dst_short }))
    }

    fn lent(&self) -> Vec<Buffer> {
        vec![P::buffer(self.0.dst.clone())]
    }
}

impl<P: Px> Call for WAvg<P> {
    const NAME: &'static str = "w_avg";
    const NUMBERS: &'static [u32] = &[1, 2, 3, 5, 6];
    const RESULTS: usize = 0;

    fn make(rng: &mut Rng, depth: i32) -> Self {
        let faults = Faults::draw(rng, Self::NUMBERS);
        let (w, h) = sides(rng, &faults);
        let short = faults.among(rng, 5);
        let depth_wrong = P::TAKES_DEPTH && faults.has(3) && rng.chance(40);
        let (stride_wrong, dst_short) = (faults.has(2), faults.has(6));
        let any = rng.range(-16, 32) as i32;
        let weight = match faults.has(3) && !depth_wrong {
            true => rng.pick(&[-17, 33, -17, 33, i32::MIN, i32::MAX]),
            false => rng.pick(&[-16, 32, 0, 16, 8, 12, any, any]),
        };
        let pair = pair(rng, depth, &faults, Wanted { w, h, stride_wrong, depth_wrong, short, dst_short });
        WAvg { pair, weight }
    }

    fn lent(&self) -> Vec<Buffer> {
        vec![P::buffer(self.pair.dst.clone())]
    }
}

impl<P: Px> Call for Mask<P> {
    const NAME: &'static str = "mask";
    const NUMBERS: &'static [u32] = with_depth(P::TAKES_DEPTH, [&[1, 2, 5, 6], &[1, 2, 3, 5, 6]]);
    const RESULTS: usize = 0;

    fn make(rng: &mut Rng, depth: i32) -> Self {
        let faults = Faults::draw(rng, Self::NUMBERS);
        let (w, h) = sides(rng, &faults);
        let [short1, short2, mask_short] = faults.among(rng, 5);
        let (stride_wrong, depth_wrong, dst_short) = (faults.has(2), faults.has(3), faults.has(6));
        let length = faults.length(rng, need(h, w, w), mask_short);
        let mask = mask_values(rng, length, 255);
        let wanted = Wanted { w, h, stride_wrong, depth_wrong, short: [short1, short2], dst_short };
        Mask { pair: pair(rng, depth, &faults, wanted), mask }
    }

    fn lent(&self) -> Vec<Buffer> {
        vec![P::buffer(self.pair.dst.clone())]
    }
}

/// A mask for blend: no value above 64 in the block unless it is wrong; anything past the block.
fn blend_mask(rng: &mut Rng, length: usize, block: u128, wrong: bool) -> Room<u8> {
    let mut mask = mask_values(rng, length, 64);
    let inside = (block.min(length as u128)) as usize;
    for value in mask[inside..].iter_mut() {
        *value = rng.pick(&[0, 64, 65, 255]);
    }
    if wrong && inside > 0 {
        for _ in 0..rng.range(1, 3) {
            let any = rng.place(0, inside - 1);
            let place = rng.pick(&[0, inside - 1, any, any, any]);
            mask[place] = rng.pick(&[65, 65, 66, 128, 255]);
        }
    }
    mask
}

impl<P: Px> Call for Blend<P> {
    const NAME: &'static str = "blend";
    const NUMBERS: &'static [u32] = &[1, 2, 5, 6, 7];
    const RESULTS: usize = 2;

    fn make(rng: &mut Rng, depth: i32) -> Self {
        let faults = Faults::draw(rng, Self::NUMBERS);
        let (w, h) = sides(rng, &faults);
        let [tmp_short, mask_short] = faults.among(rng, 5);
        let dst_stride = limits::stride(rng, w, h, faults.has(2));
        let dst_length = faults.length(rng, need(h, dst_stride, w), faults.has(6));
        let tmp_length = faults.length(rng, need(h, w, w), tmp_short);
        let mask_length = faults.length(rng, need(h, w, w), mask_short);
        Blend {
            dst: limits::pixels(rng, depth, dst_length),
            dst_stride,
            tmp: limits::pixels(rng, depth, tmp_length),
            w,
            h,
            mask: blend_mask(rng, mask_length, need(h, w, w), faults.has(7)),
        }
    }

    fn lent(&self) -> Vec<Buffer> {
        vec![P::buffer(self.dst.clone())]
    }

    // Number 7 alone has results: row and column of the first value above 64.
    fn refused(&self, number: u32) -> Answer {
        let place = if number == 7 { first_above_64(self) } else { None };
        let (row, col) = place.unwrap_or((0, 0));
        Answer::new(number, vec![row as i64, col as i64], self.lent())
    }
}

impl<P: Px> Call for Morph<P> {
    const NAME: &'static str = "morph";
    const NUMBERS: &'static [u32] = &[1, 2, 3, 6];
    const RESULTS: usize = 0;

    fn make(rng: &mut Rng, depth: i32) -> Self {
        let faults = Faults::draw(rng, Self::NUMBERS);
        let (w, h) = sides(rng, &faults);
        let depth_wrong = P::TAKES_DEPTH && faults.has(3) && rng.chance(40);
        let [bad_alpha, bad_beta] = if depth_wrong { [false; 2] } else { faults.among(rng, 3) };
        let dst_stride = limits::stride(rng, w, h, faults.has(2));
        let dst_length = faults.length(rng, need(h, dst_stride, w), faults.has(6));
        let near_one = rng.range(200, 312) as i32;
        let alpha = limits::within(rng, 1 << 14, bad_alpha);
        Morph {
            depth: limits::depth::<P>(rng, depth, depth_wrong),
            dst: limits::pixels(rng, depth, dst_length),
            dst_stride,
            alpha: if bad_alpha || rng.chance(60) { alpha } else { near_one },
            beta: limits::within(rng, 1 << 22, bad_beta),
            w,
            h,
        }
    }

    fn lent(&self) -> Vec<Buffer> {
        vec![P::buffer(self.dst.clone())]
    }
}

/// Sides for w_mask: even where the flags ask it, or odd there as number 1.
fn w_mask_sides(rng: &mut Rng, faults: &Faults, ss_hor: bool, ss_ver: bool) -> (usize, usize) {
    let odd = faults.has(1) && (ss_hor || ss_ver) && rng.chance(50);
    if !odd {
        let (w, h) = sides(rng, faults);
        let even = |side: usize, flag: bool| if flag && side <= 64 { side + side % 2 } else { side };
        return (even(w, ss_hor), even(h, ss_ver));
    }
    let (w, h) = (limits::side(rng, false), limits::side(rng, false));
    let spoil_w = ss_hor && (!ss_ver || rng.chance(50));
    let odd_below = |side: usize| side - 1 + side % 2;
    match spoil_w {
        true => (odd_below(w), if ss_ver { h + h % 2 } else { h }),
        false => (if ss_hor { w + w % 2 } else { w }, odd_below(h)),
    }
}

/// Which flags w_mask gets: ss_ver without ss_hor only if that is the wrong number.
fn w_mask_flags(rng: &mut Rng, wrong: bool) -> (bool, bool) {
    if wrong { (false, true) } else { rng.pick(&[(false, false), (true, false), (true, true)]) }
}

impl<P: Px> Call for WMask<P> {
    const NAME: &'static str = "w_mask";
    const NUMBERS: &'static [u32] = &[1, 2, 3, 5, 6];
    const RESULTS: usize = 0;

    fn make(rng: &mut Rng, depth: i32) -> Self {
        let faults = Faults::draw(rng, Self::NUMBERS);
        let [bad_sign, bad_flags, bad_depth] = faults.among(rng, 3);
        // The byte set has no depth to be wrong, so its sign is.
        let bad_sign = bad_sign || (bad_depth && !P::TAKES_DEPTH);
        let (ss_hor, ss_ver) = w_mask_flags(rng, bad_flags);
        let (w, h) = w_mask_sides(rng, &faults, ss_hor, ss_ver);
        let [stride_wrong, mask_stride_wrong] = faults.among(rng, 2);
        let [dst_short, mask_short] = faults.among(rng, 6);
        let short = faults.among(rng, 5);
        let (mask_w, mask_h) = (w >> ss_hor as u32, h >> ss_ver as u32);
        let mask_stride = limits::stride(rng, mask_w, mask_h, mask_stride_wrong);
        let length = faults.length(rng, need(mask_h, mask_stride, mask_w), mask_short);
        let sign = if bad_sign { rng.pick(&[-1, 2, i32::MIN, i32::MAX]) } else { rng.pick(&[0, 1]) };
        let mask = mask_values(rng, length, 255);
        let wanted = Wanted { w, h, stride_wrong, depth_wrong: bad_depth, short, dst_short };
        WMask { pair: pair(rng, depth, &faults, wanted), mask, mask_stride, sign, ss_hor, ss_ver }
    }

    fn lent(&self) -> Vec<Buffer> {
        vec![P::buffer(self.pair.dst.clone()), Buffer::Bytes(self.mask.clone())]
    }
}
