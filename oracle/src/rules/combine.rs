//! avg, w_avg, mask, blend, morph and w_mask.

use super::{Rules, bias, bits, clip, write_block};
use crate::answer::{Answer, Buffer, Px, Room};
use crate::calls::combine::{Avg, Blend, Mask, Morph, Pair, WAvg, WMask};

/// The two intermediates at a column and row.
fn both<P: Px>(pair: &Pair<P>, x: usize, y: usize) -> (i64, i64) {
    let place = y * pair.w + x;
    (pair.tmp1[place] as i64, pair.tmp2[place] as i64)
}

/// The destination when each pixel is made by a rule of its place.
fn combined<P: Px>(pair: &Pair<P>, pixel: impl FnMut(usize, usize) -> P) -> Room<P> {
    let mut dst = pair.dst.clone();
    write_block(&mut dst, pair.dst_stride, pair.w, pair.h, pixel);
    dst
}

impl<P: Px> Rules for Avg<P> {
    // clip((a + b + 2^B + 2P) >> (B+1)).
    fn rule(&self) -> Answer {
        let (depth, b) = (self.0.depth, bits(self.0.depth));
        let dst = combined(&self.0, |x, y| {
            let (one, two) = both(&self.0, x, y);
            clip(depth, (one + two + (1 << b) + 2 * bias(depth)) >> (b + 1))
        });
        Answer::done(vec![], vec![P::buffer(dst)])
    }
}

impl<P: Px> Rules for WAvg<P> {
    // clip((ka + (16-k)b + 8x2^B + 16P) >> (B+4)).
    fn rule(&self) -> Answer {
        let (depth, b, k) = (self.pair.depth, bits(self.pair.depth), self.weight as i64);
        let dst = combined(&self.pair, |x, y| {
            let (one, two) = both(&self.pair, x, y);
            clip(depth, (k * one + (16 - k) * two + 8 * (1 << b) + 16 * bias(depth)) >> (b + 4))
        });
        Answer::done(vec![], vec![P::buffer(dst)])
    }
}

/// clip((ma + (64-m)b + 32x2^B + 64P) >> (B+6)).
fn masked<P: Px>(depth: i32, m: i64, (one, two): (i64, i64)) -> P {
    let b = bits(depth);
    clip(depth, (m * one + (64 - m) * two + 32 * (1 << b) + 64 * bias(depth)) >> (b + 6))
}

impl<P: Px> Rules for Mask<P> {
    fn rule(&self) -> Answer {
        let dst = combined(&self.pair, |x, y| {
            let m = self.mask[y * self.pair.w + x] as i64;
            masked(self.pair.depth, m, both(&self.pair, x, y))
        });
        Answer::done(vec![], vec![P::buffer(dst)])
    }
}

impl<P: Px> Rules for Blend<P> {
    // (d(64-m) + tm + 32) >> 6; row and column are 0.
    fn rule(&self) -> Answer {
        let mut dst = self.dst.clone();
        write_block(&mut dst, self.dst_stride, self.w, self.h, |x, y| {
            let d = self.dst[y * self.dst_stride + x].wide();
            let t = self.tmp[y * self.w + x].wide();
            let m = self.mask[y * self.w + x] as i64;
            P::low((d * (64 - m) + t * m + 32) >> 6)
        });
        Answer::done(vec![0, 0], vec![P::buffer(dst)])
    }
}

impl<P: Px> Rules for Morph<P> {
    // clip((alpha x d + beta) >> 8).
    fn rule(&self) -> Answer {
        let mut dst = self.dst.clone();
        write_block(&mut dst, self.dst_stride, self.w, self.h, |x, y| {
            let d = self.dst[y * self.dst_stride + x].wide();
            clip(self.depth, (self.alpha as i64 * d + self.beta as i64) >> 8)
        });
        Answer::done(vec![], vec![P::buffer(dst)])
    }
}

/// T = depth + B - 4; m = min(38 + ((|a-b| + 2^(T-5)) >> T), 64).
fn weight(depth: i32, (one, two): (i64, i64)) -> i64 {
    let t = depth as u32 + bits(depth) - 4;
    (38 + (((one - two).abs() + (1 << (t - 5))) >> t)).min(64)
}

impl<P: Px> WMask<P> {
    /// The weight m at a column and row.
    fn weight(&self, x: usize, y: usize) -> i64 {
        weight(self.pair.depth, both(&self.pair, x, y))
    }

    /// What the mask keeps at its own column and row.
    fn kept(&self, x: usize, y: usize) -> u8 {
        let sign = self.sign as i64;
        let two = |row: usize| self.weight(2 * x, row) + self.weight(2 * x + 1, row);
        let value = match (self.ss_hor, self.ss_ver) {
            (false, _) => self.weight(x, y),
            (true, false) => (two(y) + 1 - sign) >> 1,
            (true, true) => (two(2 * y) + two(2 * y + 1) + 2 - sign) >> 2,
        };
        value as u8
    }
}

impl<P: Px> Rules for WMask<P> {
    fn rule(&self) -> Answer {
        let dst = combined(&self.pair, |x, y| masked(self.pair.depth, self.weight(x, y), both(&self.pair, x, y)));
        let mut mask = self.mask.clone();
        let mask_w = if self.ss_hor { self.pair.w / 2 } else { self.pair.w };
        let mask_h = if self.ss_ver { self.pair.h / 2 } else { self.pair.h };
        write_block(&mut mask, self.mask_stride, mask_w, mask_h, |x, y| self.kept(x, y));
        Answer::done(vec![], vec![P::buffer(dst), Buffer::Bytes(mask)])
    }
}
