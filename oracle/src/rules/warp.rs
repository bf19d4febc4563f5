//! warp_affine_8x8 and warp_affine_8x8t.

use super::{Rules, bits, clip, low16, minus_bias, round, write_block};
use crate::answer::{Answer, Buffer, Px};
use crate::calls::warp::{Source, WarpAffine, WarpAffineT};

/// A filter's tap, 0 to 7; filter number 192 + ((start + c x across + r x down + 512) >> 10).
fn tap<P: Px>(from: &Source<P>, start: i32, shears: [i16; 2], c: i64, r: i64, tap: i64) -> i64 {
    let number = 192 + ((start as i64 + c * shears[0] as i64 + r * shears[1] as i64 + 512) >> 10);
    from.warp[(8 * number + tap) as usize] as i64
}

/// The first pass at the r-th of rows -3 to 11: low16((S + half) >> (7-B)).
fn first_pass<P: Px>(from: &Source<P>, c: i64, r: i64) -> i64 {
    let shears = [from.abcd[0], from.abcd[1]];
    let row = from.src_off as i64 + (r - 3) * from.src_stride as i64;
    let pixel = |column: i64| from.src[(row + column) as usize].wide();
    let s = (0..8).map(|t| tap(from, from.mx, shears, c, r, t) * pixel(c + t - 3)).sum();
    low16(round(s, 7 - bits(from.depth)))
}

/// The second pass at an output place: its S, rounded and shifted, low16. Row r is the first pass's row r + 3.
fn second_pass<P: Px>(from: &Source<P>, c: i64, r: i64, shift: u32) -> i64 {
    let shears = [from.abcd[2], from.abcd[3]];
    let s = (0..8).map(|t| tap(from, from.my, shears, c, r, t) * first_pass(from, c, r + t)).sum();
    low16(round(s, shift))
}

impl<P: Px> Rules for WarpAffine<P> {
    fn rule(&self) -> Answer {
        let (from, mut dst) = (&self.from, self.dst.clone());
        let shift = 7 + bits(from.depth);
        write_block(&mut dst, self.dst_stride, 8, 8, |x, y| {
            clip(from.depth, second_pass(from, x as i64, y as i64, shift))
        });
        Answer::done(vec![], vec![P::buffer(dst)])
    }
}

impl<P: Px> Rules for WarpAffineT<P> {
    fn rule(&self) -> Answer {
        let (from, mut tmp) = (&self.from, self.tmp.clone());
        write_block(&mut tmp, self.tmp_stride, 8, 8, |x, y| {
            minus_bias(from.depth, second_pass(from, x as i64, y as i64, 7))
        });
        Answer::done(vec![], vec![Buffer::Shorts(tmp)])
    }
}
