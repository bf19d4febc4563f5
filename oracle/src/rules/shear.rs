//! resolve_divisor_32, get_shear_params and set_affine_mv2d.

use super::Rules;
use crate::answer::{Answer, Buffer, Room};
use crate::calls::shear::{GetShearParams, Record, ResolveDivisor32, SetAffineMv2d};

/// g(v1), before it is cut, is too great for a signed number of 32 bits.
pub const CUT: &str = "g(v1) doesn't fit 32 bits";
/// Q's sum v + 32 - [v<0] leaves 32 bits, for abcd[2] or for abcd[3]. The other two can't.
pub const WRAPS: [&str; 2] = ["Q's sum wraps for abcd[2]", "Q's sum wraps for abcd[3]"];

/// Keeps the low 32 bits as a signed number.
fn low32(value: i128) -> i128 {
    (value + (1 << 31)).rem_euclid(1 << 32) - (1 << 31)
}

/// v + 32 - [v<0], not yet wrapped.
fn q_sum(v: i128) -> i128 {
    v + 32 - (v < 0) as i128
}

/// Q(v): the sum, wrapping, rounded down to a multiple of 64, clipped to -32768 to 32704.
fn q(v: i128) -> i16 {
    let sum = low32(q_sum(v));
    (sum.div_euclid(64) * 64).clamp(-32_768, 32_704) as i16
}

/// The reciprocal y and the shift k of a divisor.
fn divisor(d: i128, recip: &[u16]) -> (i128, u32) {
    let t = (0..31).rev().find(|t| d >> t & 1 == 1).unwrap_or(0);
    let e = d - (1 << t);
    let f = if t <= 7 { e << (7 - t) } else { (e + (1 << (t - 8))) >> (t - 7) };
    (recip[f as usize] as i128, t + 9)
}

impl Rules for ResolveDivisor32 {
    fn rule(&self) -> Answer {
        let (y, shift) = divisor(self.d as i128, &self.recip);
        Answer::done(vec![y as i64, shift as i64], vec![])
    }
}

/// (|v| + 2^(k-1)) >> k, not yet cut.
fn quotient(v: i128, k: u32) -> i128 {
    (v.abs() + (1 << (k - 1))) >> k
}

/// g(v): the quotient cut to 32 bits, sign of v restored, wrapping.
fn g(v: i128, k: u32) -> i128 {
    let cut = low32(quotient(v, k));
    low32(if v < 0 { -cut } else { cut })
}

/// The steps of get_shear_params that Q and g take.
struct Steps {
    v1: i128,
    k: u32,
    /// Q's arguments, for a, b, c and d.
    before_q: [i128; 4],
}

/// The steps of an accepted call.
fn steps(call: &GetShearParams) -> Steps {
    let [_, _, m2, m3, m4, m5] = call.record.matrix.map(i128::from);
    let (y, k) = divisor(m2, &call.recip);
    let (v1, v2) = (65_536 * m4 * y, m3 * m4 * y);
    let last = low32(low32(m5 - g(v2, k)) - 65_536);
    Steps { v1, k, before_q: [m2 - 65_536, m3, g(v1, k), last] }
}

impl Rules for GetShearParams {
    // affine is 1 when 4|a| + 7|b| and 4|c| + 4|d| are both below 196,608.
    fn rule(&self) -> Answer {
        let abcd = steps(self).before_q.map(q);
        let [a, b, c, d] = abcd.map(|shear| (shear as i64).abs());
        let affine = 4 * a + 7 * b < 196_608 && 4 * c + 4 * d < 196_608;
        let record = Record { matrix: self.record.matrix, abcd, affine: affine as i32 };
        Answer::done(vec![], record.buffers())
    }

    fn rare(&self) -> Vec<&'static str> {
        let Steps { v1, k, before_q } = steps(self);
        let mut rare = vec![];
        if quotient(v1, k) > i32::MAX as i128 {
            rare.push(CUT);
        }
        let wraps = before_q[2..].iter().map(|v| low32(q_sum(*v)) != q_sum(*v));
        rare.extend(wraps.zip(WRAPS).filter(|(wraps, _)| *wraps).map(|(_, name)| name));
        rare
    }
}

impl Rules for SetAffineMv2d {
    // The other entries stay.
    fn rule(&self) -> Answer {
        let [_, _, m2, m3, m4, m5] = self.matrix.map(i128::from);
        let x = 4 * self.bx4 as i128 + 2 * self.bw4 as i128 - 1;
        let y = 4 * self.by4 as i128 + 2 * self.bh4 as i128 - 1;
        let clipped = |v: i128| v.clamp(-134_217_728, 134_217_664) as i32;
        let mut matrix = self.matrix;
        matrix[0] = clipped(8192 * self.mv_x as i128 - x * (m2 - 65_536) - y * m3);
        matrix[1] = clipped(8192 * self.mv_y as i128 - x * m4 - y * (m5 - 65_536));
        Answer::done(vec![], vec![Buffer::Ints(Room(matrix.to_vec()))])
    }
}
