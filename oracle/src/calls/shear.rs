//! Calls of resolve_divisor_32, get_shear_params and set_affine_mv2d.

use super::Call;
use crate::answer::{Buffer, Room};
use crate::limits::{self, Faults};
use crate::rng::Rng;
use crate::tables;

/// Matrix entries 2 to 5 lie within plus and minus this.
pub const MATRIX_LIMIT: i64 = 1 << 22;

/// A warp record.
#[derive(Clone, Debug)]
pub struct Record {
    pub matrix: [i32; 6],
    pub abcd: [i16; 4],
    pub affine: i32,
}

impl Record {
    /// The record's parts as buffers, in the interface's order.
    pub fn buffers(&self) -> Vec<Buffer> {
        vec![
            Buffer::Ints(Room(self.matrix.to_vec())),
            Buffer::Shorts(Room(self.abcd.to_vec())),
            Buffer::Ints(Room(vec![self.affine])),
        ]
    }
}

#[derive(Clone, Debug)]
pub struct ResolveDivisor32 {
    pub d: u32,
    pub recip: Room<u16>,
}

#[derive(Clone, Debug)]
pub struct GetShearParams {
    pub record: Record,
    pub recip: Room<u16>,
}

#[derive(Clone, Debug)]
pub struct SetAffineMv2d {
    pub bw4: i32,
    pub bh4: i32,
    pub mv_x: i32,
    pub mv_y: i32,
    pub matrix: [i32; 6],
    pub bx4: i32,
    pub by4: i32,
}

/// A divisor: about a power of two, anything with any top bit, or outside.
fn divisor(rng: &mut Rng, wrong: bool) -> u32 {
    if wrong {
        return rng.pick(&[0, 0, 1 << 31, (1 << 31) + 1, u32::MAX]);
    }
    let top = rng.range(0, 30);
    let power = 1i64 << top;
    let any = power + rng.range(0, power - 1);
    rng.pick(&[power, power + 1, 2 * power - 1, any, any, any]).clamp(1, (1 << 31) - 1) as u32
}

impl Call for ResolveDivisor32 {
    const NAME: &'static str = "resolve_divisor_32";
    const NUMBERS: &'static [u32] = &[3, 4];
    const RESULTS: usize = 2;

    fn make(rng: &mut Rng, _depth: i32) -> Self {
        let faults = Faults::draw(rng, Self::NUMBERS);
        ResolveDivisor32 { d: divisor(rng, faults.has(3)), recip: tables::recip(rng, faults.has(4)) }
    }

    fn lent(&self) -> Vec<Buffer> {
        vec![]
    }
}

/// A matrix entry 2 above 0: small ones make great quotients; or about 65536, as in real clips.
fn diagonal(rng: &mut Rng) -> i32 {
    let top = rng.range(0, 22);
    let any = rng.range(1, 1 << top);
    let near_one = rng.range(60_000, 72_000);
    rng.pick(&[1, 2, MATRIX_LIMIT, any, any, any, near_one, near_one, near_one]) as i32
}

/// A matrix: entries 0 and 1 anything, 2 above 0 unless wrong, the rest anything within the limit.
fn matrix(rng: &mut Rng, outside: [bool; 4], at_most_zero: bool) -> [i32; 6] {
    let mut matrix = [rng.next() as i32, rng.next() as i32, 0, 0, 0, 0];
    let small = rng.chance(30);
    for entry in 3..6 {
        // Odd multiples of 32 are the halves that Q rounds by their sign.
        let (any, half) = (rng.range(-9000, 9000) as i32, 32 * rng.range(-400, 400) as i32);
        let real = rng.pick(&[any, half]);
        let any = limits::within(rng, MATRIX_LIMIT, outside[entry - 2]);
        matrix[entry] = if small && !outside[entry - 2] { real } else { any };
    }
    if small && !outside[3] {
        matrix[5] += 65_536;
    }
    matrix[2] = match (outside[0], at_most_zero) {
        (true, _) => limits::within(rng, MATRIX_LIMIT, true),
        (_, true) => rng.pick(&[0, 0, -1, -65_536, -MATRIX_LIMIT as i32]),
        _ => diagonal(rng),
    };
    matrix
}

/// Makes Q's sum wrap for abcd[3]: entry 2 is 1 and its reciprocal 512, so g(v2) is m3 x m4, taken near 2^31; entry 5
/// then puts Q's argument within 32 of 2^31.
fn wrap_last(rng: &mut Rng, matrix: &mut [i32; 6], recip: &mut [u16]) {
    recip[0] = 512;
    matrix[2] = 1;
    let m4 = rng.range(1 << 10, MATRIX_LIMIT);
    let turns = rng.range(0, (MATRIX_LIMIT * m4 / (1 << 32) - 1).max(0));
    let m3 = ((1 << 31) + turns * (1 << 32)) / m4;
    if m3 > MATRIX_LIMIT {
        return;
    }
    let wanted = (1 << 31) - rng.range(1, 32);
    let m5 = (wanted + m3 * m4 + 65_536) as i32;
    let sign = rng.pick(&[1, -1]);
    if (m5 as i64).abs() <= MATRIX_LIMIT {
        (matrix[3], matrix[4], matrix[5]) = ((sign * m3) as i32, (sign * m4) as i32, m5);
    }
}

/// Makes Q's sum wrap for abcd[2]: with shift k = 16 + s, g(v1) is m4 x y rounded and shifted by s; looks for y and m4
/// that put it within 32 below 2^31.
fn wrap_third(rng: &mut Rng, matrix: &mut [i32; 6], recip: &mut [u16]) {
    let s = rng.range(1, 5);
    let top = 7 + s;
    for _ in 0..400 {
        let y = rng.range(1 << (9 + s), 65_535);
        let product = 1i64 << (31 + s);
        let (m4, rest) = (product / y, product % y);
        if m4 <= MATRIX_LIMIT && rest > 1 << s && rest < 31 << s {
            // A power of two has e = 0, so its reciprocal is the first.
            recip[0] = y as u16;
            matrix[2] = 1 << top;
            matrix[4] = m4 as i32;
            return;
        }
    }
}

/// Puts both sums that decide affine about their limit, 196,608 = 64 x 3072. Entry 2 at or about 65536, with its
/// reciprocal 512, makes the first two shears m2 - 65536 and m3, or the last two m4 and m5 - 65536.
fn affine_limit(rng: &mut Rng, matrix: &mut [i32; 6], recip: &mut [u16]) {
    recip[0] = 512;
    let (sign, other, step) = (rng.pick(&[64, -64]), rng.pick(&[64, -64]), rng.pick(&[0, 0, -1, 1]));
    *matrix = [matrix[0], matrix[1], 65_536, 0, 0, 65_536];
    if rng.chance(50) {
        // 4 (768 - 7k) + 7 (4k) is 3072.
        let k = rng.range(37, 109) as i32;
        (matrix[2], matrix[3]) = (65_536 + sign * (768 - 7 * k), other * (4 * k + step));
    } else {
        let c = rng.range(258, 510) as i32;
        (matrix[4], matrix[5]) = (sign * c, 65_536 + other * (768 - c + step));
    }
}

impl Call for GetShearParams {
    const NAME: &'static str = "get_shear_params";
    const NUMBERS: &'static [u32] = &[3, 4, 8];
    const RESULTS: usize = 0;

    fn make(rng: &mut Rng, _depth: i32) -> Self {
        let faults = Faults::draw(rng, Self::NUMBERS);
        let outside = faults.among(rng, 3);
        let mut matrix = matrix(rng, outside, faults.has(8));
        let mut recip = tables::recip(rng, faults.has(4));
        if !faults.has(3) && !faults.has(4) && !faults.has(8) {
            match rng.range(0, 9) {
                0 => wrap_last(rng, &mut matrix, &mut recip),
                1 => wrap_third(rng, &mut matrix, &mut recip),
                2 => affine_limit(rng, &mut matrix, &mut recip),
                _ => {}
            }
        }
        let abcd = [0; 4].map(|_: i16| rng.next() as i16);
        GetShearParams { record: Record { matrix, abcd, affine: rng.next() as i32 }, recip }
    }

    fn lent(&self) -> Vec<Buffer> {
        self.record.buffers()
    }
}

/// A size from 1 to 64 in units of four pixels, or outside.
fn size4(rng: &mut Rng, wrong: bool) -> i32 {
    if wrong { rng.pick(&[0, -1, 65, i32::MIN, i32::MAX]) } else { limits::side(rng, false) as i32 }
}

/// A position from 0 to 16,384 in units of four pixels, or outside.
fn place4(rng: &mut Rng, wrong: bool) -> i32 {
    let any = rng.range(0, 16_384) as i32;
    if wrong { rng.pick(&[-1, 16_385, i32::MIN, i32::MAX]) } else { rng.pick(&[0, 1, 16_384, any, any, any]) }
}

impl Call for SetAffineMv2d {
    const NAME: &'static str = "set_affine_mv2d";
    const NUMBERS: &'static [u32] = &[1, 3];
    const RESULTS: usize = 0;

    fn make(rng: &mut Rng, _depth: i32) -> Self {
        let faults = Faults::draw(rng, Self::NUMBERS);
        let [bad_bw4, bad_bh4] = faults.among(rng, 1);
        let [bad_mv_x, bad_mv_y, bad_bx4, bad_by4, bad2, bad3, bad4, bad5] = faults.among(rng, 3);
        // Here entry 2 may well be 0 or below.
        let low = rng.chance(20);
        SetAffineMv2d {
            bw4: size4(rng, bad_bw4),
            bh4: size4(rng, bad_bh4),
            mv_x: limits::within(rng, 1 << 20, bad_mv_x),
            mv_y: limits::within(rng, 1 << 20, bad_mv_y),
            matrix: matrix(rng, [bad2, bad3, bad4, bad5], low),
            bx4: place4(rng, bad_bx4),
            by4: place4(rng, bad_by4),
        }
    }

    fn lent(&self) -> Vec<Buffer> {
        vec![Buffer::Ints(Room(self.matrix.to_vec()))]
    }
}
