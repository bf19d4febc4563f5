//! Numbers, strides, lengths and contents for made-up calls, most of them at a limit.

use crate::answer::{Px, Room};
use crate::rng::Rng;

/// A buffer longer than this is never made; a call that needs one is a refused one.
const LONGEST: u128 = 1 << 22;
/// Calls refused for a size or stride anyway get no longer buffer than this.
const LONGEST_REFUSED: u128 = 1 << 12;
/// Contents repeat after so many numbers. A prime, so that rows of any stride differ.
const PERIOD: usize = 8191;

/// The numbers that a made-up call is meant to earn: none in about seven of ten calls, else one or two of the entry's.
pub struct Faults(u32);

impl Faults {
    /// No number is meant.
    pub const NONE: Faults = Faults(0);

    /// Draws faults out of the numbers that the entry can give.
    pub fn draw(rng: &mut Rng, numbers: &[u32]) -> Self {
        let lot = rng.range(0, 99);
        let mut faults = 0;
        if lot >= 70 {
            faults |= 1 << rng.pick(numbers);
        }
        if lot >= 92 {
            faults |= 1 << rng.pick(numbers);
        }
        Faults(faults)
    }

    /// Is the call to earn this number?
    pub fn has(&self, number: u32) -> bool {
        self.0 >> number & 1 != 0
    }

    /// Which of K like things go wrong for this number: one at least if it is to be earned, else none.
    pub fn among<const K: usize>(&self, rng: &mut Rng, number: u32) -> [bool; K] {
        let mut wrong = [false; K];
        if self.has(number) {
            wrong[rng.place(0, K - 1)] = true;
            let other = rng.place(0, K - 1);
            wrong[other] |= rng.chance(30);
        }
        wrong
    }

    /// A buffer's length for so many needed places: exact, longer, or short.
    pub fn length(&self, rng: &mut Rng, need: u128, short: bool) -> usize {
        let longest = if self.has(1) || self.has(2) { LONGEST_REFUSED } else { LONGEST };
        if need > longest {
            return rng.place(0, 300);
        }
        let need = need as usize;
        if !short {
            let longer = rng.place(1, 90);
            return need + rng.pick(&[0, 0, 1, longer]);
        }
        let below = rng.place(0, need.saturating_sub(1));
        rng.pick(&[need.saturating_sub(1), need.saturating_sub(1), need / 2, 0, below])
    }
}

/// (rows - 1) x stride + row, the places of a buffer of rows; 0 for no rows.
pub fn need(rows: usize, stride: usize, row: usize) -> u128 {
    match rows {
        0 => 0,
        _ => (rows as u128 - 1) * stride as u128 + row as u128,
    }
}

/// A block's side, 1 to 64, or one outside.
pub fn side(rng: &mut Rng, wrong: bool) -> usize {
    side_up_to(rng, 64, wrong)
}

/// A side from 1 to a limit, often at either end or about 4 and 8, or one outside.
pub fn side_up_to(rng: &mut Rng, limit: usize, wrong: bool) -> usize {
    if wrong {
        return rng.pick(&[0, 0, limit + 1, limit + 1, 2 * limit, 1 << 32, (1 << 32) + 1, 1 << 63, usize::MAX]);
    }
    let (any, small) = (rng.place(1, limit), rng.place(1, limit.min(20)));
    rng.pick(&[1, 2, 3, 4, 5, 8, limit - 1, limit, any, small, small, small])
}

/// A stride for rows of this length: at the row, above it, at 32,768, or outside.
pub fn stride(rng: &mut Rng, row: usize, rows: usize, wrong: bool) -> usize {
    if wrong {
        return rng.pick(&[
            row.wrapping_sub(1),
            row.saturating_sub(1),
            0,
            32_769,
            32_769,
            (1 << 32) + 64,
            1 << 63,
            usize::MAX,
        ]);
    }
    let row = row.min(32_768);
    // Great strides on many rows cost time, so most great strides go with few rows.
    if rng.chance(8) && (rows <= 5 || rng.chance(4)) {
        let any = rng.place(row, 32_768);
        return rng.pick(&[32_768, 32_767.max(row), any]);
    }
    let longer = rng.place(row, row + 70).min(32_768);
    rng.pick(&[row, row, (row + 1).min(32_768), longer, longer])
}

/// The set's depth, or one outside; the byte set has no other.
pub fn depth<P: Px>(rng: &mut Rng, depth: i32, wrong: bool) -> i32 {
    if wrong && P::TAKES_DEPTH { rng.pick(&[8, 9, 11, 13, 0, -1, 14, 16, 264, i32::MAX, i32::MIN]) } else { depth }
}

/// A number from -limit to limit, often at either end or near 0, or one outside.
pub fn within(rng: &mut Rng, limit: i64, wrong: bool) -> i32 {
    if wrong {
        return rng.pick(&[-limit - 1, limit + 1, -2 * limit, 2 * limit - 1, i32::MIN as i64, i32::MAX as i64]) as i32;
    }
    let (any, small) = (rng.range(-limit, limit), rng.range(-40, 40));
    rng.pick(&[-limit, limit, 0, 1, -1, any, any, any, small]) as i32
}

/// One filter type, or one outside.
pub fn filter_type(rng: &mut Rng, wrong: bool) -> i32 {
    if wrong { rng.pick(&[-2, 3, -2, 3, i32::MIN, i32::MAX]) } else { rng.pick(&[-1, 0, 1, 2]) }
}

/// A fraction from 0 to a last one, often at either end, or one outside.
pub fn fraction(rng: &mut Rng, last: i32, wrong: bool) -> i32 {
    if wrong {
        return rng.pick(&[-1, last.saturating_add(1), -16, i32::MIN, i32::MAX]);
    }
    let any = rng.range(0, last as i64) as i32;
    rng.pick(&[0, 0, 1.min(last), 8.min(last), last, any, any, any])
}

/// A list of so many numbers; long ones repeat, for they cost time.
pub fn list<T: Clone>(rng: &mut Rng, length: usize, mut one: impl FnMut(&mut Rng) -> T) -> Room<T> {
    let some: Vec<T> = (0..length.min(PERIOD)).map(|_| one(rng)).collect();
    Room(some.iter().cycle().take(length).cloned().collect())
}

/// Pixels: all 0, all at the top, both mixed, anything within the depth, or above it too.
pub fn pixels<P: Px>(rng: &mut Rng, depth: i32, length: usize) -> Room<P> {
    let top = (1i64 << depth.clamp(8, 16)) - 1;
    let whole = P::MAX.wide();
    match rng.range(0, 9) {
        0 => list(rng, length, |_| P::low(0)),
        1 => list(rng, length, |_| P::low(top)),
        2 => list(rng, length, |_| P::low(whole)),
        3 => list(rng, length, |rng| P::low(rng.pick(&[0, top]))),
        4 => list(rng, length, |rng| P::low(rng.pick(&[0, whole]))),
        5 => list(rng, length, |rng| P::low(rng.next() as i64)),
        6 => list(rng, length, |rng| P::low(rng.pick(&[0, 1, top - 1, top, (top + 1).min(whole), whole]))),
        _ => list(rng, length, |rng| P::low(rng.range(0, top))),
    }
}

/// Intermediates: at the ends of sixteen bits, mixed, small, or anything.
pub fn words(rng: &mut Rng, length: usize) -> Room<i16> {
    match rng.range(0, 9) {
        0 => list(rng, length, |_| i16::MIN),
        1 => list(rng, length, |_| i16::MAX),
        2 => list(rng, length, |rng| rng.pick(&[i16::MIN, i16::MAX])),
        3 => list(rng, length, |rng| rng.range(-300, 300) as i16),
        4 | 5 => list(rng, length, |rng| rng.range(-8192, 8192) as i16),
        _ => list(rng, length, |rng| rng.next() as i16),
    }
}

/// A table of filter bytes: anything, or at the ends of eight bits.
pub fn filter_bytes(rng: &mut Rng, length: usize) -> Room<i8> {
    match rng.range(0, 9) {
        0 => list(rng, length, |_| i8::MIN),
        1 => list(rng, length, |rng| rng.pick(&[i8::MIN, i8::MAX])),
        2 | 3 => list(rng, length, |rng| rng.range(-20, 40) as i8),
        _ => list(rng, length, |rng| rng.next() as i8),
    }
}
