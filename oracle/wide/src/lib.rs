//! Stands in for the crate `wide`: eight 32-bit lanes, with what simd.rs uses of them and no more.
//! Each lane wraps as the vector instructions do; a shift takes its count modulo 32.

use std::ops::{Add, AddAssign, Mul, Shl, Shr, Sub};

/// Eight lanes of i32.
#[allow(non_camel_case_types)]
#[derive(Clone, Copy, Debug, PartialEq, Eq)]
pub struct i32x8([i32; 8]);

/// Lane by lane: is the left below the right?
pub trait CmpLt<Rhs = Self> {
    type Output;

    fn cmp_lt(self, rhs: Rhs) -> Self::Output;
}

impl i32x8 {
    /// The same number in every lane.
    #[inline(always)]
    pub fn splat(value: i32) -> Self {
        i32x8([value; 8])
    }

    /// The lanes, first lane first.
    #[inline(always)]
    pub fn to_array(self) -> [i32; 8] {
        self.0
    }

    /// The greater of each pair of lanes.
    #[inline(always)]
    pub fn max(self, rhs: Self) -> Self {
        self.zip(rhs, |a, b| if a > b { a } else { b })
    }

    /// The smaller of each pair of lanes.
    #[inline(always)]
    pub fn min(self, rhs: Self) -> Self {
        self.zip(rhs, |a, b| if a < b { a } else { b })
    }

    /// Each lane without its sign.
    #[inline(always)]
    pub fn abs(self) -> Self {
        i32x8(self.0.map(i32::wrapping_abs))
    }

    /// Bits of `t` where this mask has ones, of `f` elsewhere.
    #[inline(always)]
    pub fn blend(self, t: Self, f: Self) -> Self {
        let mut lanes = [0; 8];
        for (k, lane) in lanes.iter_mut().enumerate() {
            *lane = (t.0[k] & self.0[k]) | (f.0[k] & !self.0[k]);
        }
        i32x8(lanes)
    }

    /// One operation on each pair of lanes.
    #[inline(always)]
    fn zip(self, rhs: Self, op: impl Fn(i32, i32) -> i32) -> Self {
        let mut lanes = [0; 8];
        for (k, lane) in lanes.iter_mut().enumerate() {
            *lane = op(self.0[k], rhs.0[k]);
        }
        i32x8(lanes)
    }
}

impl From<[i32; 8]> for i32x8 {
    #[inline(always)]
    fn from(lanes: [i32; 8]) -> Self {
        i32x8(lanes)
    }
}

impl CmpLt for i32x8 {
    type Output = Self;

    // A lane of ones (-1) says yes, as vector comparisons do.
    #[inline(always)]
    fn cmp_lt(self, rhs: Self) -> Self {
        self.zip(rhs, |a, b| -((a < b) as i32))
    }
}

impl Add for i32x8 {
    type Output = Self;

    #[inline(always)]
    fn add(self, rhs: Self) -> Self {
        self.zip(rhs, i32::wrapping_add)
    }
}

impl AddAssign for i32x8 {
    #[inline(always)]
    fn add_assign(&mut self, rhs: Self) {
        *self = *self + rhs;
    }
}

impl Sub for i32x8 {
    type Output = Self;

    #[inline(always)]
    fn sub(self, rhs: Self) -> Self {
        self.zip(rhs, i32::wrapping_sub)
    }
}

impl Mul for i32x8 {
    type Output = Self;

    #[inline(always)]
    fn mul(self, rhs: Self) -> Self {
        self.zip(rhs, i32::wrapping_mul)
    }
}

impl Shl for i32x8 {
    type Output = Self;

    #[inline(always)]
    fn shl(self, rhs: Self) -> Self {
        self.zip(rhs, |a, n| a.wrapping_shl(n as u32))
    }
}

impl Shr for i32x8 {
    type Output = Self;

    // Arithmetic: the sign is kept.
    #[inline(always)]
    fn shr(self, rhs: Self) -> Self {
        self.zip(rhs, |a, n| a.wrapping_shr(n as u32))
    }
}
