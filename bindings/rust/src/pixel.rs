//! Pixels and their depths.

use crate::sys::Calls;

/// A pixel of the byte set, `u8`, or of the 16-bit set, `u16`. No other type can be one.
pub trait Pixel: Calls<Self> + Copy {
    /// The depths that such a pixel can have: [`Eight`], or a [`Depth`].
    type Depth: Copy + Into<i32>;
}

/// The depth of bytes.
#[derive(Clone, Copy, Debug, PartialEq, Eq)]
pub struct Eight;

/// The depth of 16-bit pixels.
#[derive(Clone, Copy, Debug, PartialEq, Eq)]
pub enum Depth {
    /// Pixels to 1023.
    Ten,
    /// Pixels to 4095.
    Twelve,
}

impl Pixel for u8 {
    type Depth = Eight;
}

impl Pixel for u16 {
    type Depth = Depth;
}

impl From<Eight> for i32 {
    fn from(_: Eight) -> i32 {
        8
    }
}

impl From<Depth> for i32 {
    fn from(depth: Depth) -> i32 {
        match depth {
            Depth::Ten => 10,
            Depth::Twelve => 12,
        }
    }
}
