//! The warp model.

use crate::refusal::{Refusal, done};
use crate::sys;

/// A matrix of six entries, its four shears, and whether they are small enough to warp by (1 or 0).
#[derive(Clone, Copy, Debug, Default, PartialEq, Eq)]
pub struct WarpParams {
    /// Entries 2 to 5 are within ±2^22.
    pub matrix: [i32; 6],
    /// The shears.
    pub abcd: [i16; 4],
    /// 1 or 0, as `get_shear_params` left it.
    pub affine: i32,
}

impl WarpParams {
    /// Sets the shears and `affine` from the matrix. `recip` has 129 numbers.
    ///
    /// ```
    /// let mut model = hemavolups::WarpParams { matrix: [0, 0, 65536, 32, 0, 65536], ..Default::default() };
    /// model.get_shear_params(&[0; 129])?;
    /// assert_eq!((model.abcd, model.affine), ([0, 64, 0, 0], 1));
    /// # Ok::<(), hemavolups::Refusal>(())
    /// ```
    pub fn get_shear_params(&mut self, recip: &[u16]) -> Result<(), Refusal> {
        let WarpParams { matrix, abcd, affine } = self;
        done(unsafe { sys::hv_get_shear_params(matrix, abcd, affine, recip.as_ptr(), recip.len()) })
    }

    /// Sets entries 0 and 1, so that a block moves by `mv_x`, `mv_y`. Its sides `bw4`, `bh4` and its place `bx4`, `by4`
    /// are in units of 4 pixels.
    pub fn set_affine_mv2d(
        &mut self,
        bw4: i32,
        bh4: i32,
        mv_x: i32,
        mv_y: i32,
        bx4: i32,
        by4: i32,
    ) -> Result<(), Refusal> {
        done(unsafe { sys::hv_set_affine_mv2d(bw4, bh4, mv_x, mv_y, &mut self.matrix, bx4, by4) })
    }
}

/// A reciprocal, near `y` / 2^`shift`.
#[derive(Clone, Copy, Debug, PartialEq, Eq)]
pub struct Divisor {
    /// A number of the table.
    pub y: i32,
    /// The divisor's top bit + 9.
    pub shift: i32,
}

/// The reciprocal of `d`, which is 1 to 2^31 - 1. `recip` has 129 numbers.
pub fn resolve_divisor_32(d: u32, recip: &[u16]) -> Result<Divisor, Refusal> {
    let (mut y, mut shift) = (0, 0);
    let number = unsafe { sys::hv_resolve_divisor_32(d, recip.as_ptr(), recip.len(), &mut y, &mut shift) };
    done(number).map(|()| Divisor { y, shift })
}
