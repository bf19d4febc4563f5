//! Why a call was refused.

use std::error::Error;
use std::fmt;

/// Why a call was refused. Where several reasons apply, it is the one of the lowest number.
#[derive(Clone, Copy, Debug, PartialEq, Eq)]
pub enum Refusal {
    /// 1: a size is outside its range, or `w_mask` has an odd side that it halves.
    Size,
    /// 2: a stride is outside its range.
    Stride,
    /// 3: another number is outside its range, or ss_ver is set without ss_hor.
    Number,
    /// 4: a table has a wrong length, or a needed filter isn't in it.
    Table,
    /// 5: a buffer that is read doesn't hold every place that is read.
    Read,
    /// 6: a buffer that is written, scratch included, is too short.
    Written,
    /// 7: `blend` meets a mask value above 64, the first of them here.
    MaskValue {
        /// Its row in the block.
        row: usize,
        /// Its column in the block.
        col: usize,
    },
    /// 8: `get_shear_params` has matrix\[2\] at or below 0.
    NoShears,
}

impl Refusal {
    /// The number that the library gives for it.
    pub fn number(self) -> u32 {
        match self {
            Refusal::Size => 1,
            Refusal::Stride => 2,
            Refusal::Number => 3,
            Refusal::Table => 4,
            Refusal::Read => 5,
            Refusal::Written => 6,
            Refusal::MaskValue { .. } => 7,
            Refusal::NoShears => 8,
        }
    }
}

impl fmt::Display for Refusal {
    fn fmt(&self, f: &mut fmt::Formatter) -> fmt::Result {
        match self {
            Refusal::Size => f.write_str("a size is outside its range"),
            Refusal::Stride => f.write_str("a stride is outside its range"),
            Refusal::Number => f.write_str("a number is outside its range"),
            Refusal::Table => f.write_str("a table has a wrong length, or lacks a needed filter"),
            Refusal::Read => f.write_str("a buffer that is read is too short"),
            Refusal::Written => f.write_str("a buffer that is written is too short"),
            Refusal::MaskValue { row, col } => write!(f, "the mask is above 64 at row {row}, column {col}"),
            Refusal::NoShears => f.write_str("the matrix has no shears"),
        }
    }
}

impl Error for Refusal {}

/// What the number of a C function says; blend sees to 7 itself, since 7 comes with a place.
pub(crate) fn done(number: u32) -> Result<(), Refusal> {
    match number {
        0 => Ok(()),
        1 => Err(Refusal::Size),
        2 => Err(Refusal::Stride),
        3 => Err(Refusal::Number),
        4 => Err(Refusal::Table),
        5 => Err(Refusal::Read),
        6 => Err(Refusal::Written),
        8 => Err(Refusal::NoShears),
        _ => unreachable!("the library gives no number {number} here"),
    }
}
