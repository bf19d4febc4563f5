//! resolve_divisor_32, get_shear_params and set_affine_mv2d.

use super::{Change, changes, parts};
use crate::calls::shear::{GetShearParams, Record, ResolveDivisor32, SetAffineMv2d};
use crate::tables::real_recip;

/// The rows of this family.
pub fn cases() -> Vec<String> {
    [divisors(), shears(), motions()].concat()
}

/// resolve_divisor_32's tests.
fn divisors() -> Vec<String> {
    changes(
        &ResolveDivisor32 { d: 1, recip: real_recip() },
        &[
            ("d 0", |c| c.d = 0),
            ("d 2^31", |c| c.d = 1 << 31),
            ("recip of 128 numbers", |c| c.recip.truncate(128)),
            ("recip of 128 numbers, d 511: number 128 is needed", |c| {
                c.d = 511;
                c.recip.truncate(128);
            }),
            ("recip of 130 numbers", |c| c.recip.push(0)),
        ],
    )
}

/// The matrix of no motion.
const STILL: [i32; 6] = [0, 0, 65_536, 0, 0, 65_536];
/// The smallest number above the greatest accepted entry.
const PAST: i32 = (1 << 22) + 1;

/// Matrix entries outside, above and below.
const ENTRIES: [Change<[i32; 6]>; 8] = [
    ("matrix[2] 2^22 + 1", |m| m[2] = PAST),
    ("matrix[2] -2^22 - 1", |m| m[2] = -PAST),
    ("matrix[3] 2^22 + 1", |m| m[3] = PAST),
    ("matrix[3] -2^22 - 1", |m| m[3] = -PAST),
    ("matrix[4] 2^22 + 1", |m| m[4] = PAST),
    ("matrix[4] -2^22 - 1", |m| m[4] = -PAST),
    ("matrix[5] 2^22 + 1", |m| m[5] = PAST),
    ("matrix[5] -2^22 - 1", |m| m[5] = -PAST),
];

/// get_shear_params' tests, on a record that is 7 everywhere but in its matrix.
fn shears() -> Vec<String> {
    let call = GetShearParams { record: Record { matrix: STILL, abcd: [7; 4], affine: 7 }, recip: real_recip() };
    let own = changes(
        &call,
        &[
            ("recip of 128 numbers", |c| c.recip.truncate(128)),
            ("recip of 130 numbers", |c| c.recip.push(0)),
            ("matrix[2] 0", |c| c.record.matrix[2] = 0),
            ("matrix[2] -1", |c| c.record.matrix[2] = -1),
        ],
    );
    [parts(&call, |c| &mut c.record.matrix, &ENTRIES), own].concat()
}

/// set_affine_mv2d's tests, with a matrix by which each number counts.
fn motions() -> Vec<String> {
    let matrix = [0, 0, 65_537, 1, 1, 65_537];
    let call = SetAffineMv2d { bw4: 1, bh4: 1, mv_x: 0, mv_y: 0, matrix, bx4: 0, by4: 0 };
    let own = changes(
        &call,
        &[
            ("bw4 0", |c| c.bw4 = 0),
            ("bw4 65", |c| c.bw4 = 65),
            ("bh4 0", |c| c.bh4 = 0),
            ("bh4 65", |c| c.bh4 = 65),
            ("bx4 -1", |c| c.bx4 = -1),
            ("bx4 16,385", |c| c.bx4 = 16_385),
            ("by4 -1", |c| c.by4 = -1),
            ("by4 16,385", |c| c.by4 = 16_385),
            ("mv_x 2^20 + 1", |c| c.mv_x = (1 << 20) + 1),
            ("mv_x -2^20 - 1", |c| c.mv_x = -(1 << 20) - 1),
            ("mv_y 2^20 + 1", |c| c.mv_y = (1 << 20) + 1),
            ("mv_y -2^20 - 1", |c| c.mv_y = -(1 << 20) - 1),
        ],
    );
    [own, parts(&call, |c| &mut c.matrix, &ENTRIES)].concat()
}
