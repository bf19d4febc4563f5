//! The numbers C1 to C10 of document 01, each computed by the original itself.

use original::headers::WarpedMotionParams;
use original::mc;
use original::pixel::{BitDepth, BitDepth8, BitDepth16};
use original::tables::with_tables;
use original::warpmv::get_shear_params;

use crate::tables::{RECIP_LENGTH, SUBPEL_LENGTH};

/// One number to hold against the original: its name and whether it is as document 01 says.
type Check = (&'static str, fn() -> bool);

const CHECKS: [Check; 10] = [
    ("C1", || avg(BitDepth8, 3200) == 200u8),
    ("C2", || avg(BitDepth16::new(10), 8176) == 1023u16),
    ("C3", c3),
    ("C4", || weights(&[0, 3200, 6647, 6648], 0, false) == [38, 50, 63, 64]),
    ("C5", || (0..2).all(|sign| weights(&[3200, 248], sign, true) == [45 - sign as u8])),
    ("C6", c6),
    ("C7", || put_8tap(8, 0) == 1 && put_8tap(0, 8) == 0),
    ("C8", || put_8tap(4, 8) == 0 && prep_8tap(4, 8) == 8 && avg(BitDepth8, 8) == 1u8),
    ("C9", c9),
    ("C10", || [31, 32, -31, -32, 32_767].map(q) == [0, 64, 0, -64, 32_704]),
];

/// Prints `name ok` or `name bad` for each, and says whether all are ok.
pub fn print() -> bool {
    let mut all = true;
    for (name, check) in CHECKS {
        let good = check();
        println!("{name} {}", if good { "ok" } else { "bad" });
        all &= good;
    }
    all
}

/// An intermediate averaged with itself.
fn avg<BD: BitDepth>(depth: BD, intermediate: i16) -> BD::Pixel {
    let mut dst = [BD::Pixel::default()];
    mc::avg(depth, &mut dst, 1, &[intermediate], &[intermediate], 1, 1);
    dst[0]
}

/// 3200 and 0 at weight 12 give 150.
fn c3() -> bool {
    let mut dst = [0u8];
    mc::w_avg(BitDepth8, &mut dst, 1, &[3200], &[0], 1, 1, 12);
    dst == [150]
}

/// The mask that w_mask keeps for a row of these differences.
fn weights(differences: &[i16], sign: i32, ss_hor: bool) -> Vec<u8> {
    let w = differences.len();
    let mut mask = vec![0; w >> ss_hor as u32];
    let (mut dst, zeros, stride) = (vec![0u8; w], vec![0; w], mask.len());
    mc::w_mask(BitDepth8, &mut dst, w, differences, &zeros, w, 1, &mut mask, stride, sign, ss_hor, false);
    mask
}

/// Bilinear put of 10, 21 at horizontal 5 is 13.
fn c6() -> bool {
    let mut dst = [0u8];
    mc::put_bilin(BitDepth8, &mut dst, 1, &[10, 21], 2, 1, 1, 5, 0);
    dst == [13]
}

/// A subpel table whose family 3 has one tap, at the pixel itself: 30 in filter 7, 64 in filter 3.
fn one_tap_table() -> [i8; SUBPEL_LENGTH] {
    let mut table = [0; SUBPEL_LENGTH];
    let family = 8 * 15 * 3;
    table[family + 8 * 7 + 3] = 30;
    table[family + 8 * 3 + 3] = 64;
    table
}

/// The 8-tap put of a block of one pixel, 1 on a plane of ones. Fraction 8 makes S = 30; fraction 4 makes 64, which
/// the first pass keeps as 16, so that fraction 8 after it makes S = 480.
fn put_8tap(mx: i32, my: i32) -> u8 {
    let mut dst = [0u8];
    with_tables(&one_tap_table(), &[], &[], &[], || {
        mc::put_8tap(BitDepth8, &mut dst, 1, &[1; 64], 27, 8, 1, 1, mx, my, 0)
    });
    dst[0]
}

/// The same block's intermediate.
fn prep_8tap(mx: i32, my: i32) -> i16 {
    let mut tmp = [0];
    with_tables(&one_tap_table(), &[], &[], &[], || {
        mc::prep_8tap(BitDepth8, &mut tmp, 1, &[1u8; 64], 27, 8, 1, 1, mx, my, 0)
    });
    tmp[0]
}

/// Plane rows 1 2 3 / 4 5 6, block 4 x 3 at (-1, 0): 1 1 2 3 / 4 4 5 6 / 4 4 5 6.
fn c9() -> bool {
    let mut dst = [0u8; 12];
    mc::emu_edge(4, 3, 3, 2, -1, 0, &mut dst, 4, &[1, 2, 3, 4, 5, 6], 3);
    dst == [1, 1, 2, 3, 4, 4, 5, 6, 4, 4, 5, 6]
}

/// Q of a number, as the second shear of a record that has it as entry 3.
fn q(value: i32) -> i16 {
    let mut wm = WarpedMotionParams { matrix: [0, 0, 65_536, value, 0, 65_536], ..Default::default() };
    with_tables(&[], &[], &[], &[0; RECIP_LENGTH], || get_shear_params(&mut wm));
    wm.abcd[1]
}
