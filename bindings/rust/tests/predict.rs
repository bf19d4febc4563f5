//! Copies, 8-tap, bilinear and warped predictions, and blocks across an edge.

mod common;

use common::{mean_warp, one_tap_subpel};
use hemavolups::*;

#[test]
fn put_copies_above_the_depth_too() {
    let mut dst = [7u16; 5];
    put(&mut dst, 3, &[1, 65535, 9, 4, 5], 3, 2, 2).unwrap();
    assert_eq!(dst, [1, 65535, 7, 4, 5]);
    let mut dst = [7u8; 5];
    put(&mut dst, 3, &[1, 2, 9, 4, 5], 3, 2, 2).unwrap();
    assert_eq!(dst, [1, 2, 7, 4, 5]);
}

#[test]
fn prep_scales_and_takes_off_the_bias() {
    let mut tmp = [0];
    prep(Eight, &mut tmp, 1, &[200u8], 1, 1, 1).unwrap();
    assert_eq!(tmp, [3200]);
    prep(Depth::Ten, &mut tmp, 1, &[1023u16], 1, 1, 1).unwrap();
    assert_eq!(tmp, [8176]);
    prep(Depth::Twelve, &mut tmp, 1, &[4095u16], 1, 1, 1).unwrap();
    assert_eq!(tmp, [4095 * 4 - 8192]);
}

/// The 8-tap motion of document 01's C7 and C8: family 3 by both sides.
fn motion(mx: i32, my: i32) -> SubpelMotion {
    SubpelMotion { mx, my, filter_type: 0 }
}

/// One pixel put from a plane of ones.
fn put_one(mx: i32, my: i32) -> (u8, u16) {
    let (mut bytes, mut words) = ([0], [0]);
    let subpel = one_tap_subpel();
    put_8tap(Eight, &mut bytes, 1, &[1; 64], 27, 8, 1, 1, motion(mx, my), &subpel, &[]).unwrap();
    put_8tap(Depth::Ten, &mut words, 1, &[1; 64], 27, 8, 1, 1, motion(mx, my), &subpel, &[]).unwrap();
    (bytes[0], words[0])
}

#[test]
fn put_8tap_rounds_as_c7_and_c8() {
    assert_eq!(put_one(8, 0), (1, 1));
    assert_eq!(put_one(0, 8), (0, 0));
    assert_eq!(put_one(4, 8), (0, 0));
}

#[test]
fn prep_8tap_is_c8() {
    let (mut tmp, subpel) = ([0], one_tap_subpel());
    prep_8tap(Eight, &mut tmp, 1, &[1u8; 64], 27, 8, 1, 1, motion(4, 8), &subpel, &[]).unwrap();
    assert_eq!(tmp, [8]);
    prep_8tap(Depth::Ten, &mut tmp, 1, &[1u16; 64], 27, 8, 1, 1, motion(4, 8), &subpel, &[]).unwrap();
    assert_eq!(tmp, [8 - 8192]);
}

#[test]
fn bilinear_is_c6_and_knows_the_depth() {
    let motion = BilinMotion { mx: 5, my: 0 };
    let mut dst = [0u8];
    put_bilin(Eight, &mut dst, 1, &[10, 21], 2, 1, 1, motion).unwrap();
    assert_eq!(dst, [13]);
    let mut dst = [0u16];
    put_bilin(Depth::Ten, &mut dst, 1, &[10, 21], 2, 1, 1, motion).unwrap();
    assert_eq!(dst, [13]);
    // At depth 12 the first rounding gives 54 for 215 / 4, the second 14 for 54 / 4.
    put_bilin(Depth::Twelve, &mut dst, 1, &[10, 21], 2, 1, 1, motion).unwrap();
    assert_eq!(dst, [14]);
    let mut tmp = [0];
    prep_bilin(Eight, &mut tmp, 1, &[10u8, 21], 2, 1, 1, motion).unwrap();
    assert_eq!(tmp, [215]);
    prep_bilin(Depth::Ten, &mut tmp, 1, &[10u16, 21], 2, 1, 1, motion).unwrap();
    assert_eq!(tmp, [215 - 8192]);
}

/// No shears: every filter is number 192.
const STRAIGHT: Shears = Shears { a: 0, b: 0, c: 0, d: 0, mx: 0, my: 0 };
/// The first pixel of the warped block in a source of stride 16.
const FIRST: usize = 3 * 16 + 3;

/// 15 rows of 16 pixels, each row 0, 2, 4 and so on.
fn ramp<P: From<u8>>() -> [P; 240] {
    std::array::from_fn(|place| P::from(place as u8 % 16 * 2))
}

#[test]
fn warp_takes_means() {
    let (mut bytes, mut words) = ([0u8; 64], [0u16; 64]);
    warp_affine_8x8(Eight, &mut bytes, 8, &ramp(), 16, FIRST, STRAIGHT, &mean_warp()).unwrap();
    warp_affine_8x8(Depth::Twelve, &mut words, 8, &ramp(), 16, FIRST, STRAIGHT, &mean_warp()).unwrap();
    // Pixels 6 and 8 give 7, and so on.
    assert_eq!(bytes[..8], [7, 9, 11, 13, 15, 17, 19, 21]);
    assert_eq!(bytes[56..], bytes[..8]);
    assert_eq!(words[56..], [7, 9, 11, 13, 15, 17, 19, 21]);
    let mut tmp = [0; 64];
    warp_affine_8x8t(Eight, &mut tmp, 8, &ramp::<u8>(), 16, FIRST, STRAIGHT, &mean_warp()).unwrap();
    assert_eq!(tmp[..2], [7 * 16, 9 * 16]);
    warp_affine_8x8t(Depth::Ten, &mut tmp, 8, &ramp::<u16>(), 16, FIRST, STRAIGHT, &mean_warp()).unwrap();
    assert_eq!(tmp[..2], [7 * 16 - 8192, 9 * 16 - 8192]);
}

#[test]
fn emu_edge_is_c9() {
    let (mut bytes, mut words) = ([0u8; 12], [0u16; 12]);
    emu_edge(4, 3, 3, 2, -1, 0, &mut bytes, 4, &[1, 2, 3, 4, 5, 6], 3).unwrap();
    emu_edge(4, 3, 3, 2, -1, 0, &mut words, 4, &[1, 2, 3, 4, 5, 6], 3).unwrap();
    assert_eq!(bytes, [1, 1, 2, 3, 4, 4, 5, 6, 4, 4, 5, 6]);
    assert_eq!(words, bytes.map(u16::from));
}
