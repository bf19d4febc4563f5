//! Windows, rows and orders, inside a plane and across its borders.

mod common;

use common::{EMPTY, luma, mean_warp, one_tap_subpel};
use hemavolups::*;

/// The plane of document 01's C9.
const SIX: [u8; 6] = [1, 2, 3, 4, 5, 6];
/// C9's block at (-1, 0).
const ACROSS: Order = Order { x: -1, y: 0, w: 4, h: 3, kind: Kind::Copy };
/// What it is.
const FETCHED: [u8; 12] = [1, 1, 2, 3, 4, 4, 5, 6, 4, 4, 5, 6];

/// The same plane as chroma of an odd frame, whose last luma column and row have a chroma column and row to themselves.
fn chroma<P>(w: usize, pixels: &[P]) -> Plane<'_, P> {
    let frame = Frame { luma_w: 2 * w - 1, luma_h: 2 * (pixels.len() / w) - 1, ss_hor: true, ss_ver: true };
    Plane { frame, name: PlaneName::Chroma, ..luma(w, pixels) }
}

#[test]
fn a_window_inside_is_a_part_of_the_plane() {
    let plane = luma(3, &SIX);
    let order = Order { x: 1, w: 2, h: 2, ..ACROSS };
    let mut scratch = [9; 4];
    let window = plane.window(&order, Mode::PlaneIfInside, &mut scratch).unwrap();
    assert_eq!(window, Part { buffer: Buffer::Plane, place: 1, stride: 3, pixels: &[2, 3, 4, 5, 6] });
    assert_eq!(scratch, [9; 4]);
    let window = plane.window(&order, Mode::AlwaysScratch, &mut scratch).unwrap();
    assert_eq!(window, Part { buffer: Buffer::Scratch, place: 0, stride: 2, pixels: &[2, 3, 5, 6] });
}

#[test]
fn a_window_across_a_border_is_in_scratch() {
    let mut scratch = [9; 13];
    for plane in [luma(3, &SIX), chroma(3, &SIX)] {
        let window = plane.window(&ACROSS, Mode::PlaneIfInside, &mut scratch).unwrap();
        assert_eq!(window, Part { buffer: Buffer::Scratch, place: 0, stride: 4, pixels: &FETCHED });
        assert_eq!(scratch[12], 9);
    }
    let words = SIX.map(u16::from);
    let mut scratch = [0; SCRATCH_LEN];
    let window = luma(3, &words).window(&ACROSS, Mode::PlaneIfInside, &mut scratch).unwrap();
    assert_eq!(window.pixels, FETCHED.map(u16::from));
}

#[test]
fn a_window_has_the_margins_of_its_kind() {
    let mut scratch = [0u8; SCRATCH_LEN];
    let plane = luma(3, &SIX);
    let motion = SubpelMotion { mx: 0, my: 0, filter_type: 0 };
    let order = Order { x: 0, y: 0, w: 64, h: 64, kind: Kind::Subpel(motion) };
    let window = plane.window(&order, Mode::PlaneIfInside, &mut scratch).unwrap();
    assert_eq!((window.stride, window.pixels.len()), (71, SCRATCH_LEN));
    let order = Order { w: 1, h: 1, kind: Kind::Bilinear(BilinMotion { mx: 0, my: 0 }), ..order };
    let window = plane.window(&order, Mode::PlaneIfInside, &mut scratch).unwrap();
    assert_eq!((window.buffer, window.pixels), (Buffer::Plane, &[1, 2, 3, 4, 5][..]));
}

#[test]
fn rows_are_parts_of_the_plane() {
    let row = luma(3, &SIX).row(1).unwrap();
    assert_eq!(row, Part { buffer: Buffer::Plane, place: 3, stride: 3, pixels: &[4, 5, 6] });
    assert_eq!(chroma(3, &SIX.map(u16::from)).row(0).unwrap().pixels, [1, 2, 3]);
}

#[test]
fn copies_reach_over_the_border() {
    let (mut bytes, mut words, mut tmp) = ([0; 12], [0; 12], [0; 12]);
    ACROSS.put(Eight, &luma(3, &SIX), &EMPTY, &mut [0; 12], &mut bytes, 4).unwrap();
    assert_eq!(bytes, FETCHED);
    ACROSS.put(Depth::Ten, &chroma(3, &SIX.map(u16::from)), &EMPTY, &mut [0; 12], &mut words, 4).unwrap();
    assert_eq!(words, FETCHED.map(u16::from));
    ACROSS.prep(Eight, &luma(3, &SIX), &EMPTY, &mut [0; 12], &mut tmp, 4).unwrap();
    assert_eq!(tmp, FETCHED.map(|pixel| i16::from(pixel) * 16));
}

#[test]
fn bilinear_orders_reach_over_the_border() {
    let order = Order { x: -1, y: 0, w: 3, h: 1, kind: Kind::Bilinear(BilinMotion { mx: 5, my: 0 }) };
    let (mut bytes, mut words, mut tmp) = ([0; 3], [0; 3], [0; 3]);
    order.put(Eight, &luma(2, &[10u8, 21]), &EMPTY, &mut [0; 8], &mut bytes, 3).unwrap();
    assert_eq!(bytes, [10, 13, 21]);
    order.put(Depth::Twelve, &luma(2, &[10u16, 21]), &EMPTY, &mut [0; 8], &mut words, 3).unwrap();
    assert_eq!(words, [10, 14, 21]);
    order.prep(Depth::Ten, &luma(2, &[10u16, 21]), &EMPTY, &mut [0; 8], &mut tmp, 3).unwrap();
    assert_eq!(tmp, [160, 215, 336].map(|value| value - 8192));
}

#[test]
fn eight_tap_orders_are_c7_and_c8() {
    let tables = Tables { subpel: &one_tap_subpel(), ..EMPTY };
    let order = |mx, my| {
        let kind = Kind::Subpel(SubpelMotion { mx, my, filter_type: 0 });
        Order { x: 0, y: -5, w: 1, h: 1, kind }
    };
    let (mut dst, mut tmp) = ([9u8], [9]);
    for (motion, pixel) in [(order(8, 0), 1), (order(0, 8), 0), (order(4, 8), 0)] {
        motion.put(Eight, &luma(1, &[1]), &tables, &mut [0; 64], &mut dst, 1).unwrap();
        assert_eq!(dst, [pixel]);
    }
    order(4, 8).prep(Eight, &luma(1, &[1u8]), &tables, &mut [0; 64], &mut tmp, 1).unwrap();
    assert_eq!(tmp, [8]);
}

#[test]
fn warp_orders_take_means() {
    let tables = Tables { warp: &mean_warp(), ..EMPTY };
    let shears = Shears { a: 0, b: 0, c: 0, d: 0, mx: 0, my: 0 };
    let order = Order { x: -1, y: 9, w: 8, h: 8, kind: Kind::Warp(shears) };
    let plane = luma(3, &[10u8, 20, 30]);
    let (mut dst, mut tmp) = ([0; 64], [0; 64]);
    order.put(Eight, &plane, &tables, &mut [0; 225], &mut dst, 8).unwrap();
    assert_eq!(dst[56..], [10, 15, 25, 30, 30, 30, 30, 30]);
    order.prep(Eight, &plane, &tables, &mut [0; 225], &mut tmp, 8).unwrap();
    assert_eq!(tmp[56..60], [160, 240, 400, 480]);
}

#[test]
fn a_block_cut_in_two_is_the_same_block() {
    let plane = luma(3, &SIX);
    let whole = Order { x: -3, y: -2, w: 8, h: 5, kind: Kind::Bilinear(BilinMotion { mx: 5, my: 11 }) };
    let mut scratch = [0; SCRATCH_LEN];
    let (mut at_once, mut in_parts) = ([0; 40], [0; 40]);
    whole.put(Eight, &plane, &EMPTY, &mut scratch, &mut at_once, 8).unwrap();
    let right = Order { x: whole.x + 3, w: 5, ..whole };
    right.put(Eight, &plane, &EMPTY, &mut scratch, &mut in_parts[3..], 8).unwrap();
    Order { w: 3, ..whole }.put(Eight, &plane, &EMPTY, &mut scratch, &mut in_parts, 8).unwrap();
    assert_eq!(in_parts, at_once);
}
