//! A picture of 641 x 9 with both flags: its chroma is 321 x 5, and the last column is seen by windows, rows and orders.

mod common;

use common::{EMPTY, Tested, mean_warp};
use hemavolups::*;

/// Chroma's sides: luma's divided by two, rounded up.
const W: usize = 321;
const H: usize = 5;

/// The chroma plane of pixels that lie without gaps.
fn chroma<P>(pixels: &[P]) -> Plane<'_, P> {
    let frame = Frame { luma_w: 641, luma_h: 9, ss_hor: true, ss_ver: true };
    Plane { frame, name: PlaneName::Chroma, pixels, stride: W }
}

/// A picture whose last column alone has this pixel.
fn picture<P: Tested>(last: u8) -> Vec<P> {
    (0..W * H).map(|place| P::from(if place % W == W - 1 { last } else { 20 })).collect()
}

/// A subpel table whose filters all take the mean of a pixel and the next.
fn mean_subpel() -> [i8; 600] {
    std::array::from_fn(|place| if place % 8 == 3 || place % 8 == 4 { 32 } else { 0 })
}

/// A block of 8 x 8 at the right border, of each kind.
fn orders() -> [Order; 4] {
    let subpel = SubpelMotion { mx: 8, my: 0, filter_type: 0 };
    let shears = Shears { a: 0, b: 0, c: 0, d: 0, mx: 0, my: 0 };
    let kinds = [Kind::Copy, Kind::Subpel(subpel), Kind::Bilinear(BilinMotion { mx: 8, my: 0 }), Kind::Warp(shears)];
    kinds.map(|kind| Order { x: 313, y: 0, w: 8, h: 8, kind })
}

/// The last pixel of the first row of a block that an order gives, as put and as prep.
fn last<P: Tested>(order: Order, depth: P::Depth, pixels: &[P]) -> (P, i16) {
    let tables = Tables { subpel: &mean_subpel(), warp: &mean_warp(), ..EMPTY };
    let (mut scratch, mut dst, mut tmp) = (vec![P::from(0); 225], vec![P::from(0); 64], [0; 64]);
    order.put(depth, &chroma(pixels), &tables, &mut scratch, &mut dst, 8).unwrap();
    order.prep(depth, &chroma(pixels), &tables, &mut scratch, &mut tmp, 8).unwrap();
    (dst[7], tmp[7])
}

fn seen<P: Tested>(depth: P::Depth) {
    let (first, second) = (picture::<P>(20), picture::<P>(200));
    for order in orders() {
        let (plain, marked) = (last(order, depth, &first), last(order, depth, &second));
        assert_eq!((plain.0, marked.0), (P::from(20), P::from(200)), "{order:?}");
        assert!(plain.1 < marked.1, "{order:?}");
    }
    let mut scratch = [P::from(0)];
    let corner = Order { x: 320, y: 4, w: 1, h: 1, kind: Kind::Copy };
    let window = chroma(&second).window(&corner, Mode::PlaneIfInside, &mut scratch).unwrap();
    assert_eq!(window, Part { buffer: Buffer::Plane, place: 4 * W + 320, stride: W, pixels: &[P::from(200)] });
    let row = chroma(&second).row(4).unwrap();
    assert_eq!((row.pixels.len(), row.pixels[320]), (W, P::from(200)));
}

#[test]
fn the_last_chroma_column_is_seen() {
    seen::<u8>(Eight);
    seen::<u16>(Depth::Ten);
    seen::<u16>(Depth::Twelve);
}

#[test]
fn one_luma_pixel_has_one_of_chroma() {
    let frame = Frame { luma_w: 1, luma_h: 1, ss_hor: true, ss_ver: true };
    let plane = Plane { frame, name: PlaneName::Chroma, pixels: &[7u8], stride: 1 };
    assert_eq!(plane.row(0).unwrap().pixels, [7]);
    assert_eq!(plane.row(1), Err(Refusal::Number));
}
