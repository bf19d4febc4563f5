//! The modes of windows (E12): always in scratch by default, and which of the two each kind of order takes.

mod common;

use common::{EMPTY, Tested, luma, mean_warp, one_tap_subpel};
use hemavolups::*;

/// The plane's side. An 8-tap block of 8 x 8 at (4, 4) has its window inside.
const SIDE: usize = 16;

/// A plane whose pixels all differ.
fn pixels<P: Tested>() -> Vec<P> {
    (0..=255).map(P::from).collect()
}

/// The block at (4, 4), of each kind, with its margins and whether it fills scratch there.
fn orders() -> [(Order, usize, usize, bool); 4] {
    let motion = SubpelMotion { mx: 4, my: 0, filter_type: 0 };
    let shears = Shears { a: 0, b: 0, c: 0, d: 0, mx: 0, my: 0 };
    let of = |kind| Order { x: 4, y: 4, w: 8, h: 8, kind };
    [
        (of(Kind::Copy), 0, 0, true),
        (of(Kind::Subpel(motion)), 3, 4, false),
        (of(Kind::Bilinear(BilinMotion { mx: 5, my: 11 })), 0, 1, false),
        (of(Kind::Warp(shears)), 3, 4, true),
    ]
}

/// The window of the block at (4, 4), without gaps.
fn window<P: Tested>(before: usize, after: usize) -> Vec<P> {
    let side = before + 8 + after;
    let pixels = pixels::<P>();
    (0..side * side).map(|at| pixels[(4 - before + at / side) * SIDE + 4 - before + at % side]).collect()
}

fn by_kind<P: Tested>(depth: P::Depth) {
    let pixels = pixels::<P>();
    let plane = luma(SIDE, &pixels);
    let tables = Tables { subpel: &one_tap_subpel(), warp: &mean_warp(), ..EMPTY };
    for (order, before, after, fills) in orders() {
        let lent = vec![P::from(99); SCRATCH_LEN];
        let mut due = lent.clone();
        if fills {
            let window = window::<P>(before, after);
            due[..window.len()].copy_from_slice(&window);
        }
        let (mut put, mut prep) = (lent.clone(), lent);
        order.put(depth, &plane, &tables, &mut put, &mut [P::from(0); 64], 8).unwrap();
        order.prep(depth, &plane, &tables, &mut prep, &mut [0; 64], 8).unwrap();
        assert!(put == due && prep == due, "{order:?}");
    }
}

#[test]
fn copy_and_warp_orders_fill_scratch_inside_the_plane_and_the_others_leave_it() {
    by_kind::<u8>(Eight);
    by_kind::<u16>(Depth::Ten);
    by_kind::<u16>(Depth::Twelve);
}

/// The window of an order in a mode, and its pixels again after the plane's memory is overwritten.
fn overwritten<P: Tested>(order: &Order, mode: Mode) -> (Buffer, Vec<P>, Vec<P>) {
    let (mut pixels, mut scratch) = (pixels::<P>(), vec![P::from(99); SCRATCH_LEN]);
    let Part { buffer, place, pixels: part, .. } = luma(SIDE, &pixels).window(order, mode, &mut scratch).unwrap();
    let (before, len) = (part.to_vec(), part.len());
    pixels.fill(P::from(7));
    let lent = if buffer == Buffer::Plane { pixels } else { scratch };
    (buffer, before, lent[place..place + len].to_vec())
}

fn held<P: Tested>() {
    for (order, before, after, _) in orders() {
        let (buffer, first, later) = overwritten::<P>(&order, Mode::default());
        assert_eq!((buffer, &first, &later), (Buffer::Scratch, &window(before, after), &first));
        let (buffer, first, later) = overwritten::<P>(&order, Mode::PlaneIfInside);
        assert!(buffer == Buffer::Plane && first != later);
    }
}

#[test]
fn a_window_in_scratch_stays_when_the_plane_is_overwritten() {
    assert_eq!((Mode::default(), Mode::AlwaysScratch as u32, Mode::PlaneIfInside as u32), (Mode::AlwaysScratch, 0, 1));
    held::<u8>();
    held::<u16>();
}
