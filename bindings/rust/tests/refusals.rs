//! Every function that has sets refuses in both of them, with its number, and leaves what it was lent as it was.

mod common;

use common::{EMPTY, Tested, luma, mean_warp, one_tap_subpel, refusal};
use hemavolups::*;

/// Tries a family in both sets.
macro_rules! in_both_sets {
    ($($test:ident: $family:ident;)+) => {
        $(#[test]
        fn $test() {
            $family::<u8>(Eight);
            $family::<u16>(Depth::Ten);
        })+
    };
}

in_both_sets! {
    copies_refuse: copies;
    eight_taps_refuse: eight_taps;
    bilinear_refuses: bilinear;
    combinations_refuse: combinations;
    masks_refuse: masks;
    blends_refuse: blends;
    warps_refuse: warps;
    edges_refuse: edges;
    searches_refuse: searches;
    windows_refuse: windows;
    orders_refuse: orders;
    warp_orders_refuse: warp_orders;
}

/// So many pixels, all alike.
fn flat<P: Tested>(len: usize) -> Vec<P> {
    vec![P::from(5); len]
}

fn copies<P: Tested>(depth: P::Depth) {
    let src = flat::<P>(65);
    assert_eq!(put(&mut flat(64), 64, &src, 64, 64, 1), Ok(()));
    assert_eq!(refusal(&mut flat(65), |dst| put(dst, 65, &src, 65, 65, 1)), Refusal::Size);
    assert_eq!(refusal(&mut flat(8), |dst| put(dst, 3, &src, 4, 4, 2)), Refusal::Stride);
    assert_eq!(refusal(&mut flat(8), |dst| put(dst, 4, &src[..7], 4, 4, 2)), Refusal::Read);
    assert_eq!(refusal(&mut flat(7), |dst| put(dst, 4, &src, 4, 4, 2)), Refusal::Written);
    assert_eq!(refusal(&mut [], |dst| put::<P>(dst, 4, &[], 4, 4, 2)), Refusal::Read);
    assert_eq!(refusal(&mut [5; 3], |tmp| prep(depth, tmp, 2, &src, 2, 2, 2)), Refusal::Written);
}

fn eight_taps<P: Tested>(depth: P::Depth) {
    let (src, subpel) = (flat::<P>(64), one_tap_subpel());
    let motion = |mx, my| SubpelMotion { mx, my, filter_type: 0 };
    let by_ext = SubpelMotion { mx: 1, my: 0, filter_type: -1 };
    let put = |dst: &mut [P], off, m, subpel: &[i8]| put_8tap(depth, dst, 1, &src, off, 8, 1, 1, m, subpel, &[]);
    assert_eq!(put(&mut flat(1), 24, motion(0, 8), &subpel), Ok(()));
    assert_eq!(refusal(&mut flat(1), |dst| put(dst, 23, motion(0, 8), &subpel)), Refusal::Read);
    assert_eq!(refusal(&mut flat(1), |dst| put(dst, usize::MAX, motion(0, 0), &subpel)), Refusal::Read);
    assert_eq!(refusal(&mut flat(1), |dst| put(dst, 27, motion(16, 0), &subpel)), Refusal::Number);
    assert_eq!(refusal(&mut flat(1), |dst| put(dst, 27, motion(0, 0), &[0; 720])), Refusal::Table);
    assert_eq!(refusal(&mut flat(1), |dst| put(dst, 27, by_ext, &subpel)), Refusal::Table);
    let prep = |tmp: &mut [i16]| prep_8tap(depth, tmp, 0, &src, 27, 8, 1, 1, motion(8, 8), &subpel, &[]);
    assert_eq!(refusal(&mut [5], prep), Refusal::Stride);
}

fn bilinear<P: Tested>(depth: P::Depth) {
    let src = flat::<P>(2);
    let motion = |mx, my| BilinMotion { mx, my };
    let put = |dst: &mut [P], motion| put_bilin(depth, dst, 1, &src, 2, 1, 1, motion);
    assert_eq!(refusal(&mut flat(1), |dst| put(dst, motion(16, 0))), Refusal::Number);
    assert_eq!(refusal(&mut flat(1), |dst| put(dst, motion(0, 5))), Refusal::Read);
    let prep = |tmp: &mut [i16]| prep_bilin(depth, tmp, 1, &src, 2, 1, 1, motion(0, -1));
    assert_eq!(refusal(&mut [5], prep), Refusal::Number);
}

fn combinations<P: Tested>(depth: P::Depth) {
    let tmp = [0; 4];
    let short = |dst: &mut [P]| avg(depth, dst, 2, &tmp, &tmp[1..], 2, 2);
    assert_eq!(refusal(&mut flat(4), short), Refusal::Read);
    let heavy = |dst: &mut [P]| w_avg(depth, dst, 2, &tmp, &tmp, 2, 2, 33);
    assert_eq!(refusal(&mut flat(4), heavy), Refusal::Number);
    let short = |dst: &mut [P]| mask(depth, dst, 2, &tmp, &tmp, 2, 2, &[32; 3]);
    assert_eq!(refusal(&mut flat(4), short), Refusal::Read);
}

fn masks<P: Tested>(depth: P::Depth) {
    let (tmp, mut weights) = ([0; 3], [9; 3]);
    let odd = |dst: &mut [P]| w_mask(depth, dst, 3, &tmp, &tmp, 3, 1, &mut weights, 3, 0, true, false);
    assert_eq!(refusal(&mut flat(3), odd), Refusal::Size);
    let alone = |dst: &mut [P]| w_mask(depth, dst, 1, &tmp, &tmp, 1, 2, &mut weights, 1, 0, false, true);
    assert_eq!(refusal(&mut flat(3), alone), Refusal::Number);
    let short = |dst: &mut [P]| w_mask(depth, dst, 3, &tmp, &tmp, 3, 1, &mut weights[1..], 3, 0, false, false);
    assert_eq!(refusal(&mut flat(3), short), Refusal::Written);
    assert_eq!(weights, [9; 3]);
}

fn blends<P: Tested>(depth: P::Depth) {
    let (tmp, mask) = (flat::<P>(6), [0, 64, 0, 0, 0, 65, 200]);
    assert_eq!(refusal(&mut flat(5), |dst| blend(dst, 3, &tmp, 3, 2, &mask)), Refusal::Written);
    let first = refusal(&mut flat(6), |dst| blend(dst, 3, &tmp, 3, 2, &mask));
    assert_eq!((first, first.number()), (Refusal::MaskValue { row: 1, col: 2 }, 7));
    // What lies after the block isn't looked at.
    assert_eq!(blend(&mut flat(5), 5, &tmp, 5, 1, &mask), Ok(()));
    assert_eq!(refusal(&mut flat(1), |dst: &mut [P]| morph(depth, dst, 1, 1 + (1 << 14), 0, 1, 1)), Refusal::Number);
}

fn warps<P: Tested>(depth: P::Depth) {
    let (src, table, first) = (flat::<P>(240), mean_warp(), 3 * 16 + 3);
    let shears = Shears { a: 0, b: 0, c: 0, d: 0, mx: 0, my: 0 };
    let put = |dst: &mut [P], off, warp| warp_affine_8x8(depth, dst, 8, &src, 16, off, shears, warp);
    assert_eq!(refusal(&mut flat(64), |dst| put(dst, first, &table[8..])), Refusal::Table);
    assert_eq!(refusal(&mut flat(64), |dst| put(dst, first - 1, &table)), Refusal::Read);
    assert_eq!(refusal(&mut flat(63), |dst| put(dst, first, &table)), Refusal::Written);
    let prep = |tmp: &mut [i16]| warp_affine_8x8t(depth, tmp, 7, &src, 16, first, shears, &table);
    assert_eq!(refusal(&mut [5; 64], prep), Refusal::Stride);
}

fn edges<P: Tested>(_: P::Depth) {
    let plane = flat::<P>(1);
    let wide = |dst: &mut [P]| emu_edge(129, 1, 1, 1, 0, 0, dst, 129, &plane, 1);
    assert_eq!(refusal(&mut flat(129), wide), Refusal::Size);
    let far = |dst: &mut [P]| emu_edge(1, 1, 1, 1, 1 + (1 << 30), 0, dst, 1, &plane, 1);
    assert_eq!(refusal(&mut flat(1), far), Refusal::Number);
}

fn searches<P: Tested>(depth: P::Depth) {
    let block = flat::<P>(81);
    // Row 1 is skipped, but has to be there.
    assert_eq!(sad_nxn(depth, &block, 2, &block[..2], 2, 2, 2), Err(Refusal::Read));
    assert_eq!(sad_refine_mv(depth, &block, 8, &block, 9, 1, 1, false), Err(Refusal::Stride));
}

/// A block of 4 x 3 that begins left of its plane.
const ACROSS: Order = Order { x: -1, y: 0, w: 4, h: 3, kind: Kind::Copy };

fn windows<P: Tested>(_: P::Depth) {
    let pixels = flat::<P>(6);
    let plane = luma(3, &pixels);
    let window = |plane: Plane<P>, order: Order, scratch_len| {
        let mut scratch = flat(scratch_len);
        refusal(&mut scratch, |scratch| plane.window(&order, Mode::AlwaysScratch, scratch).map(|_| ()))
    };
    assert_eq!(window(plane, ACROSS, 11), Refusal::Written);
    assert_eq!(window(plane, Order { w: 65, ..ACROSS }, 11), Refusal::Size);
    assert_eq!(window(plane, Order { x: -1 - (1 << 30), ..ACROSS }, 12), Refusal::Number);
    assert_eq!(window(Plane { stride: 2, ..plane }, ACROSS, 12), Refusal::Stride);
    assert_eq!(window(Plane { pixels: &pixels[1..], ..plane }, ACROSS, 12), Refusal::Read);
    assert_eq!(plane.row(2), Err(Refusal::Number));
    assert_eq!(plane.row(-1), Err(Refusal::Number));
    let empty = Frame { luma_w: 0, luma_h: 2, ss_hor: true, ss_ver: false };
    assert_eq!(Plane { frame: empty, name: PlaneName::Chroma, ..plane }.row(0), Err(Refusal::Size));
}

/// The refusals of an order run as put and as prep, from a plane of 3 x 2: neither scratch nor what is written changes.
fn order_refusals<P: Tested>(depth: P::Depth, order: Order, tables: Tables, scratch_len: usize) -> [Refusal; 2] {
    let pixels = flat::<P>(6);
    let (plane, stride) = (luma(3, &pixels), order.w);
    let (mut scratch, mut dst, mut tmp) = (flat(scratch_len), flat(order.w * order.h), vec![5; order.w * order.h]);
    let put = refusal(&mut dst, |dst| order.put(depth, &plane, &tables, &mut scratch, dst, stride));
    let prep = refusal(&mut tmp, |tmp| order.prep(depth, &plane, &tables, &mut scratch, tmp, stride));
    assert_eq!(scratch, flat(scratch_len));
    [put, prep]
}

fn orders<P: Tested>(depth: P::Depth) {
    let bilinear = |mx| Order { kind: Kind::Bilinear(BilinMotion { mx, my: 0 }), ..ACROSS };
    let short = Tables { subpel: &[], ..EMPTY };
    assert_eq!(order_refusals::<P>(depth, bilinear(16), EMPTY, 20), [Refusal::Number; 2]);
    // A table that isn't used has to have a right length too.
    assert_eq!(order_refusals::<P>(depth, bilinear(5), short, 20), [Refusal::Table; 2]);
    assert_eq!(order_refusals::<P>(depth, bilinear(5), EMPTY, 19), [Refusal::Written; 2]);
}

fn warp_orders<P: Tested>(depth: P::Depth) {
    let shears = Shears { a: 0, b: 0, c: 0, d: 0, mx: 0, my: 0 };
    let order = Order { x: 0, y: 0, w: 8, h: 8, kind: Kind::Warp(shears) };
    assert_eq!(order_refusals::<P>(depth, order, EMPTY, 225), [Refusal::Table; 2]);
    assert_eq!(order_refusals::<P>(depth, Order { w: 16, ..order }, EMPTY, SCRATCH_LEN), [Refusal::Size; 2]);
}
