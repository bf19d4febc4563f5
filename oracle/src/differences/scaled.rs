//! The scaled kernels.

use super::filtered::greatest_sum;
use super::{case, room};
use crate::answer::{Px, Room};
use crate::calls::scaled::{Filters, Prep8tapScaled, Put8tapScaled, PutBilinScaled, Source};
use crate::tables::real_subpel;

/// The rows of this family.
pub fn cases() -> Vec<String> {
    [short_sources(), outside(), sides(), vec![no_copy(1024), no_copy(2048), sixteen_bits()]].concat()
}

/// A source of 1 x 1 without gaps, whose start is the same on both axes.
fn source<P: Px>(depth: i32, src: &[P], src_off: usize, start: i32) -> Source<P> {
    let src = room(src);
    Source { depth, src, src_off, src_stride: 1, w: 1, h: 1, mx: start, my: start, dx: 1024, dy: 1024 }
}

/// put_8tap_scaled into a destination of nines without gaps, the original's table lent.
fn put_8tap<P: Px>(from: Source<P>, filter_type: i32) -> Put8tapScaled<P> {
    let by = Filters { filter_type, subpel: real_subpel() };
    Put8tapScaled { dst: Room(vec![P::low(9); from.w * from.h]), dst_stride: from.w, from, by }
}

/// put_bilin_scaled into a destination of nines without gaps.
fn put_bilin(from: Source<u8>) -> PutBilinScaled<u8> {
    PutBilinScaled { dst: room(&vec![9; from.w * from.h]), dst_stride: from.w, from }
}

/// Sources that don't hold every place: 8-tap clamps a tap's index, but looks up a column without a fraction directly.
fn short_sources() -> Vec<String> {
    let two_rows = Source { h: 2, ..source(8, &[10, 20, 30], 0, 0) };
    let mut short_to = put_8tap(Source { h: 2, ..source(8, &[10u8; 9], 3, 0) }, 0);
    short_to.dst.truncate(1);
    vec![
        case("short source: each tap's index is clamped", put_8tap(source(8, &[10u8], 0, 64), 0)),
        case("no fraction, last row missing", put_8tap(source(8, &[10u8; 7], 3, 0), 0)),
        case("no fraction, first row missing", put_8tap(source(8, &[10u8; 8], 2, 0), 0)),
        case("empty source", put_8tap(source::<u8>(8, &[], 0, 64), 0)),
        case("short destination", short_to),
        case("no fraction, last column missing", put_bilin(source(8, &[10, 20], 0, 0))),
        case("second row missing", put_bilin(two_rows)),
    ]
}

/// Types, starts, steps and strides outside.
fn outside() -> Vec<String> {
    let at = |start: i32| source(8, &[10u8; 64], 24, start);
    // Row by row 10, 20 and so on, each fetched by a stride of -1 from the last to the first.
    let rows: Vec<u8> = (1..=9).map(|row| 10 * row).collect();
    let upward = Source { src_stride: usize::MAX, ..source(8, &rows, 5, 0) };
    let apart: Vec<u8> = (0..24).collect();
    let pair = Source { w: 2, src_stride: 2, ..source(8, &apart, 12, 0) };
    vec![
        case("type -1: ext at 6 bits, twice as bright each pass", put_8tap(at(64), -1)),
        case("type 3, narrow: family 4", put_8tap(at(64), 3)),
        case("type -2, narrow: family 3", put_8tap(at(64), -2)),
        case("start 1024 across", put_8tap(Source { my: 0, ..at(1024) }, 0)),
        case("start 1024 down: a row on", put_bilin(Source { my: 1024, ..pair.clone() })),
        case("start -1 down: row -1 counts as zeros", put_bilin(Source { my: -1, ..pair.clone() })),
        case("step -1024: the column before", put_8tap(Source { dx: -1024, ..pair.clone() }, 0)),
        case("step 4097: four columns on", put_bilin(Source { dx: 4097, ..pair })),
        case("stride -1: rows upward", put_8tap(upward.clone(), 0)),
        case("stride -1: rows upward", put_bilin(Source { my: 512, ..upward })),
    ]
}

/// Widths above 64: the record's rows have 64 places.
fn sides() -> Vec<String> {
    let wide = Source { w: 65, src_stride: 65, ..source(8, &[1u8; 600], 198, 0) };
    let tall = Source { h: 65, ..source(8, &[1u8; 80], 3, 0) };
    vec![
        case("width 65", put_8tap(wide.clone(), 0)),
        case("width 65", put_bilin(wide)),
        case("height 65", put_8tap(tall, 0)),
    ]
}

/// An accepted call without fractions: no copy, the pixel is cut and clipped on its way.
fn no_copy(pixel: u16) -> String {
    case(&format!("accepted; no fraction is no copy of {pixel}"), put_8tap(source(10, &[pixel; 8], 3, 0), 0))
}

/// An accepted call that wraps within the depth as prep_8tap does.
fn sixteen_bits() -> String {
    let by = Filters { filter_type: 2, subpel: real_subpel() };
    let from = Source { src_stride: 12, w: 5, h: 5, ..source(10, &greatest_sum(), 39, 512) };
    let call = Prep8tapScaled { tmp: room(&[0; 25]), tmp_stride: 5, from, by };
    case("accepted; wraps in 16 bits within the depth", call)
}
