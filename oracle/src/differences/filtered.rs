//! 8-tap, bilinear and warp.

use super::{case, room};
use crate::answer::Room;
use crate::calls::{bilinear, subpel, warp};
use crate::tables::{real_ext, real_subpel, real_warp};

/// The rows of this family.
pub fn cases() -> Vec<String> {
    [taps(), large_blocks(), bilinear_cases(), warps(), vec![sixteen_bits()]].concat()
}

/// put_8tap of bytes, the original's tables lent.
fn put_8tap(src: &[u8], src_off: usize, w: usize, mx: i32, my: i32, filter_type: i32) -> subpel::Put8tap<u8> {
    let (subpel, ext) = (real_subpel(), real_ext());
    let (src, src_stride) = (room(src), w);
    let from = subpel::Source { depth: 8, src, src_off, src_stride, w, h: 1, mx, my, filter_type, subpel, ext };
    subpel::Put8tap { dst: room(&vec![9; w]), dst_stride: w, from }
}

/// Short sources, whose tap indices the Rust clamps; types, fractions and tables outside.
fn taps() -> Vec<String> {
    let mut six_families = put_8tap(&[10; 8], 3, 1, 1, 0, 0);
    six_families.from.subpel.extend([0; 120]);
    let mut two_rows = put_8tap(&[10; 9], 3, 1, 1, 0, 0);
    two_rows.from.h = 2;
    vec![
        case("short source: each tap's index is clamped", put_8tap(&[10], 0, 1, 1, 0, 0)),
        case("offset past the source, index clamped", put_8tap(&[10; 8], 9, 1, 1, 0, 0)),
        case("empty source", put_8tap(&[], 0, 1, 1, 0, 0)),
        case("short destination", two_rows),
        case("no fraction, offset past the source", put_8tap(&[10], 2, 1, 0, 0, 0)),
        case("type 3, narrow: family 4", put_8tap(&[10; 8], 3, 1, 1, 0, 3)),
        case("type -2, narrow: family 3 at 7 bits", put_8tap(&[10; 8], 3, 1, 1, 0, -2)),
        case("type 3, five columns: family 3", put_8tap(&[10; 12], 3, 5, 1, 0, 3)),
        case("type -2, five columns", put_8tap(&[10; 12], 3, 5, 1, 0, -2)),
        case("type -1, fraction above the table", put_8tap(&[10; 8], 3, 1, 64, 0, -1)),
        case("six families lent", six_families),
    ]
}

/// put_8tap of w x h with both fractions, the source all ones.
fn large(w: usize, h: usize) -> subpel::Put8tap<u8> {
    let mut call = put_8tap(&vec![1; w * (h + 7) + 7], 3 * w + 3, w, 1, 1, 0);
    (call.from.h, call.dst) = (h, room(&vec![9; w * h]));
    call
}

/// Sides above 64. With both fractions the Rust's intermediate has rows of 64, and as many as are needed.
fn large_blocks() -> Vec<String> {
    let tall = bilinear::Source { depth: 8, src: room(&[1; 8257]), src_stride: 64, w: 64, h: 128, mx: 1, my: 1 };
    vec![
        case("65 x 1, one fraction", put_8tap(&[1; 80], 3, 65, 1, 0, 0)),
        case("8 x 65, both fractions", large(8, 65)),
        case("64 x 128, both fractions", large(64, 128)),
        case("128 x 64, both fractions", large(128, 64)),
        case("64 x 128, both fractions", put_bilin(tall)),
    ]
}

/// put_bilin of bytes into a destination of nines without gaps.
fn put_bilin(from: bilinear::Source<u8>) -> bilinear::PutBilin<u8> {
    bilinear::PutBilin { dst: room(&vec![9; from.w * from.h]), dst_stride: from.w, from }
}

/// Short sources: with one fraction earlier rows are written before the panic, with both none. A fraction outside.
fn bilinear_cases() -> Vec<String> {
    let from = bilinear::Source { depth: 8, src: room(&[10u8, 20]), src_stride: 1, w: 1, h: 2, mx: 8, my: 0 };
    let prep = bilinear::PrepBilin { tmp: room(&[9, 9]), tmp_stride: 1, from: from.clone() };
    vec![
        case("short source", put_bilin(from.clone())),
        case("short source", prep),
        case("short source, both fractions", put_bilin(bilinear::Source { my: 8, ..from.clone() })),
        case("fraction 16 is the neighbour", put_bilin(bilinear::Source { h: 1, mx: 16, ..from })),
    ]
}

/// warp_affine_8x8 of bytes without shears: places of the source and of the destination, and a table.
fn warp_call(source: usize, places: usize, table: &[i8]) -> warp::WarpAffine<u8> {
    let (src, warp) = (room(&vec![1; source]), room(table));
    let from = warp::Source { depth: 8, src, src_stride: 15, src_off: 48, abcd: [0; 4], mx: 0, my: 0, warp };
    warp::WarpAffine { dst: room(&vec![9; places]), dst_stride: 8, from }
}

/// Short buffers and a missing filter: all panic, a short destination after earlier rows were written.
fn warps() -> Vec<String> {
    let table = real_warp();
    vec![
        case("short source: 225 places are read", warp_call(224, 64, &table)),
        case("short destination", warp_call(225, 8, &table)),
        case("filter 192 missing", warp_call(225, 64, &table[..8 * 192])),
    ]
}

/// An accepted call that wraps with the original's own tables and pixels within the depth: the second pass gives 36956,
/// cut to -28580, and minus 8192 it wraps to 28764.
fn sixteen_bits() -> String {
    let (subpel, ext) = (real_subpel(), real_ext());
    let (src, src_stride) = (greatest_sum(), 12);
    let from = subpel::Source {
        depth: 10,
        src,
        src_off: 39,
        src_stride,
        w: 5,
        h: 5,
        mx: 8,
        my: 8,
        filter_type: 2,
        subpel,
        ext,
    };
    let call = subpel::Prep8tap { tmp: room(&[0; 25]), tmp_stride: 5, from };
    case(
        "accepted; wraps in 16 bits within the depth (1023 where the product of the two taps is above 0, else 0)",
        call,
    )
}

/// Twelve rows of twelve pixels at depth 10, on which filter 7 of family 2, taken both ways, has the greatest sum: a pixel
/// is 1023 where the product of its two taps is above 0, else 0.
pub fn greatest_sum() -> Room<u16> {
    let filter = 8 * (15 * 2 + 7);
    let taps = &real_subpel()[filter..filter + 8];
    Room((0..12 * 12).map(|place| greatest(taps, place % 12, place / 12)).collect())
}

/// The pixel at a column and row that makes the first place's sum the greatest.
fn greatest(taps: &[i8], x: usize, y: usize) -> u16 {
    let tap = |k: usize| taps.get(k).copied().unwrap_or(0) as i32;
    if tap(x) * tap(y) > 0 { 1023 } else { 0 }
}
