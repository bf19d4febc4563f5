//! Copies, combinations and edges.

use super::{case, room};
use crate::calls::combine::{Avg, Blend, Mask, Morph, Pair, WAvg, WMask};
use crate::calls::copy::{Prep, Put};
use crate::calls::edge::EmuEdge;

/// The rows of this family.
pub fn cases() -> Vec<String> {
    [copies(), vec![above_the_depth()], rows_shortened(), masks(), edges(), depths()].concat()
}

/// put of bytes with these buffers.
fn put(dst: &[u8], dst_stride: usize, src: &[u8], w: usize, h: usize) -> Put<u8> {
    Put { dst: room(dst), dst_stride, src: room(src), src_stride: w, w, h }
}

/// Copies that panic after earlier rows were written, and one whose rows overlap.
fn copies() -> Vec<String> {
    let prep = Prep { depth: 8, tmp: room(&[9, 9]), tmp_stride: 1, src: room(&[7u8]), src_stride: 1, w: 1, h: 2 };
    vec![
        case("short source", put(&[9, 9], 1, &[7], 1, 2)),
        case("short destination", put(&[9], 1, &[7, 8], 1, 2)),
        case("short source", prep),
        case("stride below the row", put(&[9, 9, 9], 1, &[1, 2, 3, 4], 2, 2)),
    ]
}

/// An accepted copy of a pixel above the depth: put is told none.
fn above_the_depth() -> String {
    let call = Put { dst: room(&[9]), dst_stride: 1, src: room(&[1024u16]), src_stride: 1, w: 1, h: 1 };
    case("accepted; no clip, also above a depth of 10", call)
}

/// A pair of bytes with these buffers, its destination without gaps.
fn pair(dst: &[u8], tmp1: &[i16], tmp2: &[i16], w: usize, h: usize) -> Pair<u8> {
    Pair { depth: 8, dst: room(dst), dst_stride: w, tmp1: room(tmp1), tmp2: room(tmp2), w, h }
}

/// Combinations that shorten or skip rows instead of refusing.
fn rows_shortened() -> Vec<String> {
    let two = [16, 16];
    let mask = Mask { pair: pair(&[9, 9], &two, &two, 2, 1), mask: room(&[64]) };
    let morph = Morph { depth: 8, dst: room(&[1u8]), dst_stride: 2, alpha: 256, beta: 256, w: 2, h: 1 };
    vec![
        case("short intermediate: row skipped", Avg(pair(&[9, 9], &[16], &two, 1, 2))),
        case("short destination: row shortened", Avg(pair(&[9], &two, &two, 2, 1))),
        case("short intermediate: row shortened", WAvg { pair: pair(&[9, 9], &[16], &two, 2, 1), weight: 8 }),
        case("weight 33", WAvg { pair: pair(&[9], &[16], &[0], 1, 1), weight: 33 }),
        case("short mask: row shortened", mask),
        case("short source: row skipped", blend(&[9, 9], &[4], 2, &[64, 64])),
        case("mask value 65: d weighs -1, the result is cut", blend(&[33], &[0], 1, &[65])),
        case("short destination: row shortened", morph),
    ]
}

/// blend of a column of bytes.
fn blend(dst: &[u8], tmp: &[u8], h: usize, mask: &[u8]) -> Blend<u8> {
    Blend { dst: room(dst), dst_stride: 1, tmp: room(tmp), w: 1, h, mask: room(mask) }
}

/// w_mask on short intermediates, odd sides, and flags that don't go together.
fn masks() -> Vec<String> {
    let w_mask = |pair: Pair<u8>, places: usize, ss_hor: bool, ss_ver: bool| {
        let mask = room(&vec![9; places]);
        WMask { pair, mask, mask_stride: 1, sign: 0, ss_hor, ss_ver }
    };
    let column = pair(&[9, 9], &[3200, 3200], &[3200, 3200], 1, 2);
    vec![
        case("short intermediate", w_mask(pair(&[9, 9], &[3200], &[3200, 3200], 1, 2), 2, false, false)),
        case("odd width spills past the row", w_mask(Pair { h: 1, ..column.clone() }, 1, true, false)),
        case("odd width at the buffers' end", w_mask(pair(&[9], &[3200], &[3200], 1, 1), 1, true, false)),
        case("ss_ver without ss_hor", w_mask(column, 1, false, true)),
    ]
}

/// emu_edge of a block on a plane of bytes, at column x of row 0.
fn edge(bw: usize, bh: usize, iw: usize, x: i64, dst: &[u8], dst_stride: usize, plane: &[u8]) -> EmuEdge<u8> {
    EmuEdge { bw, bh, iw, ih: bh, x, y: 0, dst: room(dst), dst_stride, plane: room(plane), plane_stride: iw }
}

/// emu_edge on a short plane, and at a position that doesn't fit 32 bits.
fn edges() -> Vec<String> {
    vec![
        case("short plane repeats its last pixel", edge(2, 1, 2, 0, &[9, 9], 2, &[5])),
        case("short plane repeats the old destination's 9", edge(1, 2, 1, 0, &[0, 9, 0], 2, &[5])),
        case("short destination", edge(1, 2, 1, 0, &[9], 1, &[5, 6])),
        case("position 2^32 counts as 0: the row's last pixel is 6", edge(1, 1, 2, 1 << 32, &[9], 1, &[5, 6])),
    ]
}

/// Further depths that the 16-bit set doesn't have: the Rust takes B = 14 - depth.
fn depths() -> Vec<String> {
    [9, 13]
        .map(|depth| {
            let call = Prep { depth, tmp: room(&[9]), tmp_stride: 1, src: room(&[1u16]), src_stride: 1, w: 1, h: 1 };
            case(&format!("16-bit pixels at depth {depth}: B is {}", 14 - depth), call)
        })
        .to_vec()
}
