//! Accepted calls on either side of where AV1's rules, as dav1d has them, part from AV2's (oracle/dav1d runs dav1d on the same).

use super::{case, room};
use crate::calls::shear::{GetShearParams, Record, ResolveDivisor32, SetAffineMv2d};
use crate::calls::warp::{Source, WarpAffine};
use crate::tables::{real_recip, real_warp};

/// The rows, in the order of docs/DIFFERENCES.md.
pub fn cases() -> Vec<String> {
    let mut rows = vec![divisor(1), divisor(3), shear("the divisor's fraction", [0, 0, 65_215, 0, 95, 65_536])];
    rows.extend([81_856, 81_920].map(|m2| shear("the shears' limit", [0, 0, m2, 0, 0, 65_536])));
    rows.extend([32_735, 32_736].map(|m3| shear("Q's clip", [0, 0, 65_536, m3, 0, 65_536])));
    rows.push(shear("Q's clip", [0, 0, 98_272, 0, 0, 65_536]));
    rows.extend([1023, 1024, -1024, -1025].map(affine));
    rows.extend([130_559, 130_560, 131_584, -66_049].map(warp));
    rows
}

fn divisor(d: u32) -> String {
    case("reciprocals", ResolveDivisor32 { d, recip: real_recip() })
}

fn shear(what: &str, matrix: [i32; 6]) -> String {
    case(what, GetShearParams { record: Record { matrix, abcd: [7; 4], affine: 7 }, recip: real_recip() })
}

/// The offsets of a block at the first place, by the unit matrix.
fn affine(mv_x: i32) -> String {
    let matrix = [0, 0, 65_536, 0, 0, 65_536];
    case("offsets' clip", SetAffineMv2d { bw4: 1, bh4: 1, mv_x, mv_y: 0, matrix, bx4: 0, by4: 0 })
}

/// 15 columns and rows of 0, but for a column of 255, three to the right of each row's first pixel; no shears.
fn warp(mx: i32) -> String {
    let src: Vec<u8> = (0..225).map(|place| if place % 15 == 6 { 255 } else { 0 }).collect();
    let from =
        Source { depth: 8, src: room(&src), src_stride: 15, src_off: 48, abcd: [0; 4], mx, my: 0, warp: real_warp() };
    case("filters", WarpAffine { dst: room(&[9; 64]), dst_stride: 8, from })
}
