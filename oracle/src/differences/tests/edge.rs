//! emu_edge.

use super::{FAR, changes, nines, ramp, refused};
use crate::calls::edge::EmuEdge;

/// A block at the first pixel of a plane, both without gaps.
fn edge(bw: usize, bh: usize, iw: usize, ih: usize) -> EmuEdge<u8> {
    let (dst, plane) = (nines(bw * bh), ramp(iw * ih));
    EmuEdge { bw, bh, iw, ih, x: 0, y: 0, dst, dst_stride: bw, plane, plane_stride: iw }
}

/// The rows of this family.
pub fn cases() -> Vec<String> {
    [sides(), strides_and_buffers(), positions()].concat()
}

/// A row for each side outside its range, the block's and the plane's.
fn sides() -> Vec<String> {
    let named = [
        ("bw 0", edge(0, 1, 1, 1)),
        ("bw 129", edge(129, 1, 2, 1)),
        ("bh 0", edge(1, 0, 1, 1)),
        ("bh 129", edge(1, 129, 1, 2)),
        ("bw and bh 135", edge(135, 135, 2, 2)),
        ("iw 0", edge(1, 1, 0, 1)),
        ("iw 16,385", EmuEdge { x: 16_384, ..edge(1, 1, 16_385, 1) }),
        ("ih 0", edge(1, 1, 1, 0)),
        ("ih 16,385", EmuEdge { y: 16_384, ..edge(1, 1, 1, 16_385) }),
    ];
    named.map(|(what, call)| refused(what, call)).to_vec()
}

/// Strides and short buffers.
fn strides_and_buffers() -> Vec<String> {
    changes(
        &edge(2, 2, 2, 2),
        &[
            ("dst_stride below the row", |c| c.dst_stride = 1),
            ("dst_stride 32,769", |c| (c.dst_stride, c.dst) = (FAR, nines(FAR + 2))),
            ("plane_stride below the row", |c| c.plane_stride = 1),
            ("plane_stride 32,769", |c| (c.plane_stride, c.plane) = (FAR, ramp(FAR + 2))),
            ("plane short by a place", |c| c.plane.truncate(3)),
            ("dst short by a place", |c| c.dst.truncate(3)),
        ],
    )
}

/// Positions outside.
fn positions() -> Vec<String> {
    changes(
        &edge(1, 1, 2, 2),
        &[
            ("x 2^30 + 1", |c| c.x = (1 << 30) + 1),
            ("x -2^30 - 1", |c| c.x = -(1 << 30) - 1),
            ("x 2^31: counts as -2^31", |c| c.x = 1 << 31),
            ("y 2^30 + 1", |c| c.y = (1 << 30) + 1),
            ("y -2^30 - 1", |c| c.y = -(1 << 30) - 1),
            ("y 2^31: counts as -2^31", |c| c.y = 1 << 31),
        ],
    )
}
