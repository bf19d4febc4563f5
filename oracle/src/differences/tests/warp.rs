//! warp_affine_8x8 and warp_affine_8x8t.

use super::{Change, FAR, changes, depth, depths, nines, parts, ramp, shorts};
use crate::answer::{Px, Room};
use crate::calls::warp::{Source, WarpAffine, WarpAffineT};
use crate::tables::real_warp;

/// The rows of this family.
pub fn cases() -> Vec<String> {
    [puts(), preps()].concat()
}

/// An accepted source without shears, which holds just the places of the taps, with the original's table.
fn source<P: Px>() -> Source<P> {
    let (src, warp) = (ramp(225), real_warp());
    Source { depth: depth::<P>(), src, src_stride: 15, src_off: 48, abcd: [0; 4], mx: 0, my: 0, warp }
}

/// Lends a table so long that the filter of 2^20 + 1 is in it: the original's, again and again.
fn long(c: &mut Source<u8>) -> &mut Source<u8> {
    c.warp = Room(real_warp().iter().cycle().take(8 * 1217).copied().collect());
    c
}

/// The tests of the source, its motion and its table. Below -2^20 no filter number is in any table.
const SOURCE: [Change<Source<u8>>; 14] = [
    ("src_stride 7, below the row", |c| c.src_stride = 7),
    ("src_stride 32,769", |c| (c.src_stride, c.src_off, c.src) = (FAR, 3 * FAR + 3, ramp(14 * FAR + 15))),
    ("mx 2^20 + 1, a table that has the filter", |c| long(c).mx = (1 << 20) + 1),
    ("mx 2^20 + 1, the original's table", |c| c.mx = (1 << 20) + 1),
    ("mx -2^20 - 1", |c| c.mx = -(1 << 20) - 1),
    ("my 2^20 + 1, a table that has the filter", |c| long(c).my = (1 << 20) + 1),
    ("my 2^20 + 1, the original's table", |c| c.my = (1 << 20) + 1),
    ("my -2^20 - 1", |c| c.my = -(1 << 20) - 1),
    ("warp of 3591 numbers", |c| c.warp.truncate(3591)),
    ("mx 262,656: filter 449 isn't in the table", |c| c.mx = 262_656),
    ("my 262,656: filter 449 isn't in the table", |c| c.my = 262_656),
    ("shears -32,768: filters below 0 aren't in the table", |c| c.abcd = [i16::MIN; 4]),
    ("src short by a place at its end", |c| c.src.truncate(224)),
    ("src_off less by one: the first tap is missing", |c| c.src_off -= 1),
];

/// An accepted warp_affine_8x8.
fn put<P: Px>() -> WarpAffine<P> {
    WarpAffine { dst: nines(64), dst_stride: 8, from: source() }
}

/// warp_affine_8x8's tests.
fn puts() -> Vec<String> {
    let own = changes(
        &put::<u8>(),
        &[
            ("dst_stride 7, below the row", |c| c.dst_stride = 7),
            ("dst_stride 32,769", |c| (c.dst_stride, c.dst) = (FAR, nines(7 * FAR + 8))),
            ("dst short by a place", |c| c.dst.truncate(63)),
        ],
    );
    let source = parts(&put::<u8>(), |c| &mut c.from, &SOURCE);
    [own, source, depths(&put::<u16>(), |c| &mut c.from.depth)].concat()
}

/// An accepted warp_affine_8x8t.
fn prep<P: Px>() -> WarpAffineT<P> {
    WarpAffineT { tmp: shorts(64), tmp_stride: 8, from: source() }
}

/// warp_affine_8x8t's tests.
fn preps() -> Vec<String> {
    let own = changes(
        &prep::<u8>(),
        &[
            ("tmp_stride 7, below the row", |c| c.tmp_stride = 7),
            ("tmp_stride 32,769", |c| (c.tmp_stride, c.tmp) = (FAR, shorts(7 * FAR + 8))),
            ("tmp short by a place", |c| c.tmp.truncate(63)),
        ],
    );
    let source = parts(&prep::<u8>(), |c| &mut c.from, &SOURCE);
    [own, source, depths(&prep::<u16>(), |c| &mut c.from.depth)].concat()
}
