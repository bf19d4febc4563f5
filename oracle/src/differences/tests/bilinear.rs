//! put_bilin and prep_bilin.

use super::{Change, FAR, changes, depth, depths, nines, parts, ramp, reach, shorts, sides};
use crate::answer::Px;
use crate::calls::bilinear::{PrepBilin, PutBilin, Source};

/// The rows of this family.
pub fn cases() -> Vec<String> {
    [puts(), preps()].concat()
}

/// An accepted source with both fractions, which holds just the places that are read.
fn source<P: Px>(w: usize, h: usize) -> Source<P> {
    Source { depth: depth::<P>(), src: ramp(reach(w, h, 1)), src_stride: w, w, h, mx: 8, my: 8 }
}

/// An accepted put_bilin.
fn put<P: Px>(w: usize, h: usize) -> PutBilin<P> {
    PutBilin { dst: nines(w * h), dst_stride: w, from: source(w, h) }
}

/// An accepted prep_bilin.
fn prep<P: Px>(w: usize, h: usize) -> PrepBilin<P> {
    PrepBilin { tmp: shorts(w * h), tmp_stride: w, from: source(w, h) }
}

/// The tests of the source and its motion, for 2 x 2.
const SOURCE: [Change<Source<u8>>; 7] = [
    ("src_stride below the row", |c| c.src_stride = 1),
    ("src_stride 32,769", |c| (c.src_stride, c.src) = (FAR, ramp(2 * FAR + 3))),
    ("src short by a place", |c| c.src.truncate(6)),
    ("mx 16", |c| c.mx = 16),
    ("mx -1", |c| c.mx = -1),
    ("my 16", |c| c.my = 16),
    ("my -1", |c| c.my = -1),
];

/// put_bilin's tests.
fn puts() -> Vec<String> {
    let own = changes(
        &put::<u8>(2, 2),
        &[
            ("dst_stride below the row", |c| c.dst_stride = 1),
            ("dst_stride 32,769", |c| (c.dst_stride, c.dst) = (FAR, nines(FAR + 2))),
            ("dst short by a place", |c| c.dst.truncate(3)),
        ],
    );
    let source = parts(&put::<u8>(2, 2), |c| &mut c.from, &SOURCE);
    [sides(put::<u8>), own, source, depths(&put::<u16>(1, 1), |c| &mut c.from.depth)].concat()
}

/// prep_bilin's tests.
fn preps() -> Vec<String> {
    let own = changes(
        &prep::<u8>(2, 2),
        &[
            ("tmp_stride below the row", |c| c.tmp_stride = 1),
            ("tmp_stride 32,769", |c| (c.tmp_stride, c.tmp) = (FAR, shorts(FAR + 2))),
            ("tmp short by a place", |c| c.tmp.truncate(3)),
        ],
    );
    let source = parts(&prep::<u8>(2, 2), |c| &mut c.from, &SOURCE);
    [sides(prep::<u8>), own, source, depths(&prep::<u16>(1, 1), |c| &mut c.from.depth)].concat()
}
