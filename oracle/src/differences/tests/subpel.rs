//! put_8tap and prep_8tap.

use super::{Change, FAR, changes, depth, depths, nines, parts, ramp, reach, shorts, sides};
use crate::answer::Px;
use crate::calls::subpel::{Prep8tap, Put8tap, Source};
use crate::tables::{real_ext, real_subpel};

/// The rows of this family.
pub fn cases() -> Vec<String> {
    [puts(), preps()].concat()
}

/// An accepted source with both fractions, which holds just the places of the taps, with the original's tables.
fn source<P: Px>(w: usize, h: usize) -> Source<P> {
    let (src, subpel, ext) = (ramp(reach(w, h, 7)), real_subpel(), real_ext());
    let src_off = 3 * w + 3;
    Source { depth: depth::<P>(), src, src_off, src_stride: w, w, h, mx: 1, my: 1, filter_type: 0, subpel, ext }
}

/// An accepted put_8tap.
fn put<P: Px>(w: usize, h: usize) -> Put8tap<P> {
    Put8tap { dst: nines(w * h), dst_stride: w, from: source(w, h) }
}

/// An accepted prep_8tap.
fn prep<P: Px>(w: usize, h: usize) -> Prep8tap<P> {
    Prep8tap { tmp: shorts(w * h), tmp_stride: w, from: source(w, h) }
}

/// The tests of the source, its motion and its tables, for 2 x 2.
const SOURCE: [Change<Source<u8>>; 15] = [
    ("src_stride below the row", |c| c.src_stride = 1),
    ("src_stride 32,769", |c| (c.src_stride, c.src_off, c.src) = (FAR, 3 * FAR + 3, ramp(8 * FAR + 9))),
    ("src short by a place at its end", |c| c.src.truncate(24)),
    ("src_off less by one: the first tap is missing", |c| c.src_off -= 1),
    ("filter_type 3", |c| c.filter_type = 3),
    ("filter_type -2", |c| c.filter_type = -2),
    ("mx 16", |c| c.mx = 16),
    ("mx -1", |c| c.mx = -1),
    ("my 16", |c| c.my = 16),
    ("my -1", |c| c.my = -1),
    ("subpel of 599 numbers", |c| c.subpel.truncate(599)),
    ("subpel of 601 numbers", |c| c.subpel.push(0)),
    ("ext of 503 numbers", |c| c.ext.truncate(503)),
    ("filter_type -1, mx 64: ext has 63 filters", |c| (c.filter_type, c.mx) = (-1, 64)),
    ("filter_type -1, my 64: ext has 63 filters", |c| (c.filter_type, c.my) = (-1, 64)),
];

/// put_8tap's tests.
fn puts() -> Vec<String> {
    let own = changes(
        &put::<u8>(2, 2),
        &[
            ("dst_stride below the row", |c| c.dst_stride = 1),
            ("dst_stride 32,769", |c| (c.dst_stride, c.dst) = (FAR, nines(FAR + 2))),
            ("dst short by a place", |c| c.dst.truncate(3)),
        ],
    );
    let source = parts(&put::<u8>(2, 2), |c| &mut c.from, &SOURCE);
    [sides(put::<u8>), own, source, depths(&put::<u16>(1, 1), |c| &mut c.from.depth)].concat()
}

/// prep_8tap's tests.
fn preps() -> Vec<String> {
    let own = changes(
        &prep::<u8>(2, 2),
        &[
            ("tmp_stride below the row", |c| c.tmp_stride = 1),
            ("tmp_stride 32,769", |c| (c.tmp_stride, c.tmp) = (FAR, shorts(FAR + 2))),
            ("tmp short by a place", |c| c.tmp.truncate(3)),
        ],
    );
    let source = parts(&prep::<u8>(2, 2), |c| &mut c.from, &SOURCE);
    [sides(prep::<u8>), own, source, depths(&prep::<u16>(1, 1), |c| &mut c.from.depth)].concat()
}
