//! The scaled kernels.

use super::{Change, FAR, changes, depth, depths, nines, parts, ramp, reach, shorts, sides};
use crate::answer::Px;
use crate::calls::scaled::{Filters, Prep8tapScaled, PrepBilinScaled, Put8tapScaled, PutBilinScaled, Source};
use crate::tables::real_subpel;

/// The rows of this family.
pub fn cases() -> Vec<String> {
    [puts_8tap(), preps_8tap(), puts_bilin(), preps_bilin()].concat()
}

/// An accepted source at its own size, a sixteenth on, which holds just what is fetched for 8-tap.
fn eight<P: Px>(w: usize, h: usize) -> Source<P> {
    let (src, src_off) = (ramp(reach(w, h, 7)), 3 * w + 3);
    Source { depth: depth::<P>(), src, src_off, src_stride: w, w, h, mx: 64, my: 64, dx: 1024, dy: 1024 }
}

/// The same for bilinear.
fn two<P: Px>(w: usize, h: usize) -> Source<P> {
    Source { src: ramp(reach(w, h, 1)), src_off: 0, ..eight(w, h) }
}

/// The original's filters.
fn filters() -> Filters {
    Filters { filter_type: 0, subpel: real_subpel() }
}

/// Makes the source of a 2 x 2 block hold whatever a start or a step a little outside leads to.
fn wide(c: &mut Source<u8>) -> &mut Source<u8> {
    (c.src, c.src_off) = (ramp(97), 24);
    c
}

/// The starts and steps of a 2 x 2 block.
const POSITIONS: [Change<Source<u8>>; 8] = [
    ("mx 1024", |c| wide(c).mx = 1024),
    ("mx -1", |c| wide(c).mx = -1),
    ("my 1024", |c| wide(c).my = 1024),
    ("my -1", |c| wide(c).my = -1),
    ("dx 4097", |c| wide(c).dx = 4097),
    ("dx -1", |c| wide(c).dx = -1),
    ("dy 4097", |c| wide(c).dy = 4097),
    ("dy -1", |c| wide(c).dy = -1),
];

/// Stride and places of an 8-tap source of 2 x 2.
const EIGHT: [Change<Source<u8>>; 4] = [
    ("src_stride below the row", |c| c.src_stride = 1),
    ("src_stride 32,769", |c| (c.src_stride, c.src_off, c.src) = (FAR, 3 * FAR + 3, ramp(8 * FAR + 9))),
    ("src short by a place at its end", |c| c.src.truncate(24)),
    ("src_off less by one: the first place is missing", |c| c.src_off -= 1),
];

/// Stride and places of a bilinear source of 2 x 2.
const TWO: [Change<Source<u8>>; 3] = [
    ("src_stride below the row", |c| c.src_stride = 1),
    ("src_stride 32,769", |c| (c.src_stride, c.src) = (FAR, ramp(2 * FAR + 3))),
    ("src short by a place", |c| c.src.truncate(6)),
];

/// Type and table.
const FILTERS: [Change<Filters>; 4] = [
    ("filter_type -1", |c| c.filter_type = -1),
    ("filter_type 3", |c| c.filter_type = 3),
    ("subpel of 599 numbers", |c| c.subpel.truncate(599)),
    ("subpel of 601 numbers", |c| c.subpel.push(0)),
];

/// An accepted put_8tap_scaled.
fn put_8tap<P: Px>(w: usize, h: usize) -> Put8tapScaled<P> {
    Put8tapScaled { dst: nines(w * h), dst_stride: w, from: eight(w, h), by: filters() }
}

/// put_8tap_scaled's tests.
fn puts_8tap() -> Vec<String> {
    let call = put_8tap::<u8>(2, 2);
    let own = changes(
        &call,
        &[
            ("dst_stride below the row", |c| c.dst_stride = 1),
            ("dst_stride 32,769", |c| (c.dst_stride, c.dst) = (FAR, nines(FAR + 2))),
            ("dst short by a place", |c| c.dst.truncate(3)),
        ],
    );
    let source = [parts(&call, |c| &mut c.from, &EIGHT), parts(&call, |c| &mut c.from, &POSITIONS)].concat();
    let filters = parts(&call, |c| &mut c.by, &FILTERS);
    [sides(put_8tap::<u8>), own, source, filters, depths(&put_8tap::<u16>(1, 1), |c| &mut c.from.depth)].concat()
}

/// An accepted prep_8tap_scaled.
fn prep_8tap<P: Px>(w: usize, h: usize) -> Prep8tapScaled<P> {
    Prep8tapScaled { tmp: shorts(w * h), tmp_stride: w, from: eight(w, h), by: filters() }
}

/// prep_8tap_scaled's tests.
fn preps_8tap() -> Vec<String> {
    let call = prep_8tap::<u8>(2, 2);
    let own = changes(
        &call,
        &[
            ("tmp_stride below the row", |c| c.tmp_stride = 1),
            ("tmp_stride 32,769", |c| (c.tmp_stride, c.tmp) = (FAR, shorts(FAR + 2))),
            ("tmp short by a place", |c| c.tmp.truncate(3)),
        ],
    );
    let source = [parts(&call, |c| &mut c.from, &EIGHT), parts(&call, |c| &mut c.from, &POSITIONS)].concat();
    let filters = parts(&call, |c| &mut c.by, &FILTERS);
    [sides(prep_8tap::<u8>), own, source, filters, depths(&prep_8tap::<u16>(1, 1), |c| &mut c.from.depth)].concat()
}

/// An accepted put_bilin_scaled.
fn put_bilin<P: Px>(w: usize, h: usize) -> PutBilinScaled<P> {
    PutBilinScaled { dst: nines(w * h), dst_stride: w, from: two(w, h) }
}

/// put_bilin_scaled's tests.
fn puts_bilin() -> Vec<String> {
    let call = put_bilin::<u8>(2, 2);
    let own = changes(
        &call,
        &[
            ("dst_stride below the row", |c| c.dst_stride = 1),
            ("dst_stride 32,769", |c| (c.dst_stride, c.dst) = (FAR, nines(FAR + 2))),
            ("dst short by a place", |c| c.dst.truncate(3)),
        ],
    );
    let source = [parts(&call, |c| &mut c.from, &TWO), parts(&call, |c| &mut c.from, &POSITIONS)].concat();
    [sides(put_bilin::<u8>), own, source, depths(&put_bilin::<u16>(1, 1), |c| &mut c.from.depth)].concat()
}

/// An accepted prep_bilin_scaled.
fn prep_bilin<P: Px>(w: usize, h: usize) -> PrepBilinScaled<P> {
    PrepBilinScaled { tmp: shorts(w * h), tmp_stride: w, from: two(w, h) }
}

/// prep_bilin_scaled's tests.
fn preps_bilin() -> Vec<String> {
    let call = prep_bilin::<u8>(2, 2);
    let own = changes(
        &call,
        &[
            ("tmp_stride below the row", |c| c.tmp_stride = 1),
            ("tmp_stride 32,769", |c| (c.tmp_stride, c.tmp) = (FAR, shorts(FAR + 2))),
            ("tmp short by a place", |c| c.tmp.truncate(3)),
        ],
    );
    let source = [parts(&call, |c| &mut c.from, &TWO), parts(&call, |c| &mut c.from, &POSITIONS)].concat();
    [sides(prep_bilin::<u8>), own, source, depths(&prep_bilin::<u16>(1, 1), |c| &mut c.from.depth)].concat()
}
