//! put and prep.

use super::{FAR, changes, depth, depths, nines, ramp, shorts, sides};
use crate::answer::Px;
use crate::calls::copy::{Prep, Put};

/// The rows of this family.
pub fn cases() -> Vec<String> {
    [puts(), preps()].concat()
}

/// An accepted put, without gaps.
fn put(w: usize, h: usize) -> Put<u8> {
    Put { dst: nines(w * h), dst_stride: w, src: ramp(w * h), src_stride: w, w, h }
}

/// An accepted prep, without gaps.
fn prep<P: Px>(w: usize, h: usize) -> Prep<P> {
    Prep { depth: depth::<P>(), tmp: shorts(w * h), tmp_stride: w, src: ramp(w * h), src_stride: w, w, h }
}

/// put's tests.
fn puts() -> Vec<String> {
    let tests = changes(
        &put(2, 2),
        &[
            ("dst_stride below the row", |c| c.dst_stride = 1),
            ("dst_stride 32,769", |c| (c.dst_stride, c.dst) = (FAR, nines(FAR + 2))),
            ("src_stride below the row", |c| c.src_stride = 1),
            ("src_stride 32,769", |c| (c.src_stride, c.src) = (FAR, ramp(FAR + 2))),
            ("src short by a place", |c| c.src.truncate(3)),
            ("dst short by a place", |c| c.dst.truncate(3)),
        ],
    );
    [sides(put), tests].concat()
}

/// prep's tests.
fn preps() -> Vec<String> {
    let tests = changes(
        &prep::<u8>(2, 2),
        &[
            ("tmp_stride below the row", |c| c.tmp_stride = 1),
            ("tmp_stride 32,769", |c| (c.tmp_stride, c.tmp) = (FAR, shorts(FAR + 2))),
            ("src_stride below the row", |c| c.src_stride = 1),
            ("src_stride 32,769", |c| (c.src_stride, c.src) = (FAR, ramp(FAR + 2))),
            ("src short by a place", |c| c.src.truncate(3)),
            ("tmp short by a place", |c| c.tmp.truncate(3)),
        ],
    );
    [sides(prep::<u8>), tests, depths(&prep::<u16>(1, 1), |c| &mut c.depth)].concat()
}
