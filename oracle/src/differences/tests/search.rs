//! sad_nxn and sad_refine_mv.

use super::{Change, FAR, changes, depth, depths, parts, ramp, sides};
use crate::answer::{Px, Room};
use crate::calls::search::{SadNxn, SadRefineMv};

/// The rows of this family.
pub fn cases() -> Vec<String> {
    [sads(), refines()].concat()
}

/// Two accepted planes without gaps, of sides longer than w and h by a margin: 1, 2, 3 and so on against zeros.
fn planes<P: Px>(w: usize, h: usize, margin: usize) -> SadNxn<P> {
    let (row, places) = (w + margin, (w + margin) * (h + margin));
    let (p0, p1) = (ramp(places), Room(vec![P::low(0); places]));
    SadNxn { depth: depth::<P>(), p0, p0_stride: row, p1, p1_stride: row, w, h }
}

/// An accepted sad_nxn.
fn sad<P: Px>(w: usize, h: usize) -> SadNxn<P> {
    planes(w, h, 0)
}

/// sad_nxn's tests, on three rows, of which the first and the last are read; short planes on two rows too.
fn sads() -> Vec<String> {
    let tests = changes(
        &sad::<u8>(2, 3),
        &[
            ("p0_stride below the row", |c| c.p0_stride = 1),
            ("p0_stride 32,769", |c| (c.p0_stride, c.p0) = (FAR, ramp(2 * FAR + 2))),
            ("p1_stride below the row", |c| c.p1_stride = 1),
            ("p1_stride 32,769", |c| (c.p1_stride, c.p1) = (FAR, ramp(2 * FAR + 2))),
            ("p0 short by a place, odd h", |c| c.p0.truncate(5)),
            ("p1 short by a place, odd h", |c| c.p1.truncate(5)),
        ],
    );
    let even: [Change<SadNxn<u8>>; 2] =
        [("p0 short by a place, even h", |c| c.p0.truncate(3)), ("p1 short by a place, even h", |c| c.p1.truncate(3))];
    let even = changes(&sad(2, 2), &even);
    [sides(sad::<u8>), tests, even, depths(&sad::<u16>(1, 1), |c| &mut c.depth)].concat()
}

/// An accepted sad_refine_mv, explicit.
fn refine<P: Px>(w: usize, h: usize) -> SadRefineMv<P> {
    SadRefineMv { planes: planes(w, h, 8), is_implicit: false }
}

/// sad_refine_mv's tests: planes of 9 x 9.
fn refines() -> Vec<String> {
    let tests: [Change<SadNxn<u8>>; 6] = [
        ("p0_stride below the row", |c| c.p0_stride = 8),
        ("p0_stride 32,769", |c| (c.p0_stride, c.p0) = (FAR, ramp(8 * FAR + 9))),
        ("p1_stride below the row", |c| c.p1_stride = 8),
        ("p1_stride 32,769", |c| (c.p1_stride, c.p1) = (FAR, Room(vec![0; 8 * FAR + 9]))),
        ("p0 short by a place, odd h", |c| c.p0.truncate(80)),
        ("p1 short by a place, odd h", |c| c.p1.truncate(80)),
    ];
    let tests = parts(&refine::<u8>(1, 1), |c| &mut c.planes, &tests);
    [sides(refine::<u8>), tests, depths(&refine::<u16>(1, 1), |c| &mut c.planes.depth)].concat()
}
