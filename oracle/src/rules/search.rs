//! sad_nxn and sad_refine_mv.

use super::Rules;
use crate::answer::{Answer, Px};
use crate::calls::search::{SadNxn, SadRefineMv};

/// Where a block starts in a buffer: column and row.
type Start = (i64, i64);

/// |difference| added over rows 0, 2, 4 ..., shifted right by depth-8, of blocks that start at these places.
fn sum<P: Px>(call: &SadNxn<P>, start0: Start, start1: Start, w: usize, h: usize) -> i64 {
    let mut sum = 0;
    for y in (0..h as i64).step_by(2) {
        for x in 0..w as i64 {
            let place0 = (start0.1 + y) * call.p0_stride as i64 + start0.0 + x;
            let place1 = (start1.1 + y) * call.p1_stride as i64 + start1.0 + x;
            sum += (call.p0[place0 as usize].wide() - call.p1[place1 as usize].wide()).abs();
        }
    }
    sum >> (call.depth - 8)
}

impl<P: Px> Rules for SadNxn<P> {
    fn rule(&self) -> Answer {
        Answer::done(vec![sum(self, (0, 0), (0, 0), self.w, self.h)], vec![])
    }
}

/// The offset that the search answers.
fn refine<P: Px>(call: &SadRefineMv<P>) -> (i64, i64) {
    let (w, h) = (call.planes.w + 4, call.planes.h + 4);
    let sum_at = |dx: i64, dy: i64| sum(&call.planes, (2 + dx, 2 + dy), (2 - dx, 2 - dy), w, h);
    let mut best: Option<i64> = None;
    if call.is_implicit {
        let kept = (7 * sum_at(0, 0) + 7) >> 3;
        if kept < 2 * (w * h) as i64 {
            return (0, 0);
        }
        best = Some(kept);
    }
    let mut offset = (0, 0);
    for dy in -2..=2 {
        for dx in -2..=2 {
            let centre = dx == 0 && dy == 0;
            let s = sum_at(dx, dy);
            if !centre && best.is_none_or(|least| s < least) {
                (best, offset) = (Some(s), (dx, dy));
            }
        }
    }
    offset
}

impl<P: Px> Rules for SadRefineMv<P> {
    fn rule(&self) -> Answer {
        let (dx, dy) = refine(self);
        Answer::done(vec![dx, dy], vec![])
    }
}
