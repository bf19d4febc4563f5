//! emu_edge.

use super::{Rules, write_block};
use crate::answer::{Answer, Px};
use crate::calls::edge::EmuEdge;

impl<P: Px> Rules for EmuEdge<P> {
    // Place (i, j) gets the plane's pixel at column clamp(x+i, 0, iw-1), row clamp(y+j, 0, ih-1).
    fn rule(&self) -> Answer {
        let mut dst = self.dst.clone();
        let clamped = |start: i64, step: usize, side: usize| (start + step as i64).clamp(0, side as i64 - 1) as usize;
        write_block(&mut dst, self.dst_stride, self.bw, self.bh, |i, j| {
            let (column, row) = (clamped(self.x, i, self.iw), clamped(self.y, j, self.ih));
            self.plane[row * self.plane_stride + column]
        });
        Answer::done(vec![], vec![P::buffer(dst)])
    }
}
