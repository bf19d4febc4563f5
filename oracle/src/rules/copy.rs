//! put and prep.

use super::{Rules, bits, minus_bias, write_block};
use crate::answer::{Answer, Buffer, Px};
use crate::calls::copy::{Prep, Put};

impl<P: Px> Rules for Put<P> {
    // Copies without a clip, above the depth too.
    fn rule(&self) -> Answer {
        let mut dst = self.dst.clone();
        write_block(&mut dst, self.dst_stride, self.w, self.h, |x, y| self.src[y * self.src_stride + x]);
        Answer::done(vec![], vec![P::buffer(dst)])
    }
}

/// low16((s << B) - P).
pub fn prepared(depth: i32, pixel: i64) -> i16 {
    minus_bias(depth, pixel << bits(depth))
}

impl<P: Px> Rules for Prep<P> {
    fn rule(&self) -> Answer {
        let mut tmp = self.tmp.clone();
        write_block(&mut tmp, self.tmp_stride, self.w, self.h, |x, y| {
            prepared(self.depth, self.src[y * self.src_stride + x].wide())
        });
        Answer::done(vec![], vec![Buffer::Shorts(tmp)])
    }
}
