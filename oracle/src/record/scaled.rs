//! The four scaled kernels. Numbers: the destination's stride, src_off, src_stride, w, h, mx, my, dx, dy, for 8-tap the
//! type; buffers: the destination, the source, for 8-tap subpel.

use super::{Listed, Part, Recorded, mids, pixels, repeat, taps, with_depth};
use crate::answer::Px;
use crate::calls::scaled::{Filters, Prep8tapScaled, PrepBilinScaled, Put8tapScaled, PutBilinScaled, Source};

/// The numbers and buffers of a call with this destination, but for its filters.
fn listed<P: Px>(to: Part, stride: usize, from: &Source<P>) -> Listed {
    let Source { depth, src_off, src_stride, w, h, mx, my, dx, dy, .. } = *from;
    let sizes = [stride, src_off, src_stride, w, h].map(|n| n as i64);
    let numbers = [&sizes[..], &[mx, my, dx, dy].map(i64::from)].concat();
    Listed { numbers: with_depth::<P>(depth, &numbers), parts: vec![to.written(stride, w, h), pixels(&from.src)] }
}

impl Listed {
    /// The same with an 8-tap call's filters.
    fn by(self, filters: &Filters) -> Listed {
        self.and(&[filters.filter_type as i64], vec![taps(&filters.subpel)])
    }
}

impl<P: Px> Recorded for Put8tapScaled<P> {
    fn cut(&mut self) {
        repeat(&mut self.dst);
        repeat(&mut self.from.src);
        repeat(&mut self.by.subpel);
    }

    fn listed(&self) -> Listed {
        listed(pixels(&self.dst), self.dst_stride, &self.from).by(&self.by)
    }
}

impl<P: Px> Recorded for Prep8tapScaled<P> {
    fn cut(&mut self) {
        repeat(&mut self.tmp);
        repeat(&mut self.from.src);
        repeat(&mut self.by.subpel);
    }

    fn listed(&self) -> Listed {
        listed(mids(&self.tmp), self.tmp_stride, &self.from).by(&self.by)
    }
}

impl<P: Px> Recorded for PutBilinScaled<P> {
    fn cut(&mut self) {
        repeat(&mut self.dst);
        repeat(&mut self.from.src);
    }

    fn listed(&self) -> Listed {
        listed(pixels(&self.dst), self.dst_stride, &self.from)
    }
}

impl<P: Px> Recorded for PrepBilinScaled<P> {
    fn cut(&mut self) {
        repeat(&mut self.tmp);
        repeat(&mut self.from.src);
    }

    fn listed(&self) -> Listed {
        listed(mids(&self.tmp), self.tmp_stride, &self.from)
    }
}
