//! window and row.

use super::{Library, pixels};
use crate::answer::{Answer, Px};
use crate::ask::Answers;
use crate::calls::window::{Block, Reference, Row, Window};
use crate::lend::{Ground, JUNK, JUNK_PLACE, Lent, lend};

/// The four results of a part, lent.
struct Results<G: Ground> {
    buffer: Lent<'static, u32, G>,
    place: Lent<'static, usize, G>,
    stride: Lent<'static, usize, G>,
    len: Lent<'static, usize, G>,
}

/// Lends the results.
fn lend_results<G: Ground>() -> Results<G> {
    Results {
        buffer: lend("buffer", &[JUNK as u32]),
        place: lend("place", &[JUNK_PLACE]),
        stride: lend("stride", &[JUNK_PLACE]),
        len: lend("len", &[JUNK_PLACE]),
    }
}

impl<G: Ground> Results<G> {
    /// What they hold.
    fn numbers(&self) -> Vec<i64> {
        let places = [&self.place, &self.stride, &self.len].map(|lent| lent.now()[0] as i64);
        [self.buffer.now()[0] as i64].into_iter().chain(places).collect()
    }

    /// What changed beside them.
    fn guards(&self) -> Option<String> {
        self.buffer.guards().or(self.place.guards()).or(self.stride.guards()).or(self.len.guards())
    }
}

impl<P: Px, A: archive::Window<P>, G: Ground> Answers<Window<P>> for Library<A, G> {
    const REFUSES: bool = true;
    const THERE: bool = A::THERE;

    fn answer(Window { from, block, mode, scratch }: &Window<P>) -> Answer {
        let Reference { luma_w, luma_h, ss_hor, ss_ver, plane_no, plane_stride, .. } = *from;
        let Block { kind, x, y, w, h } = *block;
        let mut plane = lend::<G, _>("plane", &from.plane);
        let mut scratch = lend::<G, _>("scratch", scratch);
        let mut results = lend_results::<G>();
        let (at, to) = (plane.start(), scratch.start());
        let (buffer, place) = (results.buffer.start(), results.place.start());
        let (stride, len) = (results.stride.start(), results.len.start());
        #[rustfmt::skip]
        let number = unsafe {
            A::call(luma_w, luma_h, ss_hor, ss_ver, plane_no, at, plane.len(), plane_stride, kind, w, h, x, y, *mode,
                    to, scratch.len(), buffer, place, stride, len)
        };
        let harm = plane.kept().or(results.guards());
        Answer { results: results.numbers(), ..pixels(number, &scratch, harm) }
    }
}

impl<P: Px, A: archive::Row<P>, G: Ground> Answers<Row<P>> for Library<A, G> {
    const REFUSES: bool = true;
    const THERE: bool = A::THERE;

    fn answer(Row { from, row }: &Row<P>) -> Answer {
        let Reference { luma_w, luma_h, ss_hor, ss_ver, plane_no, plane_stride, .. } = *from;
        let mut plane = lend::<G, _>("plane", &from.plane);
        let mut results = lend_results::<G>();
        let (at, buffer, place) = (plane.start(), results.buffer.start(), results.place.start());
        let (stride, len) = (results.stride.start(), results.len.start());
        #[rustfmt::skip]
        let number = unsafe {
            A::call(luma_w, luma_h, ss_hor, ss_ver, plane_no, at, plane.len(), plane_stride, *row,
                    buffer, place, stride, len)
        };
        Answer { number, results: results.numbers(), buffers: vec![], harm: plane.kept().or(results.guards()) }
    }
}
