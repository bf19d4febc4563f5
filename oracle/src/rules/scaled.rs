//! The four scaled kernels: each row and column is looked up directly, by its position in the source.

use super::bilinear::between;
use super::subpel::{subpel_filter, sum};
use super::{Rules, bits, clip, low16, minus_bias, round, write_block};
use crate::answer::{Answer, Buffer, Px};
use crate::calls::scaled::{
    EIGHT, Filters, Prep8tapScaled, PrepBilinScaled, Put8tapScaled, PutBilinScaled, Source, at,
};

/// What the second pass has at a place before it is rounded, and how many bits above an intermediate that is.
struct Summed {
    sum: i64,
    bits: u32,
}

impl Summed {
    /// put's pixel.
    fn pixel<P: Px>(self, depth: i32) -> P {
        clip(depth, round(self.sum, self.bits + bits(depth)))
    }

    /// prep's intermediate.
    fn intermediate(self, depth: i32) -> i16 {
        minus_bias(depth, low16(round(self.sum, self.bits)))
    }
}

/// The source's pixel at a column and row, counted from the block's first.
fn pixel<P: Px>(from: &Source<P>, column: i64, row: i64) -> i64 {
    let place = from.src_off as i64 + row * from.src_stride as i64 + column;
    from.src[place as usize].wide()
}

/// What 8-tap makes of a row of the source for the block's column x: low16((S + 2^(N-B-1)) >> (N-B)), N being 6; where
/// the column has no fraction, low16(s << B).
fn filtered<P: Px>(from: &Source<P>, by: &Filters, x: usize, row: i64) -> i64 {
    let (column, sixteenths) = at(from.mx, from.dx, x);
    let b = bits(from.depth);
    let value = match subpel_filter(&by.subpel, by.filter_type, sixteenths, from.w) {
        Some(across) => round(sum(&across, |tap| pixel(from, column + tap, row)), 6 - b),
        None => pixel(from, column, row) << b,
    };
    low16(value)
}

/// 8-tap's second pass at a place: eight rows under the filter down, or one where the row has no fraction.
fn by_8tap<P: Px>(from: &Source<P>, by: &Filters, x: usize, y: usize) -> Summed {
    let (row, sixteenths) = at(from.my, from.dy, y);
    match subpel_filter(&by.subpel, by.filter_type, sixteenths, from.h) {
        Some(down) => Summed { sum: sum(&down, |tap| filtered(from, by, x, row + tap)), bits: 6 },
        None => Summed { sum: filtered(from, by, x, row), bits: 0 },
    }
}

/// What bilinear makes of a row of the source for the block's column x: R(4-B), kept as low16.
fn across<P: Px>(from: &Source<P>, x: usize, row: i64) -> i64 {
    let (column, sixteenths) = at(from.mx, from.dx, x);
    let pair = between(pixel(from, column, row), pixel(from, column + 1, row), sixteenths);
    low16(round(pair, 4 - bits(from.depth)))
}

/// Bilinear's second pass at a place: between a row and the next.
fn by_bilin<P: Px>(from: &Source<P>, x: usize, y: usize) -> Summed {
    let (row, sixteenths) = at(from.my, from.dy, y);
    Summed { sum: between(across(from, x, row), across(from, x, row + 1), sixteenths), bits: 4 }
}

/// Blocks whose first or last fetched column isn't that of their first or last pixel.
fn ends_inside<P: Px>(from: &Source<P>) -> Vec<&'static str> {
    let [first, last] = from.fetched(&EIGHT).columns;
    let begins = from.columns_of(&EIGHT, 0)[0] != first;
    let ends = from.columns_of(&EIGHT, from.w - 1)[1] != last;
    let named =
        [(begins, "first column fetched for a later pixel"), (ends, "last column fetched for an earlier pixel")];
    named.into_iter().filter(|(is, _)| *is).map(|(_, name)| name).collect()
}

impl<P: Px> Rules for Put8tapScaled<P> {
    fn rule(&self) -> Answer {
        let (from, mut dst) = (&self.from, self.dst.clone());
        write_block(&mut dst, self.dst_stride, from.w, from.h, |x, y| by_8tap(from, &self.by, x, y).pixel(from.depth));
        Answer::done(vec![], vec![P::buffer(dst)])
    }

    fn rare(&self) -> Vec<&'static str> {
        ends_inside(&self.from)
    }
}

impl<P: Px> Rules for Prep8tapScaled<P> {
    fn rule(&self) -> Answer {
        let (from, mut tmp) = (&self.from, self.tmp.clone());
        let intermediate = |x, y| by_8tap(from, &self.by, x, y).intermediate(from.depth);
        write_block(&mut tmp, self.tmp_stride, from.w, from.h, intermediate);
        Answer::done(vec![], vec![Buffer::Shorts(tmp)])
    }

    fn rare(&self) -> Vec<&'static str> {
        ends_inside(&self.from)
    }
}

impl<P: Px> Rules for PutBilinScaled<P> {
    fn rule(&self) -> Answer {
        let (from, mut dst) = (&self.from, self.dst.clone());
        write_block(&mut dst, self.dst_stride, from.w, from.h, |x, y| by_bilin(from, x, y).pixel(from.depth));
        Answer::done(vec![], vec![P::buffer(dst)])
    }
}

impl<P: Px> Rules for PrepBilinScaled<P> {
    fn rule(&self) -> Answer {
        let (from, mut tmp) = (&self.from, self.tmp.clone());
        write_block(&mut tmp, self.tmp_stride, from.w, from.h, |x, y| by_bilin(from, x, y).intermediate(from.depth));
        Answer::done(vec![], vec![Buffer::Shorts(tmp)])
    }
}
