//! put_8tap and prep_8tap.

use super::copy::prepared;
use super::{Rules, bits, clip, half, low16, minus_bias, round, write_block};
use crate::answer::{Answer, Buffer, Px};
use crate::calls::subpel::{Prep8tap, Put8tap, Source};

/// Eight taps, standing at -3 to +4.
pub type Filter = [i64; 8];

/// The two filters of a call, none where a fraction is 0, and N.
struct Filters {
    across: Option<Filter>,
    down: Option<Filter>,
    n: u32,
}

/// The filter for a fraction in a family of a table; none for fraction 0.
fn family_filter(table: &[i8], family: usize, fraction: i32) -> Option<Filter> {
    let number = (fraction as usize).checked_sub(1)?;
    let first = 8 * (15 * family + number);
    Some(std::array::from_fn(|tap| table[first + tap] as i64))
}

/// The subpel filter of a type, 0 to 2, for a fraction on an axis whose side is this long.
pub fn subpel_filter(subpel: &[i8], filter_type: i32, fraction: i32, side: usize) -> Option<Filter> {
    let family = if side > 4 { filter_type } else { 3 + (filter_type & 1) };
    family_filter(subpel, family as usize, fraction)
}

/// The filter for a fraction on an axis whose side is this long.
fn filter<P: Px>(from: &Source<P>, fraction: i32, side: usize) -> Option<Filter> {
    match from.filter_type {
        -1 => family_filter(&from.ext, 0, fraction),
        filter_type => subpel_filter(&from.subpel, filter_type, fraction, side),
    }
}

/// Both filters of a call: width chooses the one across, height the one down.
fn filters<P: Px>(from: &Source<P>) -> Filters {
    Filters {
        across: filter(from, from.mx, from.w),
        down: filter(from, from.my, from.h),
        n: if from.filter_type == -1 { 7 } else { 6 },
    }
}

/// The source's pixel at a column and row of the block, either of them below 0 or past its end too.
fn pixel<P: Px>(from: &Source<P>, x: i64, y: i64) -> i64 {
    let place = from.src_off as i64 + y * from.src_stride as i64 + x;
    from.src[place as usize].wide()
}

/// S: the filter's sum of what stands at its taps.
pub fn sum(filter: &Filter, at: impl Fn(i64) -> i64) -> i64 {
    (0..8).map(|tap| filter[tap] * at(tap as i64 - 3)).sum()
}

/// The second pass's S at a place: rows of low16((S + 2^(N-B-1)) >> (N-B)) under the filter down.
fn two_passes<P: Px>(from: &Source<P>, across: &Filter, down: &Filter, shift: u32, x: i64, y: i64) -> i64 {
    sum(down, |row| {
        let first = sum(across, |column| pixel(from, x + column, y + row));
        low16(round(first, shift))
    })
}

/// put's pixel at a place.
fn put<P: Px>(from: &Source<P>, filters: &Filters, x: i64, y: i64) -> P {
    let (n, b) = (filters.n, bits(from.depth));
    match (&filters.across, &filters.down) {
        (None, None) => P::low(pixel(from, x, y)),
        (Some(across), None) => {
            let s = sum(across, |column| pixel(from, x + column, y));
            clip(from.depth, (s + half(n) + half(n - b)) >> n)
        }
        (None, Some(down)) => clip(from.depth, round(sum(down, |row| pixel(from, x, y + row)), n)),
        (Some(across), Some(down)) => clip(from.depth, round(two_passes(from, across, down, n - b, x, y), n + b)),
    }
}

/// prep's intermediate at a place.
fn prep<P: Px>(from: &Source<P>, filters: &Filters, x: i64, y: i64) -> i16 {
    let (n, b) = (filters.n, bits(from.depth));
    let value = match (&filters.across, &filters.down) {
        (None, None) => return prepared(from.depth, pixel(from, x, y)),
        (Some(across), None) => round(sum(across, |column| pixel(from, x + column, y)), n - b),
        (None, Some(down)) => round(sum(down, |row| pixel(from, x, y + row)), n - b),
        (Some(across), Some(down)) => round(two_passes(from, across, down, n - b, x, y), n),
    };
    minus_bias(from.depth, low16(value))
}

impl<P: Px> Rules for Put8tap<P> {
    fn rule(&self) -> Answer {
        let (from, mut dst) = (&self.from, self.dst.clone());
        let filters = filters(from);
        write_block(&mut dst, self.dst_stride, from.w, from.h, |x, y| put(from, &filters, x as i64, y as i64));
        Answer::done(vec![], vec![P::buffer(dst)])
    }
}

impl<P: Px> Rules for Prep8tap<P> {
    fn rule(&self) -> Answer {
        let (from, mut tmp) = (&self.from, self.tmp.clone());
        let filters = filters(from);
        write_block(&mut tmp, self.tmp_stride, from.w, from.h, |x, y| prep(from, &filters, x as i64, y as i64));
        Answer::done(vec![], vec![Buffer::Shorts(tmp)])
    }
}
