//! Writes the list that the program `replay` reads: made-up calls with the answers that are due, the original Rust's to
//! accepted ones and document 01's to refused ones. The library is never asked.
//!
//! The list: the count of its records; then each record, its length before it. A record: the function, the number that
//! is due, four buffers, numbers of eight bytes, and the values of the buffers. Everything else is two bytes wide; the
//! least byte comes first.
//!
//! - The function: 1 to 17 in the order of `every_entry!` for the byte set, 18 to 34 for the 16-bit set, then the three
//!   without a set, 35 to 37, then the scaled ones, 38 to 41 for the byte set, 42 to 45 for the 16-bit set. 0 is none.
//! - A buffer, in the interface's order (an unused one has length 0): its length; the count of the values it comes with, which
//!   repeat, and the place of the first in the record; then stride, row, rows and the place of the values that are left
//!   in the first `row` columns of the first `rows` rows. Other places are left as they came.
//! - Numbers: the parameters that aren't buffers, a record's entries too, in the interface's order; then the results, and
//!   what a record is left with.
//! - Values: one byte each for u8 and i8, two for u16 and i16.

mod scaled;

use std::collections::BTreeMap;
use std::fs;

use crate::amount::Amount;
use crate::answer::{Answer, Px, Room};
use crate::ask::{Answers, Original};
use crate::calls::Call;
use crate::calls::bilinear::{self, PrepBilin, PutBilin};
use crate::calls::combine::{Avg, Blend, Mask, Morph, Pair, WAvg, WMask};
use crate::calls::copy::{Prep, Put};
use crate::calls::edge::EmuEdge;
use crate::calls::search::{SadNxn, SadRefineMv};
use crate::calls::shear::{GetShearParams, ResolveDivisor32, SetAffineMv2d};
use crate::calls::subpel::{self, Prep8tap, Put8tap};
use crate::calls::warp::{self, WarpAffine, WarpAffineT};
use crate::compare::nth_call;
use crate::every_entry;
use crate::refuse::Refuse;
use crate::rules::Rules;
use crate::tally::shown;

/// The program's room for a buffer, in places.
const ROOM: usize = 40_000;
/// Most buffers are cut to so many values, which repeat. A prime, so that rows of most strides differ.
const PERIOD: usize = 47;
/// One call in so many is taken as it was made, the others with their buffers cut.
const WHOLE: u64 = 32;
/// The longest record, in bytes.
const LONGEST: usize = 9_000;
/// The longest of all but a few.
const LONGEST_CUT: usize = 700;
/// The longest of so many calls is taken.
const FEW: u64 = 300;

/// A buffer of a call: its values' low bits, how wide each is, and where an accepted call writes.
struct Part {
    values: Vec<u16>,
    wide: usize,
    /// Stride, row and rows of what is written; a buffer that is only read has none.
    grid: Option<[usize; 3]>,
}

/// A call as the list has it.
struct Listed {
    numbers: Vec<i64>,
    parts: Vec<Part>,
}

/// A call that can be recorded.
trait Recorded: Call + Refuse + Rules {
    /// Cuts the buffers whose contents may be anything.
    fn cut(&mut self);

    /// Its numbers and buffers.
    fn listed(&self) -> Listed;
}

/// Repeats the first values.
fn repeat<T: Copy>(room: &mut Room<T>) {
    for k in PERIOD..room.len() {
        room[k] = room[k - PERIOD];
    }
}

/// A buffer of pixels that is only read.
fn pixels<P: Px>(room: &Room<P>) -> Part {
    let values = room.iter().map(|v| v.wide() as u16).collect();
    Part { values, wide: size_of::<P>(), grid: None }
}

/// Intermediates that are only read.
fn mids(room: &Room<i16>) -> Part {
    Part { values: room.iter().map(|v| *v as u16).collect(), wide: 2, grid: None }
}

/// Filters.
fn taps(room: &Room<i8>) -> Part {
    Part { values: room.iter().map(|v| *v as u8 as u16).collect(), wide: 1, grid: None }
}

impl Part {
    /// The same buffer, written in so many rows.
    fn written(self, stride: usize, row: usize, rows: usize) -> Part {
        Part { grid: Some([stride, row, rows]), ..self }
    }

    /// How many values it comes with before they repeat.
    fn period(&self) -> usize {
        let repeats = |n: usize| (n..self.values.len()).all(|k| self.values[k] == self.values[k - n]);
        [1, PERIOD].into_iter().find(|n| *n <= self.values.len() && repeats(*n)).unwrap_or(self.values.len())
    }
}

/// The depth, which the 16-bit set alone is told, before other numbers.
fn with_depth<P: Px>(depth: i32, numbers: &[i64]) -> Vec<i64> {
    let depth = if P::TAKES_DEPTH { Some(depth as i64) } else { None };
    depth.into_iter().chain(numbers.iter().copied()).collect()
}

impl<P: Px> Recorded for Put<P> {
    fn cut(&mut self) {
        repeat(&mut self.dst);
        repeat(&mut self.src);
    }

    fn listed(&self) -> Listed {
        let Put { dst_stride, src_stride, w, h, .. } = *self;
        let numbers = [dst_stride, src_stride, w, h].map(|n| n as i64).to_vec();
        Listed { numbers, parts: vec![pixels(&self.dst).written(dst_stride, w, h), pixels(&self.src)] }
    }
}

impl<P: Px> Recorded for Prep<P> {
    fn cut(&mut self) {
        repeat(&mut self.tmp);
        repeat(&mut self.src);
    }

    fn listed(&self) -> Listed {
        let Prep { depth, tmp_stride, src_stride, w, h, .. } = *self;
        let numbers = with_depth::<P>(depth, &[tmp_stride, src_stride, w, h].map(|n| n as i64));
        Listed { numbers, parts: vec![mids(&self.tmp).written(tmp_stride, w, h), pixels(&self.src)] }
    }
}

/// Cuts the three buffers of a pair.
fn cut_pair<P: Px>(pair: &mut Pair<P>) {
    repeat(&mut pair.dst);
    repeat(&mut pair.tmp1);
    repeat(&mut pair.tmp2);
}

/// The numbers and buffers of a pair.
fn listed_pair<P: Px>(pair: &Pair<P>) -> Listed {
    let Pair { depth, dst_stride, w, h, .. } = *pair;
    let numbers = with_depth::<P>(depth, &[dst_stride, w, h].map(|n| n as i64));
    let dst = pixels(&pair.dst).written(dst_stride, w, h);
    Listed { numbers, parts: vec![dst, mids(&pair.tmp1), mids(&pair.tmp2)] }
}

impl Listed {
    /// The same with further numbers and buffers.
    fn and(mut self, numbers: &[i64], parts: Vec<Part>) -> Listed {
        self.numbers.extend(numbers);
        self.parts.extend(parts);
        self
    }
}

impl<P: Px> Recorded for Avg<P> {
    fn cut(&mut self) {
        cut_pair(&mut self.0);
    }

    fn listed(&self) -> Listed {
        listed_pair(&self.0)
    }
}

impl<P: Px> Recorded for WAvg<P> {
    fn cut(&mut self) {
        cut_pair(&mut self.pair);
    }

    fn listed(&self) -> Listed {
        listed_pair(&self.pair).and(&[self.weight as i64], vec![])
    }
}

impl<P: Px> Recorded for Mask<P> {
    fn cut(&mut self) {
        cut_pair(&mut self.pair);
        repeat(&mut self.mask);
    }

    fn listed(&self) -> Listed {
        listed_pair(&self.pair).and(&[], vec![pixels(&self.mask)])
    }
}

impl<P: Px> Recorded for Blend<P> {
    // The mask stays: its places decide number 7.
    fn cut(&mut self) {
        repeat(&mut self.dst);
        repeat(&mut self.tmp);
    }

    fn listed(&self) -> Listed {
        let Blend { dst_stride, w, h, .. } = *self;
        let numbers = [dst_stride, w, h].map(|n| n as i64).to_vec();
        let dst = pixels(&self.dst).written(dst_stride, w, h);
        Listed { numbers, parts: vec![dst, pixels(&self.tmp), pixels(&self.mask)] }
    }
}

impl<P: Px> Recorded for Morph<P> {
    fn cut(&mut self) {
        repeat(&mut self.dst);
    }

    fn listed(&self) -> Listed {
        let Morph { depth, dst_stride, alpha, beta, w, h, .. } = *self;
        let numbers = [dst_stride as i64, alpha as i64, beta as i64, w as i64, h as i64];
        let parts = vec![pixels(&self.dst).written(dst_stride, w, h)];
        Listed { numbers: with_depth::<P>(depth, &numbers), parts }
    }
}

impl<P: Px> Recorded for WMask<P> {
    fn cut(&mut self) {
        cut_pair(&mut self.pair);
        repeat(&mut self.mask);
    }

    fn listed(&self) -> Listed {
        let WMask { mask_stride, sign, ss_hor, ss_ver, .. } = *self;
        let (w, h) = (self.pair.w >> ss_hor as u32, self.pair.h >> ss_ver as u32);
        let numbers = [mask_stride as i64, sign as i64, ss_hor as i64, ss_ver as i64];
        listed_pair(&self.pair).and(&numbers, vec![pixels(&self.mask).written(mask_stride, w, h)])
    }
}

impl<P: Px> Recorded for EmuEdge<P> {
    fn cut(&mut self) {
        repeat(&mut self.dst);
        repeat(&mut self.plane);
    }

    fn listed(&self) -> Listed {
        let EmuEdge { bw, bh, iw, ih, x, y, dst_stride, plane_stride, .. } = *self;
        let [bw64, bh64, iw64, ih64, to, from] = [bw, bh, iw, ih, dst_stride, plane_stride].map(|n| n as i64);
        let parts = vec![pixels(&self.dst).written(dst_stride, bw, bh), pixels(&self.plane)];
        Listed { numbers: vec![bw64, bh64, iw64, ih64, x, y, to, from], parts }
    }
}

/// Cuts what an 8-tap kernel reads.
fn cut_subpel<P: Px>(from: &mut subpel::Source<P>) {
    repeat(&mut from.src);
    repeat(&mut from.subpel);
    repeat(&mut from.ext);
}

/// The numbers and buffers of an 8-tap call with this destination.
fn listed_subpel<P: Px>(to: Part, stride: usize, from: &subpel::Source<P>) -> Listed {
    let subpel::Source { depth, src_off, src_stride, w, h, mx, my, filter_type, .. } = *from;
    let sizes = [stride, src_off, src_stride, w, h].map(|n| n as i64);
    let numbers = [&sizes[..], &[mx, my, filter_type].map(i64::from)].concat();
    let parts = vec![to.written(stride, w, h), pixels(&from.src), taps(&from.subpel), taps(&from.ext)];
    Listed { numbers: with_depth::<P>(depth, &numbers), parts }
}

impl<P: Px> Recorded for Put8tap<P> {
    fn cut(&mut self) {
        repeat(&mut self.dst);
        cut_subpel(&mut self.from);
    }

    fn listed(&self) -> Listed {
        listed_subpel(pixels(&self.dst), self.dst_stride, &self.from)
    }
}

impl<P: Px> Recorded for Prep8tap<P> {
    fn cut(&mut self) {
        repeat(&mut self.tmp);
        cut_subpel(&mut self.from);
    }

    fn listed(&self) -> Listed {
        listed_subpel(mids(&self.tmp), self.tmp_stride, &self.from)
    }
}

/// The numbers and buffers of a bilinear call with this destination.
fn listed_bilin<P: Px>(to: Part, stride: usize, from: &bilinear::Source<P>) -> Listed {
    let bilinear::Source { depth, src_stride, w, h, mx, my, .. } = *from;
    let numbers = [&[stride, src_stride, w, h].map(|n| n as i64)[..], &[mx, my].map(i64::from)].concat();
    Listed { numbers: with_depth::<P>(depth, &numbers), parts: vec![to.written(stride, w, h), pixels(&from.src)] }
}

impl<P: Px> Recorded for PutBilin<P> {
    fn cut(&mut self) {
        repeat(&mut self.dst);
        repeat(&mut self.from.src);
    }

    fn listed(&self) -> Listed {
        listed_bilin(pixels(&self.dst), self.dst_stride, &self.from)
    }
}

impl<P: Px> Recorded for PrepBilin<P> {
    fn cut(&mut self) {
        repeat(&mut self.tmp);
        repeat(&mut self.from.src);
    }

    fn listed(&self) -> Listed {
        listed_bilin(mids(&self.tmp), self.tmp_stride, &self.from)
    }
}

impl<P: Px> Recorded for SadNxn<P> {
    fn cut(&mut self) {
        repeat(&mut self.p0);
        repeat(&mut self.p1);
    }

    fn listed(&self) -> Listed {
        let SadNxn { depth, p0_stride, p1_stride, w, h, .. } = *self;
        let numbers = with_depth::<P>(depth, &[p0_stride, p1_stride, w, h].map(|n| n as i64));
        Listed { numbers, parts: vec![pixels(&self.p0), pixels(&self.p1)] }
    }
}

impl<P: Px> Recorded for SadRefineMv<P> {
    // Both planes stay: what they have in common decides the search.
    fn cut(&mut self) {}

    fn listed(&self) -> Listed {
        self.planes.listed().and(&[self.is_implicit as i64], vec![])
    }
}

/// Cuts what a warp kernel reads.
fn cut_warp<P: Px>(from: &mut warp::Source<P>) {
    repeat(&mut from.src);
    repeat(&mut from.warp);
}

/// The numbers and buffers of a warp call with this destination.
fn listed_warp<P: Px>(to: Part, stride: usize, from: &warp::Source<P>) -> Listed {
    let warp::Source { depth, src_stride, src_off, abcd, mx, my, .. } = *from;
    let sizes = [stride, src_stride, src_off].map(|n| n as i64);
    let numbers = [&sizes[..], &abcd.map(i64::from), &[mx, my].map(i64::from)].concat();
    let parts = vec![to.written(stride, 8, 8), pixels(&from.src), taps(&from.warp)];
    Listed { numbers: with_depth::<P>(depth, &numbers), parts }
}

impl<P: Px> Recorded for WarpAffine<P> {
    fn cut(&mut self) {
        repeat(&mut self.dst);
        cut_warp(&mut self.from);
    }

    fn listed(&self) -> Listed {
        listed_warp(pixels(&self.dst), self.dst_stride, &self.from)
    }
}

impl<P: Px> Recorded for WarpAffineT<P> {
    fn cut(&mut self) {
        repeat(&mut self.tmp);
        cut_warp(&mut self.from);
    }

    fn listed(&self) -> Listed {
        listed_warp(mids(&self.tmp), self.tmp_stride, &self.from)
    }
}

// The reciprocals stay: single ones decide where sums wrap.
impl Recorded for ResolveDivisor32 {
    fn cut(&mut self) {}

    fn listed(&self) -> Listed {
        Listed { numbers: vec![self.d as i64], parts: vec![pixels(&self.recip)] }
    }
}

impl Recorded for GetShearParams {
    fn cut(&mut self) {}

    fn listed(&self) -> Listed {
        let numbers = self.record.buffers().iter().flat_map(|buffer| buffer.numbers()).collect();
        Listed { numbers, parts: vec![pixels(&self.recip)] }
    }
}

impl Recorded for SetAffineMv2d {
    fn cut(&mut self) {}

    fn listed(&self) -> Listed {
        let SetAffineMv2d { bw4, bh4, mv_x, mv_y, matrix, bx4, by4 } = *self;
        let numbers = [&[bw4, bh4, mv_x, mv_y][..], &matrix, &[bx4, by4]].concat();
        Listed { numbers: numbers.into_iter().map(i64::from).collect(), parts: vec![] }
    }
}

/// Puts a number's low two bytes.
fn put_half(record: &mut Vec<u8>, number: usize) {
    record.extend((number as u16).to_le_bytes());
}

/// What is left in the written rows of a buffer, which is as it came elsewhere.
fn left(part: &Part, [stride, row, rows]: [usize; 3], after: &[i64]) -> Vec<u16> {
    let inside = |k: usize| k % stride < row && k / stride < rows;
    let stays = |k: usize| inside(k) || part.values[k] == after[k] as u16;
    assert!((0..after.len()).all(stays), "written outside its rows");
    (0..after.len()).filter(|k| inside(*k)).map(|k| after[k] as u16).collect()
}

/// The record of a call and its answer, but for its function; none if a buffer is longer than its room.
fn record(listed: Listed, answer: &Answer) -> Option<Vec<u8>> {
    let Listed { mut numbers, parts } = listed;
    numbers.extend(&answer.results);
    let mut written = answer.buffers.iter().map(|buffer| buffer.numbers());
    let mut layouts = vec![];
    let mut values = vec![];
    let mut put = |list: &[u16], wide: usize| {
        let place = values.len();
        list.iter().for_each(|v| values.extend(&v.to_le_bytes()[..wide]));
        place
    };
    for part in &parts {
        let (length, period) = (part.values.len(), part.period());
        let came = put(&part.values[..period], part.wide);
        let after = part.grid.and_then(|grid| Some((grid, written.next()?)));
        let layout = match after {
            Some((grid, after)) if answer.number == 0 => {
                [length, period, came, grid[0], grid[1], grid[2], put(&left(part, grid, &after), part.wide)]
            }
            _ => [length, period, came, 0, 0, 0, 0],
        };
        if length > ROOM {
            return None;
        }
        layouts.push(layout);
    }
    // What is left belongs to a record that isn't lent as a buffer.
    numbers.extend(written.flatten());
    Some(bytes(answer.number, &layouts, &numbers, &values))
}

/// The bytes of a record after its function.
fn bytes(number: u32, layouts: &[[usize; 7]], numbers: &[i64], values: &[u8]) -> Vec<u8> {
    let first = 60 + 8 * numbers.len();
    let mut record = vec![];
    put_half(&mut record, number as usize);
    for k in 0..4 {
        let [length, period, came, stride, row, rows, left] = layouts.get(k).copied().unwrap_or_default();
        for half in [length, period, first + came, stride, row, rows, first + left] {
            put_half(&mut record, half);
        }
    }
    numbers.iter().for_each(|n| record.extend(n.to_le_bytes()));
    record.extend(values);
    record
}

/// The records of one entry at one depth, and how often each number is due and each rare thing happens.
struct Records {
    name: &'static str,
    depth: Option<i32>,
    records: Vec<Vec<u8>>,
    numbers: BTreeMap<u32, u64>,
    rare: BTreeMap<&'static str, u64>,
}

/// A record, its number and its rare things.
struct Made {
    record: Vec<u8>,
    number: u32,
    rare: Vec<&'static str>,
}

/// Makes up a call, whole or with its buffers cut, and records it, unless the record is too long.
fn made<C: Recorded, S: Answers<C>>(
    depth: Option<i32>,
    seed: u64,
    index: u64,
    whole: bool,
    longest: usize,
) -> Option<Made> {
    let mut call: C = nth_call(depth, seed, index);
    if !whole {
        call.cut();
    }
    let number = call.number();
    let answer = if number == 0 { S::answer(&call) } else { call.refused(number) };
    let rare = if number == 0 { call.rare() } else { vec![] };
    let record = record(call.listed(), &answer)?;
    (record.len() <= longest).then_some(Made { record, number, rare })
}

impl Records {
    /// Is one more call wanted, of this number?
    fn wants(&self, calls: u64, number: u32) -> bool {
        (self.records.len() as u64) < calls || !self.numbers.contains_key(&number)
    }

    /// Takes a record in.
    fn take(&mut self, made: Made) {
        self.records.push(made.record);
        *self.numbers.entry(made.number).or_default() += 1;
        made.rare.iter().for_each(|name| *self.rare.entry(name).or_default() += 1);
    }
}

/// Records calls of one entry at one depth: the longest of a few, so that there is a great block; then, of those made up,
/// each that isn't too long, until there are so many; then calls of the numbers that were not due yet.
fn record_entry<C: Recorded, S: Answers<C>>(depth: Option<i32>, amount: Amount) -> Records {
    let (records, numbers, rare) = (vec![], BTreeMap::new(), BTreeMap::new());
    let mut all = Records { name: C::NAME, depth, records, numbers, rare };
    let few = (0..FEW).filter_map(|index| made::<C, S>(depth, amount.seed, index, false, LONGEST));
    few.max_by_key(|made| made.record.len()).into_iter().for_each(|made| all.take(made));
    let mut index = FEW;
    while C::NUMBERS.iter().any(|number| all.wants(amount.calls, *number)) {
        let whole = index % WHOLE == 0;
        let longest = if whole { LONGEST } else { LONGEST_CUT };
        let made = made::<C, S>(depth, amount.seed, index, whole, longest);
        made.filter(|made| all.wants(amount.calls, made.number)).into_iter().for_each(|made| all.take(made));
        index += 1;
    }
    all
}

/// The function's number in the list, of the entry that comes after so many sets and depths.
fn function(after: usize) -> u16 {
    // Each entry that has sets comes at depth 8, 10 and 12.
    let of_set = |first: usize, words: usize, after: usize| match after % 3 {
        0 => first + after / 3,
        _ => words + after / 3,
    };
    let number = match after {
        0..51 => of_set(1, 18, after),
        51..54 => after - 16,
        _ => of_set(38, 42, after - 54),
    };
    number as u16
}

/// Writes the list of so many calls of each entry and depth, and says whether it could.
pub fn write(amount: Amount, file: &str) -> bool {
    let mut list = vec![];
    let (mut after, mut count) = (0, 0);
    let mut each = |all: Records| {
        println!("{:<18} {:>5}  {:?} {:?}", all.name, shown(all.depth), all.numbers, all.rare);
        count += all.records.len();
        for record in all.records {
            put_half(&mut list, 2 + record.len());
            list.extend(function(after).to_le_bytes());
            list.extend(record);
        }
        after += 1;
    };
    every_entry!(kernels record_entry of Original, amount, each);
    let Ok(records) = u16::try_from(count) else {
        return false;
    };
    let whole = [&records.to_le_bytes()[..], &list].concat();
    println!("{count} calls, {} bytes", whole.len());
    fs::write(file, whole).is_ok()
}
