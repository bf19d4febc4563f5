//! Scaled calls: the places that count as read are those that the Rust fetches, made-up calls tell wrong tests of them and
//! wrong pixels from right ones, and at step 1024 the kernels are the base ones.

use std::panic::{AssertUnwindSafe, catch_unwind};

use oracle::amount::Amount;
use oracle::answer::{Answer, Px, Room};
use oracle::ask::{Answers, Original};
use oracle::calls::Call;
use oracle::calls::bilinear::{self, PrepBilin, PutBilin};
use oracle::calls::scaled::{
    EIGHT, Fetched, Filters, Prep8tapScaled, PrepBilinScaled, Put8tapScaled, PutBilinScaled, Source, TWO,
};
use oracle::calls::subpel::{self, Prep8tap, Put8tap};
use oracle::compare::{expected, nth_call, one_entry};
use oracle::refuse::Refuse;
use oracle::rules::Rules;
use oracle::tables::real_subpel;

const AMOUNT: Amount = Amount { calls: 3000, seed: 9 };

/// A source of one row of these numbers.
fn row(w: usize, mx: i32, dx: i32) -> Source<u8> {
    Source { depth: 8, src: Room(vec![]), src_off: 0, src_stride: 64, w, h: 1, mx, my: 0, dx, dy: 1024 }
}

#[test]
fn first_and_last_columns_are_those_of_any_pixel() {
    assert_eq!(row(2, 960, 64).fetched(&EIGHT).columns, [-3, 4]);
    assert_eq!(row(2, 0, 1088).fetched(&EIGHT).columns, [-2, 5]);
    assert_eq!(row(3, 0, 1024).fetched(&EIGHT).columns, [0, 2]);
    assert_eq!(row(3, 0, 1024).fetched(&TWO).columns, [0, 3]);
    assert_eq!(row(64, 1023, 4096).fetched(&EIGHT).columns, [-3, 63 * 4 + 4]);
}

#[test]
fn rows_are_fetched_whatever_the_fractions_are() {
    let Fetched { rows, .. } = row(1, 0, 0).fetched(&EIGHT);
    assert_eq!(rows, [-3, 4]);
    let down = Source { h: 64, my: 1023, dy: 4096, ..row(1, 0, 0) };
    assert_eq!(down.fetched(&EIGHT).rows, [-3, 63 * 4 + 4]);
    assert_eq!(down.fetched(&TWO).rows, [0, 63 * 4 + 1]);
}

/// Does the original answer a call, and not panic?
fn answers<C>(call: &C) -> bool
where
    Original: Answers<C>,
{
    catch_unwind(AssertUnwindSafe(|| Original::answer(call))).is_ok()
}

/// The same source, which begins at its first place that is fetched and ends after its last.
fn tight<P: Px>(mut from: Source<P>, Fetched { columns, rows }: Fetched) -> Source<P> {
    let place = |end: usize| rows[end] * from.src_stride as i64 + columns[end];
    let (before, after) = (-place(0) as usize, place(1) as usize + 1);
    from.src = Room(from.src[from.src_off - before..from.src_off + after].to_vec());
    from.src_off = before;
    from
}

/// The same source without its last place, then without its first.
fn shorter<P: Px>(from: &Source<P>) -> [Source<P>; 2] {
    let (mut last, mut first) = (from.clone(), from.clone());
    last.src.pop();
    first.src.remove(0);
    first.src_off = first.src_off.wrapping_sub(1);
    [last, first]
}

#[test]
fn bilinear_needs_what_the_rust_fetches() {
    let calls = (0..AMOUNT.calls).map(|index| nth_call::<PutBilinScaled<u8>>(Some(8), AMOUNT.seed, index));
    for call in calls.filter(|call| call.number() == 0) {
        let fetched = call.from.fetched(&TWO);
        let call = PutBilinScaled { from: tight(call.from, fetched), ..call };
        assert!(call.number() == 0 && answers(&call), "{call:?}");
        for from in shorter(&call.from) {
            let call = PutBilinScaled { from, ..call.clone() };
            assert!(call.number() == 5 && !answers(&call), "{call:?}");
        }
    }
}

#[test]
fn whole_columns_of_8tap_need_what_the_rust_fetches() {
    let calls = (0..AMOUNT.calls).map(|index| nth_call::<Put8tapScaled<u8>>(Some(8), AMOUNT.seed, index));
    for mut call in calls.filter(|call| call.number() == 0) {
        // The Rust clamps the index of a tap, so only a call without a fraction across shows where it looks.
        (call.from.mx, call.from.dx) = (call.from.mx % 64, 0);
        call.from = tight(call.from.clone(), call.from.fetched(&EIGHT));
        assert!(call.number() == 0 && answers(&call), "{call:?}");
        for from in shorter(&call.from) {
            let call = Put8tapScaled { from, ..call.clone() };
            assert!(call.number() == 5 && !answers(&call), "{call:?}");
        }
    }
}

/// Somebody who is right but for one thing.
trait Slip {
    /// Changes a call's numbers before it is answered.
    fn slip<P: Px>(from: &mut Source<P>);
}

/// Answers with a slip.
struct Slips<S>(std::marker::PhantomData<S>);

impl<P: Px, S: Slip> Answers<Put8tapScaled<P>> for Slips<S> {
    const REFUSES: bool = true;

    fn answer(call: &Put8tapScaled<P>) -> Answer {
        let mut other = call.clone();
        S::slip(&mut other.from);
        expected(&other)
    }
}

/// A slip by its name and what it does.
macro_rules! slip {
    ($name:ident: |$from:ident| $wrong:expr) => {
        struct $name;

        impl Slip for $name {
            fn slip<P: Px>($from: &mut Source<P>) {
                $wrong
            }
        }
    };
}

slip! { Nothing: |_from| () }
slip! { StartIgnored: |from| from.mx &= !63 }
slip! { LastBitOfStep: |from| from.dx ^= (from.dx < 4096) as i32 }
slip! { FractionDown: |from| from.my ^= 64 * (from.my < 1024) as i32 }
slip! { PlaceAfterIsThere: |from| from.src.push(P::low(0)) }
slip! { PlaceBeforeIsThere: |from| if let Some(off) = from.src_off.checked_add(1) {
    from.src.insert(0, P::low(0));
    from.src_off = off;
} }

/// How many of the calls differ, and how many were accepted.
fn differ<P: Px, S: Slip>(depth: i32) -> (u64, u64)
where
    Put8tapScaled<P>: Call + Refuse + Rules,
{
    let tally = one_entry::<Put8tapScaled<P>, Slips<S>>(Some(depth), AMOUNT);
    (tally.differences, tally.accepted())
}

#[test]
fn slips_are_caught() {
    assert_eq!(differ::<u16, Nothing>(12).0, 0);
    for (name, (differences, accepted)) in [
        ("start", differ::<u8, StartIgnored>(8)),
        ("step", differ::<u16, LastBitOfStep>(10)),
        ("fraction", differ::<u16, FractionDown>(12)),
    ] {
        assert!(differences > accepted / 20, "{name}: {differences} of {accepted}");
    }
}

#[test]
fn a_place_too_few_is_caught_at_either_end() {
    assert!(differ::<u8, PlaceAfterIsThere>(8).0 > 10);
    assert!(differ::<u16, PlaceBeforeIsThere>(10).0 > 10);
}

/// Would a call be accepted if the sum of its offset and its last place wrapped in 64 bits?
fn accepted_by_wrapping(call: &Put8tapScaled<u8>) -> bool {
    let Fetched { columns, rows } = call.from.fetched(&EIGHT);
    let last = (rows[1] * call.from.src_stride as i64 + columns[1]) as usize;
    call.number() == 5 && call.from.src_off.checked_add(last).is_none() && {
        let end = call.from.src_off.wrapping_add(last);
        end < call.from.src.len()
    }
}

#[test]
fn offsets_near_the_top_are_made() {
    let calls = (0..AMOUNT.calls).map(|index| nth_call::<Put8tapScaled<u8>>(Some(8), AMOUNT.seed, index));
    assert!(calls.filter(accepted_by_wrapping).count() > 5);
}

/// What a base 8-tap kernel reads, as a scaled one has it at step 1024: a start of 64 to 127 is the fraction 1, and so on.
fn at_step_1024(from: &subpel::Source<u16>) -> Source<u16> {
    let subpel::Source { depth, src_off, src_stride, w, h, mx, my, .. } = *from;
    // Rows, and columns that have no fraction, are fetched though the base kernel doesn't need them.
    let (before, after) = (vec![0; 3 * src_stride + 3], vec![0; 4 * src_stride + 4]);
    let (src, src_off) = (Room([&before, &from.src[..], &after].concat()), src_off + before.len());
    Source { depth, src, src_off, src_stride, w, h, mx: 64 * mx + 63, my: 64 * my, dx: 1024, dy: 1024 }
}

#[test]
fn step_1024_is_the_base_8tap_within_the_depth() {
    for index in 0..AMOUNT.calls {
        let mut base: Put8tap<u16> = nth_call(Some(10), AMOUNT.seed, index);
        base.from.subpel = real_subpel();
        base.from.src.iter_mut().for_each(|pixel| *pixel &= 1023);
        if base.number() != 0 || base.from.filter_type == -1 {
            continue;
        }
        let Put8tap { dst, dst_stride, from } = base.clone();
        let (scaled, by) = (at_step_1024(&from), Filters { filter_type: from.filter_type, subpel: real_subpel() });
        let put = Put8tapScaled { dst, dst_stride, from: scaled.clone(), by: by.clone() };
        assert_eq!(put.rule(), base.rule(), "{put:?}");
        let (tmp, tmp_stride) = (Room(vec![0; base.dst.len()]), dst_stride);
        let prep = Prep8tapScaled { tmp: tmp.clone(), tmp_stride, from: scaled, by };
        assert_eq!(prep.rule(), Prep8tap { tmp, tmp_stride, from }.rule(), "{prep:?}");
    }
}

#[test]
fn step_1024_is_the_base_bilinear_within_the_depth() {
    for index in 0..AMOUNT.calls {
        let mut base: PutBilin<u16> = nth_call(Some(12), AMOUNT.seed, index);
        base.from.src.iter_mut().for_each(|pixel| *pixel &= 4095);
        if base.number() != 0 {
            continue;
        }
        let PutBilin { dst, dst_stride, from } = base.clone();
        let bilinear::Source { depth, src_stride, w, h, mx, my, .. } = from;
        let src = Room([&from.src[..], &vec![0; src_stride + 1]].concat());
        let (mx, my) = (64 * mx, 64 * my + 63);
        let scaled = Source { depth, src, src_off: 0, src_stride, w, h, mx, my, dx: 1024, dy: 1024 };
        let put = PutBilinScaled { dst, dst_stride, from: scaled.clone() };
        assert_eq!(put.rule(), base.rule(), "{put:?}");
        let (tmp, tmp_stride) = (Room(vec![0; base.dst.len()]), dst_stride);
        let prep = PrepBilinScaled { tmp: tmp.clone(), tmp_stride, from: scaled };
        assert_eq!(prep.rule(), PrepBilin { tmp, tmp_stride, from }.rule(), "{prep:?}");
    }
}
