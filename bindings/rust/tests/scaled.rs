//! Scaled predictions against a plain rule, which looks up each row and column by its position; and their refusals.

mod common;

use common::{Tested, refusal};
use hemavolups::*;

/// A source of 40 rows of 40 pixels, and the place of the block's first.
const STRIDE: usize = 40;
const FIRST: usize = 3 * STRIDE + 3;

/// The pixels of the source, below 2^depth, no row and no column like another.
fn source(depth: i32) -> Vec<i64> {
    (0..40 * STRIDE as i64).map(|place| (place * place * 31 + place * 7) % (1 << depth)).collect()
}

/// A subpel table in which no filter is like another; a filter's taps have the sum 64.
fn subpel() -> Vec<i8> {
    let filter =
        |number: i8| [0, 1, -(number % 5), 50 - number % 31, number % 7, number % 31 - number % 7, number % 5, 13];
    (0..75).flat_map(filter).collect()
}

/// The cases: block's sides, motion and type. The second has no fraction anywhere, the last steps of 0.
const CASES: [(usize, usize, ScaledMotion, i32); 5] = [
    (7, 5, ScaledMotion { mx: 130, my: 1023, dx: 1536, dy: 2048 }, 0),
    (6, 6, ScaledMotion { mx: 63, my: 0, dx: 2048, dy: 3072 }, 2),
    (4, 9, ScaledMotion { mx: 1023, my: 64, dx: 4096, dy: 700 }, 2),
    (17, 3, ScaledMotion { mx: 0, my: 500, dx: 1088, dy: 4096 }, 1),
    (8, 2, ScaledMotion { mx: 600, my: 300, dx: 0, dy: 0 }, 1),
];

/// B of a depth.
fn bits(depth: i32) -> u32 {
    if depth == 12 { 2 } else { 4 }
}

/// Adds half of 2^n and shifts by n.
fn round(value: i64, n: u32) -> i64 {
    (value + (1 << n) / 2) >> n
}

/// The whole pixel and the sixteenths of the n-th position.
fn at(start: i32, step: i32, n: usize) -> (usize, usize) {
    let position = start as usize + n * step as usize;
    (position / 1024, position % 1024 / 64)
}

/// Eight numbers, the first of them three `apart` before this place, under the filter of a type for a side.
fn filtered(numbers: &[i64], place: usize, apart: usize, side: usize, filter_type: i32, sixteenths: usize) -> i64 {
    let family = if side > 4 { filter_type } else { 3 + filter_type % 2 } as usize;
    let filter = &subpel()[8 * (15 * family + sixteenths - 1)..][..8];
    (0..8).map(|tap| filter[tap] as i64 * numbers[place + tap * apart - 3 * apart]).sum()
}

/// The rows of the source from three before the block on, made across for each column of the block, as 8-tap makes them.
fn across(depth: i32, w: usize, motion: ScaledMotion, filter_type: i32) -> Vec<i64> {
    let (src, b) = (source(depth), bits(depth));
    let mid = |row: usize, x: usize| match at(motion.mx, motion.dx, x) {
        (column, 0) => src[row * STRIDE + 3 + column] << b,
        (column, f) => round(filtered(&src, row * STRIDE + 3 + column, 1, w, filter_type, f), 6 - b),
    };
    (0..40).flat_map(|row| (0..w).map(move |x| (row, x))).map(|(row, x)| mid(row, x)).collect()
}

/// What a block has before its last rounding, each number with the bits that are left to round; by 8 taps.
fn by_8tap(depth: i32, (w, h, motion, filter_type): (usize, usize, ScaledMotion, i32)) -> Vec<(i64, u32)> {
    let mids = across(depth, w, motion, filter_type);
    let down = |x: usize, y: usize| match at(motion.my, motion.dy, y) {
        (row, 0) => (mids[(row + 3) * w + x], 0),
        (row, f) => (filtered(&mids, (row + 3) * w + x, w, h, filter_type, f), 6),
    };
    (0..h).flat_map(|y| (0..w).map(move |x| (x, y))).map(|(x, y)| down(x, y)).collect()
}

/// The same, bilinear.
fn by_bilin(depth: i32, (w, h, motion, _): (usize, usize, ScaledMotion, i32)) -> Vec<(i64, u32)> {
    let src = source(depth);
    let between = |a: i64, b: i64, f: usize| (16 - f as i64) * a + f as i64 * b;
    let mid = |row: usize, x: usize| {
        let (column, f) = at(motion.mx, motion.dx, x);
        let place = FIRST + row * STRIDE + column;
        round(between(src[place], src[place + 1], f), 4 - bits(depth))
    };
    let down = |x: usize, y: usize| {
        let (row, f) = at(motion.my, motion.dy, y);
        (between(mid(row, x), mid(row + 1, x), f), 4)
    };
    (0..h).flat_map(|y| (0..w).map(move |x| (x, y))).map(|(x, y)| down(x, y)).collect()
}

/// The pixels that a block's numbers give.
fn pixels(depth: i32, numbers: &[(i64, u32)]) -> Vec<i64> {
    let last = (1 << depth) - 1;
    numbers.iter().map(|(number, n)| round(*number, n + bits(depth)).clamp(0, last)).collect()
}

/// The intermediates that they give.
fn intermediates(depth: i32, numbers: &[(i64, u32)]) -> Vec<i64> {
    let bias = if depth == 8 { 0 } else { 8192 };
    numbers.iter().map(|(number, n)| round(*number, *n) - bias).collect()
}

/// Numbers as wide ones.
fn wide<T: Copy + Into<i64>>(numbers: &[T]) -> Vec<i64> {
    numbers.iter().map(|number| (*number).into()).collect()
}

/// Holds the four functions to the plain rule, in every case.
fn as_the_rule<P: Tested + TryFrom<i64> + Into<i64>>(depth: P::Depth) {
    let bits: i32 = depth.into();
    let src: Vec<P> = source(bits).into_iter().map(|pixel| P::try_from(pixel).ok().expect("a pixel")).collect();
    for case in CASES {
        let (w, h, motion, filter_type) = case;
        let (mut dst, mut tmp) = (vec![P::from(9); w * h], vec![9; w * h]);
        put_8tap_scaled(depth, &mut dst, w, &src, FIRST, STRIDE, w, h, motion, filter_type, &subpel()).unwrap();
        prep_8tap_scaled(depth, &mut tmp, w, &src, FIRST, STRIDE, w, h, motion, filter_type, &subpel()).unwrap();
        let due = by_8tap(bits, case);
        assert_eq!((wide(&dst), wide(&tmp)), (pixels(bits, &due), intermediates(bits, &due)), "{case:?}");
        put_bilin_scaled(depth, &mut dst, w, &src, FIRST, STRIDE, w, h, motion).unwrap();
        prep_bilin_scaled(depth, &mut tmp, w, &src, FIRST, STRIDE, w, h, motion).unwrap();
        let due = by_bilin(bits, case);
        assert_eq!((wide(&dst), wide(&tmp)), (pixels(bits, &due), intermediates(bits, &due)), "{case:?}");
    }
}

#[test]
fn scaled_blocks_are_as_the_rule_says() {
    as_the_rule::<u8>(Eight);
    as_the_rule::<u16>(Depth::Ten);
    as_the_rule::<u16>(Depth::Twelve);
}

#[test]
fn without_a_fraction_it_is_no_copy() {
    let still = ScaledMotion { mx: 0, my: 0, dx: 1024, dy: 1024 };
    let mut dst = [0u16; 2];
    // 1024 is clipped; 2048 x 16 is cut to -32768.
    put_8tap_scaled(Depth::Ten, &mut dst, 2, &[1024, 2048].repeat(8), 6, 2, 2, 1, still, 0, &[0; 600]).unwrap();
    assert_eq!(dst, [1023, 0]);
}

/// Each number, for a block of 2 x 2 that fetches exactly what it is lent.
fn refusals<P: Tested>(depth: P::Depth) {
    // Rows -3 to 6 are fetched, and of each the columns 0 and 2.
    let src = vec![P::from(5); 9 * 8 + 3];
    let double = ScaledMotion { mx: 0, my: 0, dx: 2048, dy: 2048 };
    let table = [0; 600];
    let put = |dst: &mut [P], stride, src: &[P], off, w, motion, kind, subpel: &[i8]| {
        put_8tap_scaled(depth, dst, stride, src, off, 8, w, 2, motion, kind, subpel)
    };
    let dst = || vec![P::from(7); 65 * 2];
    assert_eq!(put(&mut dst(), 2, &src, 24, 2, double, 0, &table), Ok(()));
    assert_eq!(refusal(&mut dst(), |dst| put(dst, 65, &src, 24, 65, double, 0, &table)), Refusal::Size);
    assert_eq!(refusal(&mut dst(), |dst| put(dst, 1, &src, 24, 2, double, 0, &table)), Refusal::Stride);
    for wrong in [-1, 3] {
        assert_eq!(refusal(&mut dst(), |dst| put(dst, 2, &src, 24, 2, double, wrong, &table)), Refusal::Number);
    }
    for wrong in
        [ScaledMotion { mx: 1024, ..double }, ScaledMotion { my: -1, ..double }, ScaledMotion { dy: 4097, ..double }]
    {
        assert_eq!(refusal(&mut dst(), |dst| put(dst, 2, &src, 24, 2, wrong, 0, &table)), Refusal::Number);
    }
    assert_eq!(refusal(&mut dst(), |dst| put(dst, 2, &src, 24, 2, double, 0, &[0; 720])), Refusal::Table);
    assert_eq!(refusal(&mut dst(), |dst| put(dst, 2, &src[1..], 24, 2, double, 0, &table)), Refusal::Read);
    assert_eq!(refusal(&mut dst(), |dst| put(dst, 2, &src, 23, 2, double, 0, &table)), Refusal::Read);
    assert_eq!(refusal(&mut dst(), |dst| put(dst, 2, &src, usize::MAX, 2, double, 0, &table)), Refusal::Read);
    assert_eq!(refusal(&mut dst()[..3], |dst| put(dst, 2, &src, 24, 2, double, 0, &table)), Refusal::Written);
    let prep = |tmp: &mut [i16]| prep_8tap_scaled(depth, tmp, 2, &src, 24, 8, 2, 2, double, 0, &table[1..]);
    assert_eq!(refusal(&mut [5; 4], prep), Refusal::Table);
}

/// The same of bilinear, which fetches a column and a row more.
fn bilinear_refusals<P: Tested>(depth: P::Depth) {
    let src = vec![P::from(5); 3 * 8 + 4];
    let double = ScaledMotion { mx: 0, my: 0, dx: 2048, dy: 2048 };
    let put = |dst: &mut [P], src: &[P], off, motion| put_bilin_scaled(depth, dst, 2, src, off, 8, 2, 2, motion);
    let dst = || vec![P::from(7); 4];
    assert_eq!(put(&mut dst(), &src, 0, double), Ok(()));
    assert_eq!(refusal(&mut dst(), |dst| put(dst, &src, 1, double)), Refusal::Read);
    assert_eq!(refusal(&mut dst(), |dst| put(dst, &src, 0, ScaledMotion { dx: -1, ..double })), Refusal::Number);
    assert_eq!(refusal(&mut dst()[..3], |dst| put(dst, &src, 0, double)), Refusal::Written);
    let prep = |h, stride| move |tmp: &mut [i16]| prep_bilin_scaled::<P>(depth, tmp, 2, &[], 0, stride, 2, h, double);
    assert_eq!(refusal(&mut [5; 4], prep(0, 8)), Refusal::Size);
    assert_eq!(refusal(&mut [5; 4], prep(2, 1)), Refusal::Stride);
    assert_eq!(refusal(&mut [5; 4], prep(2, 8)), Refusal::Read);
}

#[test]
fn scaled_functions_refuse() {
    refusals::<u8>(Eight);
    refusals::<u16>(Depth::Ten);
    bilinear_refusals::<u8>(Eight);
    bilinear_refusals::<u16>(Depth::Twelve);
}
