//! The harness around the C functions: stand-ins for the archive that are right pass, and each sort of wrong one is
//! noticed. The archive's own functions pass as well.

use std::marker::PhantomData;
use std::slice;

use archive::Linked;
use oracle::amount::Amount;
use oracle::answer::{Answer, Buffer, Room};
use oracle::calls::combine::Blend;
use oracle::calls::copy::Put;
use oracle::calls::search::SadNxn;
use oracle::calls::shear::{GetShearParams, Record, SetAffineMv2d};
use oracle::compare::{expected, one_entry};
use oracle::every_entry;
use oracle::lend::Places;
use oracle::library::Library;
use oracle::tally::Tally;

const AMOUNT: Amount = Amount { calls: 1000, seed: 5 };

/// What a stand-in for hv_put_8bpc was lent, after it did everything right, and the number that it will give.
struct Lent {
    number: u32,
    dst: *mut u8,
    dst_len: usize,
    src: *mut u8,
    src_len: usize,
}

/// What a stand-in does wrong in the end.
trait Fault {
    /// Changes what was lent, or the number.
    fn commit(lent: &mut Lent);
}

/// Puts as document 01 says, then commits its fault.
struct StandIn<F>(PhantomData<F>);

/// A copy of a lent slice.
unsafe fn copied<T: Clone>(start: *const T, length: usize) -> Room<T> {
    Room(unsafe { slice::from_raw_parts(start, length) }.to_vec())
}

impl<F: Fault> archive::Put<u8> for StandIn<F> {
    const THERE: bool = true;

    unsafe fn call(
        dst: *mut u8,
        dst_len: usize,
        dst_stride: usize,
        src: *const u8,
        src_len: usize,
        src_stride: usize,
        w: usize,
        h: usize,
    ) -> u32 {
        let (to, from) = unsafe { (copied(dst, dst_len), copied(src, src_len)) };
        let answer = expected(&Put { dst: to, dst_stride, src: from, src_stride, w, h });
        let [Buffer::Bytes(written)] = answer.buffers.as_slice() else { panic!("put writes one buffer of bytes") };
        let mut lent = Lent { number: answer.number, dst, dst_len, src: src.cast_mut(), src_len };
        unsafe { dst.copy_from(written.as_ptr(), dst_len) };
        F::commit(&mut lent);
        lent.number
    }
}

/// A fault by its name and what it does.
macro_rules! fault {
    ($name:ident: |$lent:ident| $wrong:expr) => {
        struct $name;

        impl Fault for $name {
            fn commit($lent: &mut Lent) {
                $wrong
            }
        }
    };
}

/// Changes one place of a lent buffer or of its guards, counted from the buffer's first.
fn spoil(start: *mut u8, place: isize) {
    unsafe { *start.offset(place) ^= 1 };
}

fault! { Faultless: |_lent| () }
fault! { RightBefore: |lent| spoil(lent.dst, -1) }
fault! { RightAfter: |lent| spoil(lent.dst, lent.dst_len as isize) }
fault! { FarBefore: |lent| spoil(lent.src, -64) }
fault! { FarAfter: |lent| spoil(lent.src, lent.src_len as isize + 63) }
fault! { InSource: |lent| if lent.src_len > 0 { spoil(lent.src, lent.src_len as isize / 2) } }
fault! { OnRefusal: |lent| if lent.number != 0 && lent.dst_len > 0 { spoil(lent.dst, 0) } }
fault! { InLastPlace: |lent| if lent.number == 0 { spoil(lent.dst, lent.dst_len as isize - 1) } }
fault! { NextNumber: |lent| if lent.number != 0 { lent.number += 1 } }
fault! { NoNumber: |lent| lent.number = 0 }
fault! { OtherNumber: |lent| if lent.number == 0 { lent.number = 6 } }

/// What came of the calls of a put that commits a fault.
fn put<F: Fault>() -> Tally {
    one_entry::<Put<u8>, Library<StandIn<F>, Places>>(Some(8), AMOUNT)
}

/// How many of an entry's calls were refused.
fn refused(tally: &Tally) -> u64 {
    tally.calls - tally.accepted()
}

/// The words of the first difference.
fn told(tally: &Tally) -> &str {
    tally.first.as_deref().unwrap_or("")
}

#[test]
fn a_right_function_passes() {
    assert_eq!(put::<Faultless>().differences, 0);
}

#[test]
fn changed_guard_places_are_noticed() {
    for tally in [put::<RightBefore>(), put::<RightAfter>(), put::<FarBefore>(), put::<FarAfter>()] {
        assert_eq!(tally.differences, tally.calls);
        assert!(told(&tally).contains("guard place"), "{}", told(&tally));
    }
}

#[test]
fn a_changed_source_is_noticed() {
    let tally = put::<InSource>();
    assert!(tally.differences >= tally.accepted() && told(&tally).contains("only read"), "{}", told(&tally));
}

#[test]
fn a_buffer_changed_on_refusal_is_noticed() {
    let tally = put::<OnRefusal>();
    // A few refused calls have no place to change.
    assert!(tally.differences > refused(&tally) / 2 && tally.differences <= refused(&tally));
}

#[test]
fn a_place_outside_the_block_or_a_wrong_pixel_is_noticed() {
    let tally = put::<InLastPlace>();
    assert_eq!(tally.differences, tally.accepted());
}

#[test]
fn wrong_numbers_are_noticed() {
    for tally in [put::<NextNumber>(), put::<NoNumber>()] {
        assert_eq!(tally.differences, refused(&tally));
    }
    let tally = put::<OtherNumber>();
    assert_eq!(tally.differences, tally.accepted());
}

/// Writes no result where it refuses, but is right otherwise.
struct LeavesJunk;

impl archive::SadNxn<u8> for LeavesJunk {
    const THERE: bool = true;

    unsafe fn call(
        depth: i32,
        p0: *const u8,
        p0_len: usize,
        p0_stride: usize,
        p1: *const u8,
        p1_len: usize,
        p1_stride: usize,
        w: usize,
        h: usize,
        sum: *mut i32,
    ) -> u32 {
        let (p0, p1) = unsafe { (copied(p0, p0_len), copied(p1, p1_len)) };
        let answer = expected(&SadNxn { depth, p0, p0_stride, p1, p1_stride, w, h });
        if answer.number == 0 {
            unsafe { *sum = answer.results[0] as i32 };
        }
        answer.number
    }
}

impl archive::Blend<u8> for LeavesJunk {
    const THERE: bool = true;

    unsafe fn call(
        dst: *mut u8,
        dst_len: usize,
        dst_stride: usize,
        tmp: *const u8,
        tmp_len: usize,
        w: usize,
        h: usize,
        mask: *const u8,
        mask_len: usize,
        row: *mut usize,
        col: *mut usize,
    ) -> u32 {
        let (to, tmp, mask) = unsafe { (copied(dst, dst_len), copied(tmp, tmp_len), copied(mask, mask_len)) };
        let answer = expected(&Blend { dst: to, dst_stride, tmp, w, h, mask });
        let [Buffer::Bytes(written)] = answer.buffers.as_slice() else { panic!("blend writes one buffer of bytes") };
        unsafe { dst.copy_from(written.as_ptr(), dst_len) };
        if answer.number == 0 || answer.number == 7 {
            unsafe { (*row, *col) = (answer.results[0] as usize, answer.results[1] as usize) };
        }
        answer.number
    }
}

#[test]
fn junk_left_in_a_result_is_noticed() {
    let tally = one_entry::<SadNxn<u8>, Library<LeavesJunk, Places>>(Some(8), AMOUNT);
    assert_eq!(tally.differences, refused(&tally));
    assert!(told(&tally).contains("result"), "{}", told(&tally));
    let tally = one_entry::<Blend<u8>, Library<LeavesJunk, Places>>(Some(8), AMOUNT);
    assert_eq!(tally.differences, refused(&tally) - tally.numbers[&7]);
}

/// Changes one part of a record where it refuses, but is right otherwise.
struct ChangesRecord;

impl archive::GetShearParams for ChangesRecord {
    const THERE: bool = true;

    unsafe fn call(
        matrix: *mut [i32; 6],
        abcd: *mut [i16; 4],
        affine: *mut i32,
        recip: *const u16,
        recip_len: usize,
    ) -> u32 {
        let record = unsafe { Record { matrix: *matrix, abcd: *abcd, affine: *affine } };
        let answer = expected(&GetShearParams { record, recip: unsafe { copied(recip, recip_len) } });
        let parts = numbers(&answer);
        unsafe {
            for (k, shear) in (*abcd).iter_mut().enumerate() {
                *shear = parts[1][k] as i16;
            }
            *affine = if answer.number == 0 { parts[2][0] as i32 } else { *affine ^ 1 };
        }
        answer.number
    }
}

impl archive::SetAffineMv2d for ChangesRecord {
    const THERE: bool = true;

    unsafe fn call(bw4: i32, bh4: i32, mv_x: i32, mv_y: i32, matrix: *mut [i32; 6], bx4: i32, by4: i32) -> u32 {
        let entries = unsafe { &mut *matrix };
        let answer = expected(&SetAffineMv2d { bw4, bh4, mv_x, mv_y, matrix: *entries, bx4, by4 });
        for (k, entry) in entries.iter_mut().enumerate() {
            *entry = numbers(&answer)[0][k] as i32 ^ (answer.number != 0) as i32;
        }
        answer.number
    }
}

/// The numbers of an answer's buffers.
fn numbers(answer: &Answer) -> Vec<Vec<i64>> {
    answer.buffers.iter().map(Buffer::numbers).collect()
}

#[test]
fn a_record_changed_on_refusal_is_noticed() {
    let tally = one_entry::<GetShearParams, Library<ChangesRecord, Places>>(None, AMOUNT);
    assert_eq!(tally.differences, refused(&tally));
    let tally = one_entry::<SetAffineMv2d, Library<ChangesRecord, Places>>(None, AMOUNT);
    assert_eq!(tally.differences, refused(&tally));
}

#[test]
fn the_archive_passes() {
    every_entry!(one_entry of Library<Linked, Places>, Amount { calls: 300, seed: 7 }, |tally: Tally| {
        assert_eq!(tally.differences, 0, "{} {:?}", tally.name, tally.first);
    });
}
