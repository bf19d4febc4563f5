//! The ground of `oracle guard`: what lies right beside a lent buffer can't be read there.

use std::io::{PipeWriter, pipe};
use std::os::fd::AsRawFd;

use oracle::lend::{Ground, Places, lend};
use oracle::pages::{BeginsAfterPage, EndsAtPage};

unsafe extern "C" {
    fn write(file: i32, start: *const u8, length: usize) -> isize;
}

/// Can a byte be read? The system reads it, and answers with an error where a read of ours would end with a signal.
fn readable(out: &PipeWriter, place: *const u8) -> bool {
    unsafe { write(out.as_raw_fd(), place, 1) == 1 }
}

/// Can the bytes right before and right after a lent buffer be read?
fn beside<G: Ground>(numbers: &[u16]) -> [bool; 2] {
    let mut lent = lend::<G, _>("numbers", numbers);
    let start: *mut u8 = lent.start().cast();
    let (_reader, out) = pipe().expect("a pipe");
    assert!(numbers.is_empty() || readable(&out, start));
    [start.wrapping_sub(1), start.wrapping_add(2 * numbers.len())].map(|place| readable(&out, place))
}

#[test]
fn no_place_beside_a_buffer_can_be_read() {
    for numbers in [vec![], vec![7], vec![9; 100], vec![1; 5000]] {
        assert_eq!(beside::<EndsAtPage>(&numbers), [true, false]);
        assert_eq!(beside::<BeginsAfterPage>(&numbers), [false, true]);
        assert_eq!(beside::<Places>(&numbers), [true, true]);
    }
}

#[test]
fn what_is_lent_is_what_came() {
    let (first, second) = (vec![1u16, 2, 3], vec![4u16, 5]);
    let (one, two) = (lend::<EndsAtPage, _>("first", &first), lend::<EndsAtPage, _>("second", &second));
    assert_eq!((one.now(), two.now()), (first.as_slice(), second.as_slice()));
    assert_eq!((one.kept(), two.kept()), (None, None));
}
