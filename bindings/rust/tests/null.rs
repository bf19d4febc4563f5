//! What C may hand over and Rust can't: a null pointer with length 0, which is answered as an empty slice is.

use std::ptr::{null, null_mut};

use hemavolups as _;

// As include/hemavolups.h declares them.
unsafe extern "C" {
    fn hv_put_8bpc(
        dst: *mut u8,
        dst_len: usize,
        dst_stride: usize,
        src: *const u8,
        src_len: usize,
        src_stride: usize,
        w: usize,
        h: usize,
    ) -> u32;

    fn hv_put_8tap_16bpc(
        depth: i32,
        dst: *mut u16,
        dst_len: usize,
        dst_stride: usize,
        src: *const u16,
        src_len: usize,
        src_off: usize,
        src_stride: usize,
        w: usize,
        h: usize,
        mx: i32,
        my: i32,
        filter_type: i32,
        subpel: *const i8,
        subpel_len: usize,
        ext: *const i8,
        ext_len: usize,
    ) -> u32;
}

#[test]
fn null_buffers_are_refused() {
    let (mut dst, src) = ([7u8; 4], [5u8; 4]);
    // Nothing is read or written through null, and the other slice is its own.
    unsafe {
        assert_eq!(hv_put_8bpc(dst.as_mut_ptr(), 4, 2, null(), 0, 2, 2, 2), 5);
        assert_eq!(hv_put_8bpc(null_mut(), 0, 2, src.as_ptr(), 4, 2, 2, 2), 6);
        assert_eq!(hv_put_8bpc(null_mut(), 0, 2, null(), 0, 2, 2, 2), 5);
    }
    assert_eq!(dst, [7; 4]);
}

/// Puts a pixel of 900 by this type, with a null ext table and a subpel table of this length.
fn put_8tap(dst: &mut [u16; 1], filter_type: i32, mx: i32, subpel: Option<&[i8; 600]>) -> u32 {
    let src = [900u16; 8];
    let (table, length) = subpel.map_or((null(), 0), |table| (table.as_ptr(), 600));
    #[rustfmt::skip]
    let number = unsafe {
        hv_put_8tap_16bpc(
            10, dst.as_mut_ptr(), 1, 1, src.as_ptr(), 8, 3, 8, 1, 1, mx, 0, filter_type, table, length, null(), 0,
        )
    };
    number
}

#[test]
fn a_null_table_is_an_empty_one() {
    let (mut dst, subpel) = ([7], [0; 600]);
    assert_eq!(put_8tap(&mut dst, -1, 1, Some(&subpel)), 4);
    assert_eq!(put_8tap(&mut dst, 0, 0, None), 4);
    assert_eq!(dst, [7]);
    assert_eq!(put_8tap(&mut dst, 0, 0, Some(&subpel)), 0);
    assert_eq!(dst, [900]);
}
