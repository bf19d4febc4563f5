//! The C functions, as include/hemavolups.h declares them. P is the set's pixel.
//!
//! A call is sound where each pointer and its length are those of a slice that is borrowed for the call, mutably for
//! `*mut`: then nothing is null, misaligned or longer than it is, and nothing written overlaps anything else. Every
//! `unsafe` block of this crate is such a call. The header lets an empty slice be null too; one of Rust's never is.

/// Declares functions that have a byte set and a 16-bit set: the name without a set, both names, the parameters. A
/// depth in brackets is passed by the 16-bit set alone.
macro_rules! sets {
    ($($call:ident: $bytes:ident, $words:ident, $([$depth:ident],)? $($name:ident: $type:ty),+;)+) => {
        /// The functions of a set. It seals `Pixel`, since it can't be named outside.
        pub trait Calls<P> {
            $(unsafe fn $call($($depth: i32,)? $($name: $type),+) -> u32;)+
        }

        mod bytes {
            type P = u8;

            unsafe extern "C" {
                $(fn $bytes($($name: $type),+) -> u32;)+
            }

            impl super::Calls<P> for P {
                $(unsafe fn $call($($depth: i32,)? $($name: $type),+) -> u32 {
                    $(let _ = $depth;)?
                    unsafe { $bytes($($name),+) }
                })+
            }
        }

        mod words {
            type P = u16;

            unsafe extern "C" {
                $(fn $words($($depth: i32,)? $($name: $type),+) -> u32;)+
            }

            impl super::Calls<P> for P {
                $(unsafe fn $call($($depth: i32,)? $($name: $type),+) -> u32 {
                    unsafe { $words($($depth,)? $($name),+) }
                })+
            }
        }
    };
}

sets! {
put: hv_put_8bpc, hv_put_16bpc,
    dst: *mut P, dst_len: usize, dst_stride: usize, src: *const P, src_len: usize, src_stride: usize, w: usize,
    h: usize;

prep: hv_prep_8bpc, hv_prep_16bpc, [depth],
    tmp: *mut i16, tmp_len: usize, tmp_stride: usize, src: *const P, src_len: usize, src_stride: usize, w: usize,
    h: usize;

put_8tap: hv_put_8tap_8bpc, hv_put_8tap_16bpc, [depth],
    dst: *mut P, dst_len: usize, dst_stride: usize, src: *const P, src_len: usize, src_off: usize, src_stride: usize,
    w: usize, h: usize, mx: i32, my: i32, filter_type: i32, subpel: *const i8, subpel_len: usize, ext: *const i8,
    ext_len: usize;

prep_8tap: hv_prep_8tap_8bpc, hv_prep_8tap_16bpc, [depth],
    tmp: *mut i16, tmp_len: usize, tmp_stride: usize, src: *const P, src_len: usize, src_off: usize, src_stride: usize,
    w: usize, h: usize, mx: i32, my: i32, filter_type: i32, subpel: *const i8, subpel_len: usize, ext: *const i8,
    ext_len: usize;

put_bilin: hv_put_bilin_8bpc, hv_put_bilin_16bpc, [depth],
    dst: *mut P, dst_len: usize, dst_stride: usize, src: *const P, src_len: usize, src_stride: usize, w: usize,
    h: usize, mx: i32, my: i32;

prep_bilin: hv_prep_bilin_8bpc, hv_prep_bilin_16bpc, [depth],
    tmp: *mut i16, tmp_len: usize, tmp_stride: usize, src: *const P, src_len: usize, src_stride: usize, w: usize,
    h: usize, mx: i32, my: i32;

put_8tap_scaled: hv_put_8tap_scaled_8bpc, hv_put_8tap_scaled_16bpc, [depth],
    dst: *mut P, dst_len: usize, dst_stride: usize, src: *const P, src_len: usize, src_off: usize, src_stride: usize,
    w: usize, h: usize, mx: i32, my: i32, dx: i32, dy: i32, filter_type: i32, subpel: *const i8, subpel_len: usize;

prep_8tap_scaled: hv_prep_8tap_scaled_8bpc, hv_prep_8tap_scaled_16bpc, [depth],
    tmp: *mut i16, tmp_len: usize, tmp_stride: usize, src: *const P, src_len: usize, src_off: usize, src_stride: usize,
    w: usize, h: usize, mx: i32, my: i32, dx: i32, dy: i32, filter_type: i32, subpel: *const i8, subpel_len: usize;

put_bilin_scaled: hv_put_bilin_scaled_8bpc, hv_put_bilin_scaled_16bpc, [depth],
    dst: *mut P, dst_len: usize, dst_stride: usize, src: *const P, src_len: usize, src_off: usize, src_stride: usize,
    w: usize, h: usize, mx: i32, my: i32, dx: i32, dy: i32;

prep_bilin_scaled: hv_prep_bilin_scaled_8bpc, hv_prep_bilin_scaled_16bpc, [depth],
    tmp: *mut i16, tmp_len: usize, tmp_stride: usize, src: *const P, src_len: usize, src_off: usize, src_stride: usize,
    w: usize, h: usize, mx: i32, my: i32, dx: i32, dy: i32;

avg: hv_avg_8bpc, hv_avg_16bpc, [depth],
    dst: *mut P, dst_len: usize, dst_stride: usize, tmp1: *const i16, tmp1_len: usize, tmp2: *const i16,
    tmp2_len: usize, w: usize, h: usize;

w_avg: hv_w_avg_8bpc, hv_w_avg_16bpc, [depth],
    dst: *mut P, dst_len: usize, dst_stride: usize, tmp1: *const i16, tmp1_len: usize, tmp2: *const i16,
    tmp2_len: usize, w: usize, h: usize, weight: i32;

mask: hv_mask_8bpc, hv_mask_16bpc, [depth],
    dst: *mut P, dst_len: usize, dst_stride: usize, tmp1: *const i16, tmp1_len: usize, tmp2: *const i16,
    tmp2_len: usize, w: usize, h: usize, mask: *const u8, mask_len: usize;

w_mask: hv_w_mask_8bpc, hv_w_mask_16bpc, [depth],
    dst: *mut P, dst_len: usize, dst_stride: usize, tmp1: *const i16, tmp1_len: usize, tmp2: *const i16,
    tmp2_len: usize, w: usize, h: usize, mask: *mut u8, mask_len: usize, mask_stride: usize, sign: i32, ss_hor: bool,
    ss_ver: bool;

blend: hv_blend_8bpc, hv_blend_16bpc,
    dst: *mut P, dst_len: usize, dst_stride: usize, tmp: *const P, tmp_len: usize, w: usize, h: usize,
    mask: *const u8, mask_len: usize, row: *mut usize, col: *mut usize;

morph: hv_morph_8bpc, hv_morph_16bpc, [depth],
    dst: *mut P, dst_len: usize, dst_stride: usize, alpha: i32, beta: i32, w: usize, h: usize;

warp_affine_8x8: hv_warp_affine_8x8_8bpc, hv_warp_affine_8x8_16bpc, [depth],
    dst: *mut P, dst_len: usize, dst_stride: usize, src: *const P, src_len: usize, src_stride: usize, src_off: usize,
    a: i16, b: i16, c: i16, d: i16, mx: i32, my: i32, warp: *const i8, warp_len: usize;

warp_affine_8x8t: hv_warp_affine_8x8t_8bpc, hv_warp_affine_8x8t_16bpc, [depth],
    tmp: *mut i16, tmp_len: usize, tmp_stride: usize, src: *const P, src_len: usize, src_stride: usize, src_off: usize,
    a: i16, b: i16, c: i16, d: i16, mx: i32, my: i32, warp: *const i8, warp_len: usize;

emu_edge: hv_emu_edge_8bpc, hv_emu_edge_16bpc,
    bw: usize, bh: usize, iw: usize, ih: usize, x: i64, y: i64, dst: *mut P, dst_len: usize, dst_stride: usize,
    plane: *const P, plane_len: usize, plane_stride: usize;

sad_nxn: hv_sad_nxn_8bpc, hv_sad_nxn_16bpc, [depth],
    p0: *const P, p0_len: usize, p0_stride: usize, p1: *const P, p1_len: usize, p1_stride: usize, w: usize, h: usize,
    sum: *mut i32;

sad_refine_mv: hv_sad_refine_mv_8bpc, hv_sad_refine_mv_16bpc, [depth],
    p0: *const P, p0_len: usize, p0_stride: usize, p1: *const P, p1_len: usize, p1_stride: usize, w: usize, h: usize,
    is_implicit: bool, dx: *mut i32, dy: *mut i32;

window: hv_window_8bpc, hv_window_16bpc,
    luma_w: usize, luma_h: usize, ss_hor: bool, ss_ver: bool, plane_no: u32, plane: *const P, plane_len: usize,
    plane_stride: usize, kind: u32, w: usize, h: usize, x: i64, y: i64, mode: u32, scratch: *mut P, scratch_len: usize,
    buffer: *mut u32, place: *mut usize, stride: *mut usize, len: *mut usize;

row: hv_row_8bpc, hv_row_16bpc,
    luma_w: usize, luma_h: usize, ss_hor: bool, ss_ver: bool, plane_no: u32, plane: *const P, plane_len: usize,
    plane_stride: usize, row: i64, buffer: *mut u32, place: *mut usize, stride: *mut usize, len: *mut usize;

order_put: hv_order_put_8bpc, hv_order_put_16bpc, [depth],
    luma_w: usize, luma_h: usize, ss_hor: bool, ss_ver: bool, plane_no: u32, plane: *const P, plane_len: usize,
    plane_stride: usize, kind: u32, x: i64, y: i64, w: usize, h: usize, mx: i32, my: i32, filter_type: i32, a: i16,
    b: i16, c: i16, d: i16, subpel: *const i8, subpel_len: usize, ext: *const i8, ext_len: usize, warp: *const i8,
    warp_len: usize, scratch: *mut P, scratch_len: usize, dst: *mut P, dst_len: usize, dst_stride: usize;

order_prep: hv_order_prep_8bpc, hv_order_prep_16bpc, [depth],
    luma_w: usize, luma_h: usize, ss_hor: bool, ss_ver: bool, plane_no: u32, plane: *const P, plane_len: usize,
    plane_stride: usize, kind: u32, x: i64, y: i64, w: usize, h: usize, mx: i32, my: i32, filter_type: i32, a: i16,
    b: i16, c: i16, d: i16, subpel: *const i8, subpel_len: usize, ext: *const i8, ext_len: usize, warp: *const i8,
    warp_len: usize, scratch: *mut P, scratch_len: usize, tmp: *mut i16, tmp_len: usize, tmp_stride: usize;
}

unsafe extern "C" {
    pub fn hv_resolve_divisor_32(d: u32, recip: *const u16, recip_len: usize, y: *mut i32, shift: *mut i32) -> u32;
    pub fn hv_get_shear_params(
        matrix: *mut [i32; 6],
        abcd: *mut [i16; 4],
        affine: *mut i32,
        recip: *const u16,
        recip_len: usize,
    ) -> u32;
    pub fn hv_set_affine_mv2d(
        bw4: i32,
        bh4: i32,
        mv_x: i32,
        mv_y: i32,
        matrix: *mut [i32; 6],
        bx4: i32,
        by4: i32,
    ) -> u32;
}
