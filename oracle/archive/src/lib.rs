//! The library's C functions. Each entry is a trait: `Linked` has the archive's functions, and anything else can stand in
//! for them. A slice is a pointer, then its length in elements; P is the set's pixel. The answer is the number.

#[cfg(feature = "stack")]
pub mod stack;

/// The functions of the archive that was linked.
pub struct Linked;

/// Where the linked archive lies, as it was searched; nothing if there is none.
pub const PLACE: Option<&str> = option_env!("LINKED_ARCHIVE");

/// Declares an entry that has a set of bytes and one of 16-bit pixels. `depth` stands before a 16-bit function that takes
/// the depth first; the trait's function always takes it, so that both sets are called alike.
macro_rules! sets {
    ($Entry:ident: $bytes:ident, depth $words:ident; $($parameters:tt)*) => {
        declare! { $Entry [P] [depth: i32,] $($parameters)* }
        link! { $Entry [u8] $bytes [depth] [] $($parameters)* }
        link! { $Entry [u16] $words [depth] [depth] $($parameters)* }
    };
    ($Entry:ident: $bytes:ident, $words:ident; $($parameters:tt)*) => {
        declare! { $Entry [P] [] $($parameters)* }
        link! { $Entry [u8] $bytes [] [] $($parameters)* }
        link! { $Entry [u16] $words [] [] $($parameters)* }
    };
}

/// Declares an entry that has no set.
macro_rules! plain {
    ($Entry:ident: $function:ident; $($parameters:tt)*) => {
        declare! { $Entry [] [] $($parameters)* }
        link! { $Entry [] $function [] [] $($parameters)* }
    };
}

/// The trait of an entry.
macro_rules! declare {
    ($Entry:ident [$($P:ident)?] [$($depth:tt)*] $($name:ident: $type:ty),* $(,)?) => {
        pub trait $Entry $(<$P>)? {
            /// Is the function in the archive?
            const THERE: bool;

            /// Calls the function.
            ///
            /// # Safety
            /// Pointers and lengths are those of slices; nothing written overlaps anything else.
            #[allow(clippy::too_many_arguments)]
            unsafe fn call($($depth)* $($name: $type),*) -> u32;
        }
    };
}

/// The archive's function for an entry and a pixel: told are the parameters before the listed ones that it takes, of
/// those that the trait has.
macro_rules! link {
    ($Entry:ident [$($pixel:ident)?] $function:ident [$($depth:ident)?] [$($told:ident)?] $($name:ident: $type:ty),* $(,)?) => {
        const _: () = {
            $(type P = $pixel;)?
            impl $Entry $(<$pixel>)? for Linked {
                const THERE: bool = cfg!($function);

                unsafe fn call($($depth: i32,)? $($name: $type),*) -> u32 {
                    $(let _ = $depth;)?
                    #[cfg($function)]
                    unsafe {
                        unsafe extern "C" {
                            fn $function($($told: i32,)? $($name: $type),*) -> u32;
                        }
                        #[cfg(feature = "stack")]
                        let top = stack::paint();
                        let number = $function($($told,)? $($name),*);
                        #[cfg(feature = "stack")]
                        stack::note(stringify!($function), top);
                        number
                    }
                    #[cfg(not($function))]
                    {
                        let _ = ($($name),*);
                        unreachable!("a function that isn't in the archive is never called")
                    }
                }
            }
        };
    };
}

sets! { Put: hv_put_8bpc, hv_put_16bpc;
dst: *mut P, dst_len: usize, dst_stride: usize, src: *const P, src_len: usize, src_stride: usize, w: usize, h: usize }

sets! { Prep: hv_prep_8bpc, depth hv_prep_16bpc;
tmp: *mut i16, tmp_len: usize, tmp_stride: usize, src: *const P, src_len: usize, src_stride: usize, w: usize,
h: usize }

sets! { Avg: hv_avg_8bpc, depth hv_avg_16bpc;
dst: *mut P, dst_len: usize, dst_stride: usize, tmp1: *const i16, tmp1_len: usize, tmp2: *const i16,
tmp2_len: usize, w: usize, h: usize }

sets! { WAvg: hv_w_avg_8bpc, depth hv_w_avg_16bpc;
dst: *mut P, dst_len: usize, dst_stride: usize, tmp1: *const i16, tmp1_len: usize, tmp2: *const i16,
tmp2_len: usize, w: usize, h: usize, weight: i32 }

sets! { Mask: hv_mask_8bpc, depth hv_mask_16bpc;
dst: *mut P, dst_len: usize, dst_stride: usize, tmp1: *const i16, tmp1_len: usize, tmp2: *const i16,
tmp2_len: usize, w: usize, h: usize, mask: *const u8, mask_len: usize }

sets! { Blend: hv_blend_8bpc, hv_blend_16bpc;
dst: *mut P, dst_len: usize, dst_stride: usize, tmp: *const P, tmp_len: usize, w: usize, h: usize,
mask: *const u8, mask_len: usize, row: *mut usize, col: *mut usize }

sets! { Morph: hv_morph_8bpc, depth hv_morph_16bpc;
dst: *mut P, dst_len: usize, dst_stride: usize, alpha: i32, beta: i32, w: usize, h: usize }

sets! { WMask: hv_w_mask_8bpc, depth hv_w_mask_16bpc;
dst: *mut P, dst_len: usize, dst_stride: usize, tmp1: *const i16, tmp1_len: usize, tmp2: *const i16,
tmp2_len: usize, w: usize, h: usize, mask: *mut u8, mask_len: usize, mask_stride: usize, sign: i32, ss_hor: bool,
ss_ver: bool }

sets! { EmuEdge: hv_emu_edge_8bpc, hv_emu_edge_16bpc;
bw: usize, bh: usize, iw: usize, ih: usize, x: i64, y: i64, dst: *mut P, dst_len: usize, dst_stride: usize,
plane: *const P, plane_len: usize, plane_stride: usize }

sets! { Put8tap: hv_put_8tap_8bpc, depth hv_put_8tap_16bpc;
dst: *mut P, dst_len: usize, dst_stride: usize, src: *const P, src_len: usize, src_off: usize, src_stride: usize,
w: usize, h: usize, mx: i32, my: i32, filter_type: i32, subpel: *const i8, subpel_len: usize, ext: *const i8,
ext_len: usize }

sets! { Prep8tap: hv_prep_8tap_8bpc, depth hv_prep_8tap_16bpc;
tmp: *mut i16, tmp_len: usize, tmp_stride: usize, src: *const P, src_len: usize, src_off: usize,
src_stride: usize, w: usize, h: usize, mx: i32, my: i32, filter_type: i32, subpel: *const i8, subpel_len: usize,
ext: *const i8, ext_len: usize }

sets! { PutBilin: hv_put_bilin_8bpc, depth hv_put_bilin_16bpc;
dst: *mut P, dst_len: usize, dst_stride: usize, src: *const P, src_len: usize, src_stride: usize, w: usize,
h: usize, mx: i32, my: i32 }

sets! { PrepBilin: hv_prep_bilin_8bpc, depth hv_prep_bilin_16bpc;
tmp: *mut i16, tmp_len: usize, tmp_stride: usize, src: *const P, src_len: usize, src_stride: usize, w: usize,
h: usize, mx: i32, my: i32 }

sets! { Put8tapScaled: hv_put_8tap_scaled_8bpc, depth hv_put_8tap_scaled_16bpc;
dst: *mut P, dst_len: usize, dst_stride: usize, src: *const P, src_len: usize, src_off: usize, src_stride: usize,
w: usize, h: usize, mx: i32, my: i32, dx: i32, dy: i32, filter_type: i32, subpel: *const i8, subpel_len: usize }

sets! { Prep8tapScaled: hv_prep_8tap_scaled_8bpc, depth hv_prep_8tap_scaled_16bpc;
tmp: *mut i16, tmp_len: usize, tmp_stride: usize, src: *const P, src_len: usize, src_off: usize,
src_stride: usize, w: usize, h: usize, mx: i32, my: i32, dx: i32, dy: i32, filter_type: i32, subpel: *const i8,
subpel_len: usize }

sets! { PutBilinScaled: hv_put_bilin_scaled_8bpc, depth hv_put_bilin_scaled_16bpc;
dst: *mut P, dst_len: usize, dst_stride: usize, src: *const P, src_len: usize, src_off: usize, src_stride: usize,
w: usize, h: usize, mx: i32, my: i32, dx: i32, dy: i32 }

sets! { PrepBilinScaled: hv_prep_bilin_scaled_8bpc, depth hv_prep_bilin_scaled_16bpc;
tmp: *mut i16, tmp_len: usize, tmp_stride: usize, src: *const P, src_len: usize, src_off: usize,
src_stride: usize, w: usize, h: usize, mx: i32, my: i32, dx: i32, dy: i32 }

sets! { SadNxn: hv_sad_nxn_8bpc, depth hv_sad_nxn_16bpc;
p0: *const P, p0_len: usize, p0_stride: usize, p1: *const P, p1_len: usize, p1_stride: usize, w: usize, h: usize,
sum: *mut i32 }

sets! { SadRefineMv: hv_sad_refine_mv_8bpc, depth hv_sad_refine_mv_16bpc;
p0: *const P, p0_len: usize, p0_stride: usize, p1: *const P, p1_len: usize, p1_stride: usize, w: usize, h: usize,
is_implicit: bool, dx: *mut i32, dy: *mut i32 }

sets! { WarpAffine: hv_warp_affine_8x8_8bpc, depth hv_warp_affine_8x8_16bpc;
dst: *mut P, dst_len: usize, dst_stride: usize, src: *const P, src_len: usize, src_stride: usize, src_off: usize,
a: i16, b: i16, c: i16, d: i16, mx: i32, my: i32, warp: *const i8, warp_len: usize }

sets! { WarpAffineT: hv_warp_affine_8x8t_8bpc, depth hv_warp_affine_8x8t_16bpc;
tmp: *mut i16, tmp_len: usize, tmp_stride: usize, src: *const P, src_len: usize, src_stride: usize,
src_off: usize, a: i16, b: i16, c: i16, d: i16, mx: i32, my: i32, warp: *const i8, warp_len: usize }

sets! { Window: hv_window_8bpc, hv_window_16bpc;
luma_w: usize, luma_h: usize, ss_hor: bool, ss_ver: bool, plane_no: u32, plane: *const P, plane_len: usize,
plane_stride: usize, kind: u32, w: usize, h: usize, x: i64, y: i64, mode: u32, scratch: *mut P, scratch_len: usize,
buffer: *mut u32, place: *mut usize, stride: *mut usize, len: *mut usize }

sets! { Row: hv_row_8bpc, hv_row_16bpc;
luma_w: usize, luma_h: usize, ss_hor: bool, ss_ver: bool, plane_no: u32, plane: *const P, plane_len: usize,
plane_stride: usize, row: i64, buffer: *mut u32, place: *mut usize, stride: *mut usize, len: *mut usize }

sets! { OrderPut: hv_order_put_8bpc, depth hv_order_put_16bpc;
luma_w: usize, luma_h: usize, ss_hor: bool, ss_ver: bool, plane_no: u32, plane: *const P, plane_len: usize,
plane_stride: usize, kind: u32, x: i64, y: i64, w: usize, h: usize, mx: i32, my: i32, filter_type: i32, a: i16, b: i16,
c: i16, d: i16, subpel: *const i8, subpel_len: usize, ext: *const i8, ext_len: usize, warp: *const i8,
warp_len: usize, scratch: *mut P, scratch_len: usize, dst: *mut P, dst_len: usize, dst_stride: usize }

sets! { OrderPrep: hv_order_prep_8bpc, depth hv_order_prep_16bpc;
luma_w: usize, luma_h: usize, ss_hor: bool, ss_ver: bool, plane_no: u32, plane: *const P, plane_len: usize,
plane_stride: usize, kind: u32, x: i64, y: i64, w: usize, h: usize, mx: i32, my: i32, filter_type: i32, a: i16, b: i16,
c: i16, d: i16, subpel: *const i8, subpel_len: usize, ext: *const i8, ext_len: usize, warp: *const i8,
warp_len: usize, scratch: *mut P, scratch_len: usize, tmp: *mut i16, tmp_len: usize, tmp_stride: usize }

plain! { ResolveDivisor32: hv_resolve_divisor_32;
d: u32, recip: *const u16, recip_len: usize, y: *mut i32, shift: *mut i32 }

plain! { GetShearParams: hv_get_shear_params;
matrix: *mut [i32; 6], abcd: *mut [i16; 4], affine: *mut i32, recip: *const u16, recip_len: usize }

plain! { SetAffineMv2d: hv_set_affine_mv2d;
bw4: i32, bh4: i32, mv_x: i32, mv_y: i32, matrix: *mut [i32; 6], bx4: i32, by4: i32 }
