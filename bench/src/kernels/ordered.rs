//! Orders whose window is inside the plane, put and prep. The Rust has none; its side is the kernel, run on the plane.

use archive::{Linked, OrderPrep, OrderPut};
use original::mc;
use original::pixel::BitDepth;

use super::kernel;
use crate::pair::{Kernel, Library};
use crate::room::{ROWS, Room};

/// A kind: its number and its mx and my.
type Kind = (u32, i32, i32);
const COPY: Kind = (0, 0, 0);
const EIGHT_TAP: Kind = (1, 8, 8);
const BILINEAR: Kind = (2, 8, 8);
const WARP: Kind = (3, 1200, -900);

pub fn kernels<BD: BitDepth>() -> Vec<Kernel<BD>>
where
    Linked: Library<BD::Pixel>,
{
    let mut kernels = vec![
        put("order_put copy", COPY, |r| mc::put(&mut r.dst, r.stride, &r.src[r.start..], r.stride, r.size, r.size)),
        prep("order_prep copy", COPY, |r| {
            mc::prep(r.bd, &mut r.tmp, r.stride, &r.src[r.start..], r.stride, r.size, r.size)
        }),
        put("order_put 8tap hv", EIGHT_TAP, |r| {
            let ((_, mx, my), n, by) = (EIGHT_TAP, r.size, r.filter_type);
            mc::put_8tap(r.bd, &mut r.dst, r.stride, &r.src, r.start, r.stride, n, n, mx, my, by);
        }),
        put("order_put bilin hv", BILINEAR, |r| {
            let ((_, mx, my), n) = (BILINEAR, r.size);
            mc::put_bilin(r.bd, &mut r.dst, r.stride, &r.src[r.start..], r.stride, n, n, mx, my);
        }),
    ];
    let warps = [
        put("order_put warp", WARP, |r| {
            let (_, mx, my) = WARP;
            mc::warp_affine_8x8(r.bd, &mut r.dst, r.stride, &r.src, r.stride, r.start, &r.shears, mx, my);
        }),
        prep("order_prep warp", WARP, |r| {
            let (_, mx, my) = WARP;
            mc::warp_affine_8x8t(r.bd, &mut r.tmp, r.stride, &r.src, r.stride, r.start, &r.shears, mx, my);
        }),
    ];
    kernels.extend(warps.map(|kernel| Kernel { sizes: &[8], ..kernel }));
    kernels
}

/// The place of the block that begins at start.
fn place<BD: BitDepth>(r: &Room<BD>) -> (i64, i64) {
    ((r.start % r.stride) as i64, (r.start / r.stride) as i64)
}

#[rustfmt::skip]
fn put<BD: BitDepth>(name: &str, (kind, mx, my): Kind, rust: impl Fn(&mut Room<BD>) + 'static) -> Kernel<BD>
where
    Linked: Library<BD::Pixel>,
{
    kernel(name, f64::INFINITY, rust, move |r| unsafe {
        let ((x, y), [a, b, c, d]) = (place(r), r.shears);
        <Linked as OrderPut<_>>::call(r.depth, r.stride, ROWS, false, false, 0, r.src.as_ptr(), r.src.len(), r.stride,
            kind, x, y, r.size, r.size, mx, my, r.filter_type, a, b, c, d, r.subpel.as_ptr(), r.subpel.len(),
            r.ext.as_ptr(), r.ext.len(), r.warp.as_ptr(), r.warp.len(), r.scratch.as_mut_ptr(), r.scratch.len(),
            r.dst.as_mut_ptr(), r.dst.len(), r.stride)
    })
}

#[rustfmt::skip]
fn prep<BD: BitDepth>(name: &str, (kind, mx, my): Kind, rust: impl Fn(&mut Room<BD>) + 'static) -> Kernel<BD>
where
    Linked: Library<BD::Pixel>,
{
    kernel(name, f64::INFINITY, rust, move |r| unsafe {
        let ((x, y), [a, b, c, d]) = (place(r), r.shears);
        <Linked as OrderPrep<_>>::call(r.depth, r.stride, ROWS, false, false, 0, r.src.as_ptr(), r.src.len(), r.stride,
            kind, x, y, r.size, r.size, mx, my, r.filter_type, a, b, c, d, r.subpel.as_ptr(), r.subpel.len(),
            r.ext.as_ptr(), r.ext.len(), r.warp.as_ptr(), r.warp.len(), r.scratch.as_mut_ptr(), r.scratch.len(),
            r.tmp.as_mut_ptr(), r.tmp.len(), r.stride)
    })
}
