//! put, prep and emu_edge.

use archive::{EmuEdge, Linked, Prep, Put};
use original::mc;
use original::pixel::BitDepth;

use super::kernel;
use crate::pair::{Kernel, Library};

/// The sides of emu_edge's plane.
const SIDE: usize = 72;

#[rustfmt::skip]
pub fn kernels<BD: BitDepth>() -> Vec<Kernel<BD>>
where
    Linked: Library<BD::Pixel>,
{
    vec![
        kernel("put", 1.0,
            |r| mc::put(&mut r.dst, r.stride, &r.src, r.stride, r.size, r.size),
            |r| unsafe {
                <Linked as Put<_>>::call(r.dst.as_mut_ptr(), r.dst.len(), r.stride, r.src.as_ptr(), r.src.len(),
                    r.stride, r.size, r.size)
            }),
        kernel("prep", 1.0,
            |r| mc::prep(r.bd, &mut r.tmp, r.stride, &r.src, r.stride, r.size, r.size),
            |r| unsafe {
                <Linked as Prep<_>>::call(r.depth, r.tmp.as_mut_ptr(), r.tmp.len(), r.stride, r.src.as_ptr(),
                    r.src.len(), r.stride, r.size, r.size)
            }),
        edge("emu_edge first corner", |size| -(size as i64) / 4),
        edge("emu_edge last corner", |size| SIDE as i64 - size as i64 * 3 / 4),
    ]
}

/// A block with a quarter of its rows and of its columns beyond the plane; its first place is the same both ways.
#[rustfmt::skip]
fn edge<BD: BitDepth>(name: &str, place: fn(usize) -> i64) -> Kernel<BD>
where
    Linked: Library<BD::Pixel>,
{
    kernel(name, 1.0,
        move |r| {
            let at = place(r.size) as isize;
            mc::emu_edge(r.size, r.size, SIDE, SIDE, at, at, &mut r.dst, r.stride, &r.src, r.stride);
        },
        move |r| unsafe {
            let at = place(r.size);
            <Linked as EmuEdge<_>>::call(r.size, r.size, SIDE, SIDE, at, at, r.dst.as_mut_ptr(), r.dst.len(), r.stride,
                r.src.as_ptr(), r.src.len(), r.stride)
        })
}
