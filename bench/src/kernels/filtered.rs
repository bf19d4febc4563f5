//! 8-tap and bilinear, put and prep: along the rows, down the columns, and both.

use archive::{Linked, Prep8tap, PrepBilin, Put8tap, PutBilin};
use original::mc;
use original::pixel::BitDepth;

use super::kernel;
use crate::pair::{Kernel, Library};

/// A case: its name and the two fractions.
type Case = (&'static str, i32, i32);
const CASES: [Case; 3] = [("h", 8, 0), ("v", 0, 8), ("hv", 8, 8)];

pub fn kernels<BD: BitDepth>() -> Vec<Kernel<BD>>
where
    Linked: Library<BD::Pixel>,
{
    let mut kernels = Vec::new();
    for form in [put_8tap, prep_8tap, put_bilin, prep_bilin] {
        kernels.extend(CASES.map(form));
    }
    kernels
}

#[rustfmt::skip]
fn put_8tap<BD: BitDepth>((case, mx, my): Case) -> Kernel<BD>
where
    Linked: Library<BD::Pixel>,
{
    kernel(format!("put_8tap {case}"), 0.25,
        move |r| {
            let (from, ss, by) = (r.start, r.stride, r.filter_type);
            mc::put_8tap(r.bd, &mut r.dst, r.stride, &r.src, from, ss, r.size, r.size, mx, my, by);
        },
        move |r| unsafe {
            <Linked as Put8tap<_>>::call(r.depth, r.dst.as_mut_ptr(), r.dst.len(), r.stride, r.src.as_ptr(),
                r.src.len(), r.start, r.stride, r.size, r.size, mx, my, r.filter_type, r.subpel.as_ptr(),
                r.subpel.len(), r.ext.as_ptr(), r.ext.len())
        })
}

#[rustfmt::skip]
fn prep_8tap<BD: BitDepth>((case, mx, my): Case) -> Kernel<BD>
where
    Linked: Library<BD::Pixel>,
{
    kernel(format!("prep_8tap {case}"), 0.25,
        move |r| {
            let (from, ss, by) = (r.start, r.stride, r.filter_type);
            mc::prep_8tap(r.bd, &mut r.tmp, r.stride, &r.src, from, ss, r.size, r.size, mx, my, by);
        },
        move |r| unsafe {
            <Linked as Prep8tap<_>>::call(r.depth, r.tmp.as_mut_ptr(), r.tmp.len(), r.stride, r.src.as_ptr(),
                r.src.len(), r.start, r.stride, r.size, r.size, mx, my, r.filter_type, r.subpel.as_ptr(),
                r.subpel.len(), r.ext.as_ptr(), r.ext.len())
        })
}

#[rustfmt::skip]
fn put_bilin<BD: BitDepth>((case, mx, my): Case) -> Kernel<BD>
where
    Linked: Library<BD::Pixel>,
{
    kernel(format!("put_bilin {case}"), 0.6,
        move |r| mc::put_bilin(r.bd, &mut r.dst, r.stride, &r.src, r.stride, r.size, r.size, mx, my),
        move |r| unsafe {
            <Linked as PutBilin<_>>::call(r.depth, r.dst.as_mut_ptr(), r.dst.len(), r.stride, r.src.as_ptr(),
                r.src.len(), r.stride, r.size, r.size, mx, my)
        })
}

#[rustfmt::skip]
fn prep_bilin<BD: BitDepth>((case, mx, my): Case) -> Kernel<BD>
where
    Linked: Library<BD::Pixel>,
{
    kernel(format!("prep_bilin {case}"), 0.6,
        move |r| mc::prep_bilin(r.bd, &mut r.tmp, r.stride, &r.src, r.stride, r.size, r.size, mx, my),
        move |r| unsafe {
            <Linked as PrepBilin<_>>::call(r.depth, r.tmp.as_mut_ptr(), r.tmp.len(), r.stride, r.src.as_ptr(),
                r.src.len(), r.stride, r.size, r.size, mx, my)
        })
}
