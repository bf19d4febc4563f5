//! The scaled kernels: 8-tap and bilinear, put and prep, at three steps, the same along the rows and down the columns.

use archive::{Linked, Prep8tapScaled, PrepBilinScaled, Put8tapScaled, PutBilinScaled};
use original::mc;
use original::pixel::BitDepth;

use super::kernel;
use crate::pair::{Kernel, Library};

/// Half the reference's size, two thirds of it, and more than its size. At step 2048 all pixels have one fraction.
const STEPS: [i32; 3] = [2048, 1536, 700];
/// Both starts.
const START: i32 = 300;

pub fn kernels<BD: BitDepth>() -> Vec<Kernel<BD>>
where
    Linked: Library<BD::Pixel>,
{
    let mut kernels = Vec::new();
    for form in [put_8tap, prep_8tap, put_bilin, prep_bilin] {
        kernels.extend(STEPS.map(form));
    }
    kernels
}

#[rustfmt::skip]
fn put_8tap<BD: BitDepth>(step: i32) -> Kernel<BD>
where
    Linked: Library<BD::Pixel>,
{
    kernel(format!("put_8tap_scaled {step}"), 0.5,
        move |r| {
            let (n, from, ss, by) = (r.size, r.start, r.stride as isize, r.filter_type);
            mc::put_8tap_scaled(r.bd, &mut r.dst, r.stride, &r.src, from, ss, n, n, START, START, step, step, by);
        },
        move |r| unsafe {
            <Linked as Put8tapScaled<_>>::call(r.depth, r.dst.as_mut_ptr(), r.dst.len(), r.stride, r.src.as_ptr(),
                r.src.len(), r.start, r.stride, r.size, r.size, START, START, step, step, r.filter_type,
                r.subpel.as_ptr(), r.subpel.len())
        })
}

#[rustfmt::skip]
fn prep_8tap<BD: BitDepth>(step: i32) -> Kernel<BD>
where
    Linked: Library<BD::Pixel>,
{
    kernel(format!("prep_8tap_scaled {step}"), 0.5,
        move |r| {
            let (n, from, ss, by) = (r.size, r.start, r.stride as isize, r.filter_type);
            mc::prep_8tap_scaled(r.bd, &mut r.tmp, r.stride, &r.src, from, ss, n, n, START, START, step, step, by);
        },
        move |r| unsafe {
            <Linked as Prep8tapScaled<_>>::call(r.depth, r.tmp.as_mut_ptr(), r.tmp.len(), r.stride, r.src.as_ptr(),
                r.src.len(), r.start, r.stride, r.size, r.size, START, START, step, step, r.filter_type,
                r.subpel.as_ptr(), r.subpel.len())
        })
}

#[rustfmt::skip]
fn put_bilin<BD: BitDepth>(step: i32) -> Kernel<BD>
where
    Linked: Library<BD::Pixel>,
{
    kernel(format!("put_bilin_scaled {step}"), 0.5,
        move |r| {
            let (n, from, ss) = (r.size, r.start, r.stride as isize);
            mc::put_bilin_scaled(r.bd, &mut r.dst, r.stride, &r.src, from, ss, n, n, START, START, step, step);
        },
        move |r| unsafe {
            <Linked as PutBilinScaled<_>>::call(r.depth, r.dst.as_mut_ptr(), r.dst.len(), r.stride, r.src.as_ptr(),
                r.src.len(), r.start, r.stride, r.size, r.size, START, START, step, step)
        })
}

#[rustfmt::skip]
fn prep_bilin<BD: BitDepth>(step: i32) -> Kernel<BD>
where
    Linked: Library<BD::Pixel>,
{
    kernel(format!("prep_bilin_scaled {step}"), 0.5,
        move |r| {
            let (n, from, ss) = (r.size, r.start, r.stride as isize);
            mc::prep_bilin_scaled(r.bd, &mut r.tmp, r.stride, &r.src, from, ss, n, n, START, START, step, step);
        },
        move |r| unsafe {
            <Linked as PrepBilinScaled<_>>::call(r.depth, r.tmp.as_mut_ptr(), r.tmp.len(), r.stride, r.src.as_ptr(),
                r.src.len(), r.start, r.stride, r.size, r.size, START, START, step, step)
        })
}
