//! avg, w_avg, mask, blend, morph and w_mask.

use archive::{Avg, Blend, Linked, Mask, Morph, WAvg, WMask};
use original::mc;
use original::pixel::BitDepth;

use super::kernel;
use crate::pair::{Kernel, Library};

const WEIGHT: i32 = 11;
const ALPHA: i32 = 250;
const BETA: i32 = 300;

pub fn kernels<BD: BitDepth>() -> Vec<Kernel<BD>>
where
    Linked: Library<BD::Pixel>,
{
    let mut kernels = averages();
    kernels.extend(in_place());
    kernels.extend([("each", false, false), ("pairs", true, false), ("fours", true, true)].map(w_mask));
    kernels
}

#[rustfmt::skip]
fn averages<BD: BitDepth>() -> Vec<Kernel<BD>>
where
    Linked: Library<BD::Pixel>,
{
    vec![
        kernel("avg", 0.3,
            |r| mc::avg(r.bd, &mut r.dst, r.stride, &r.tmp1, &r.tmp2, r.size, r.size),
            |r| unsafe {
                <Linked as Avg<_>>::call(r.depth, r.dst.as_mut_ptr(), r.dst.len(), r.stride, r.tmp1.as_ptr(),
                    r.tmp1.len(), r.tmp2.as_ptr(), r.tmp2.len(), r.size, r.size)
            }),
        kernel("w_avg", 0.3,
            |r| mc::w_avg(r.bd, &mut r.dst, r.stride, &r.tmp1, &r.tmp2, r.size, r.size, WEIGHT),
            |r| unsafe {
                <Linked as WAvg<_>>::call(r.depth, r.dst.as_mut_ptr(), r.dst.len(), r.stride, r.tmp1.as_ptr(),
                    r.tmp1.len(), r.tmp2.as_ptr(), r.tmp2.len(), r.size, r.size, WEIGHT)
            }),
        kernel("mask", 0.3,
            |r| mc::mask_fn(r.bd, &mut r.dst, r.stride, &r.tmp1, &r.tmp2, r.size, r.size, &r.mask),
            |r| unsafe {
                <Linked as Mask<_>>::call(r.depth, r.dst.as_mut_ptr(), r.dst.len(), r.stride, r.tmp1.as_ptr(),
                    r.tmp1.len(), r.tmp2.as_ptr(), r.tmp2.len(), r.size, r.size, r.mask.as_ptr(), r.mask.len())
            }),
    ]
}

#[rustfmt::skip]
fn in_place<BD: BitDepth>() -> Vec<Kernel<BD>>
where
    Linked: Library<BD::Pixel>,
{
    vec![
        kernel("blend", 0.2,
            |r| mc::blend(&mut r.dst, r.stride, &r.src, r.size, r.size, &r.mask),
            |r| unsafe {
                let (mut row, mut col) = (0, 0);
                <Linked as Blend<_>>::call(r.dst.as_mut_ptr(), r.dst.len(), r.stride, r.src.as_ptr(), r.src.len(),
                    r.size, r.size, r.mask.as_ptr(), r.mask.len(), &mut row, &mut col)
            }),
        kernel("morph", 1.0,
            |r| mc::morph(r.bd, &mut r.dst, r.stride, ALPHA, BETA, r.size, r.size),
            |r| unsafe {
                <Linked as Morph<_>>::call(r.depth, r.dst.as_mut_ptr(), r.dst.len(), r.stride, ALPHA, BETA, r.size,
                    r.size)
            }),
    ]
}

/// A subsampling: its name, and whether columns and rows are halved.
#[rustfmt::skip]
fn w_mask<BD: BitDepth>((case, hor, ver): (&str, bool, bool)) -> Kernel<BD>
where
    Linked: Library<BD::Pixel>,
{
    kernel(format!("w_mask {case}"), 0.5,
        move |r| {
            let weights = &mut r.weights;
            mc::w_mask(r.bd, &mut r.dst, r.stride, &r.tmp1, &r.tmp2, r.size, r.size, weights, r.stride, 0, hor, ver);
        },
        move |r| unsafe {
            <Linked as WMask<_>>::call(r.depth, r.dst.as_mut_ptr(), r.dst.len(), r.stride, r.tmp1.as_ptr(),
                r.tmp1.len(), r.tmp2.as_ptr(), r.tmp2.len(), r.size, r.size, r.weights.as_mut_ptr(), r.weights.len(),
                r.stride, 0, hor, ver)
        })
}
