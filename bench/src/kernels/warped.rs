//! warp_affine_8x8 and warp_affine_8x8t.

use archive::{Linked, WarpAffine, WarpAffineT};
use original::mc;
use original::pixel::BitDepth;

use super::kernel;
use crate::pair::{Kernel, Library};

const MX: i32 = 1200;
const MY: i32 = -900;

#[rustfmt::skip]
pub fn kernels<BD: BitDepth>() -> Vec<Kernel<BD>>
where
    Linked: Library<BD::Pixel>,
{
    let put = kernel("warp_affine_8x8", 0.6,
        |r| mc::warp_affine_8x8(r.bd, &mut r.dst, r.stride, &r.src, r.stride, r.start, &r.shears, MX, MY),
        |r| unsafe {
            let [a, b, c, d] = r.shears;
            <Linked as WarpAffine<_>>::call(r.depth, r.dst.as_mut_ptr(), r.dst.len(), r.stride, r.src.as_ptr(),
                r.src.len(), r.stride, r.start, a, b, c, d, MX, MY, r.warp.as_ptr(), r.warp.len())
        });
    let prep = kernel("warp_affine_8x8t", 0.6,
        |r| mc::warp_affine_8x8t(r.bd, &mut r.tmp, r.stride, &r.src, r.stride, r.start, &r.shears, MX, MY),
        |r| unsafe {
            let [a, b, c, d] = r.shears;
            <Linked as WarpAffineT<_>>::call(r.depth, r.tmp.as_mut_ptr(), r.tmp.len(), r.stride, r.src.as_ptr(),
                r.src.len(), r.stride, r.start, a, b, c, d, MX, MY, r.warp.as_ptr(), r.warp.len())
        });
    [put, prep].map(|kernel| Kernel { sizes: &[8], ..kernel }).into()
}
