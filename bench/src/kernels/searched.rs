//! sad_nxn and sad_refine_mv.

use archive::{Linked, SadNxn, SadRefineMv};
use original::mc;
use original::pixel::BitDepth;

use super::kernel;
use crate::pair::{Kernel, Library};

#[rustfmt::skip]
pub fn kernels<BD: BitDepth>() -> Vec<Kernel<BD>>
where
    Linked: Library<BD::Pixel>,
{
    vec![
        kernel("sad_nxn", 1.0,
            |r| r.found.0 = mc::sad_nxn(&r.src, r.stride, &r.second, r.stride, r.size, r.size, r.depth - 8),
            |r| unsafe {
                <Linked as SadNxn<_>>::call(r.depth, r.src.as_ptr(), r.src.len(), r.stride, r.second.as_ptr(),
                    r.second.len(), r.stride, r.size, r.size, &mut r.found.0)
            }),
        kernel("sad_refine_mv", 1.0,
            |r| r.found = mc::sad_refine_mv(&r.src, r.stride, &r.second, r.stride, r.size, r.size, false, r.depth - 8),
            |r| unsafe {
                <Linked as SadRefineMv<_>>::call(r.depth, r.src.as_ptr(), r.src.len(), r.stride, r.second.as_ptr(),
                    r.second.len(), r.stride, r.size, r.size, false, &mut r.found.0, &mut r.found.1)
            }),
    ]
}
