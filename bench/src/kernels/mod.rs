//! The kernels: each is an entry in a list, the Rust's call and ours.

mod combined;
mod copied;
mod filtered;
mod ordered;
mod scaled;
mod searched;
mod warped;

use std::rc::Rc;

use archive::Linked;
use original::pixel::BitDepth;

use crate::pair::{Kernel, Library};
use crate::room::Room;

pub fn all<BD: BitDepth>() -> Vec<Kernel<BD>>
where
    Linked: Library<BD::Pixel>,
{
    let mut kernels = copied::kernels();
    kernels.extend(combined::kernels());
    kernels.extend(filtered::kernels());
    kernels.extend(scaled::kernels());
    kernels.extend(searched::kernels());
    kernels.extend(warped::kernels());
    kernels.extend(ordered::kernels());
    kernels
}

/// A kernel for blocks of all sizes.
fn kernel<BD: BitDepth>(
    name: impl Into<String>,
    goal: f64,
    rust: impl Fn(&mut Room<BD>) + 'static,
    ours: impl Fn(&mut Room<BD>) -> u32 + 'static,
) -> Kernel<BD> {
    Kernel { name: name.into(), goal, sizes: &[4, 8, 16, 64], rust: Rc::new(rust), ours: Rc::new(ours) }
}
