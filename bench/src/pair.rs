//! A kernel in both forms, and the two on blocks of one size.

use std::rc::Rc;

use archive::*;
use original::pixel::BitDepth;

use crate::kernels;
use crate::room::Room;

/// The library's functions for a pixel.
#[rustfmt::skip]
pub trait Library<P>:
    Put<P> + Prep<P> + Avg<P> + WAvg<P> + Mask<P> + Blend<P> + Morph<P> + WMask<P> + EmuEdge<P> + Put8tap<P>
    + Prep8tap<P> + PutBilin<P> + PrepBilin<P> + Put8tapScaled<P> + Prep8tapScaled<P> + PutBilinScaled<P>
    + PrepBilinScaled<P> + SadNxn<P> + SadRefineMv<P> + WarpAffine<P> + WarpAffineT<P> + OrderPut<P> + OrderPrep<P> {}

impl Library<u8> for Linked {}
impl Library<u16> for Linked {}

/// A kernel: the most that the ratio may be, infinite where no goal is set; the sizes of its blocks; the two sides.
pub struct Kernel<BD: BitDepth> {
    pub name: String,
    pub goal: f64,
    pub sizes: &'static [usize],
    pub rust: Rc<dyn Fn(&mut Room<BD>)>,
    pub ours: Rc<dyn Fn(&mut Room<BD>) -> u32>,
}

pub type Side = Box<dyn FnMut()>;

/// One kernel at one size, as the Rust does it and as we do, with the least median of each.
pub struct Pair {
    pub name: String,
    pub goal: f64,
    pub place: usize,
    pub depth: i32,
    pub size: usize,
    pub rust: Side,
    pub ours: Side,
    pub rust_ns: f64,
    pub ours_ns: f64,
}

/// All kernels at all their sizes.
pub fn pairs<BD: BitDepth>(depth: i32) -> Vec<Pair>
where
    Linked: Library<BD::Pixel>,
{
    let mut all = Vec::new();
    for (place, kernel) in kernels::all::<BD>().iter().enumerate() {
        all.extend(kernel.sizes.iter().map(|size| pair(kernel, place, depth, *size)));
    }
    all
}

/// The two sides of a kernel, each with buffers of its own, after a look that they write the same.
fn pair<BD: BitDepth>(kernel: &Kernel<BD>, place: usize, depth: i32, size: usize) -> Pair {
    let (name, goal) = (kernel.name.clone(), kernel.goal);
    let (rust, ours) = (kernel.rust.clone(), kernel.ours.clone());
    let (mut theirs, mut room) = (Room::new(depth, size), Room::new(depth, size));
    rust(&mut theirs);
    assert_eq!(ours(&mut room), 0, "{name} refuses a block of {size}");
    assert!(theirs.written() == room.written(), "{name} differs at {size}");
    let rust = Box::new(move || rust(&mut theirs));
    let ours = Box::new(move || assert_eq!(ours(&mut room), 0));
    Pair { name, goal, place, depth, size, rust, ours, rust_ns: f64::INFINITY, ours_ns: f64::INFINITY }
}
