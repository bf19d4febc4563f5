//! Motion compensation for AV2: the functions of `libblocks.a`, safe to call from Rust.
//!
//! A call takes any numbers, tables and slices, empty ones too. It never panics and reads and writes only what it was
//! lent. It does its work, or it gives a [`Refusal`] and changes nothing. The library tests every length and range
//! itself, so nothing here tests them once more.
//!
//! The functions are generic over [`Pixel`], so that both sets are one text: `u8` is the byte set, of depth [`Eight`];
//! `u16` is the 16-bit set, of a [`Depth`] of ten or twelve. Names and the order of parameters are those of
//! `include/hemavolups.h`, which says more of each, with a slice for a pointer and its length. Strides, offsets and
//! places count elements.
//!
//! ```
//! use hemavolups::{Depth, Eight, avg, prep};
//!
//! // Two predictions of one pixel, 200 and 100, and their average, at depth 8 ...
//! let (mut first, mut second, mut dst) = ([0], [0], [0u8]);
//! prep(Eight, &mut first, 1, &[200u8], 1, 1, 1)?;
//! prep(Eight, &mut second, 1, &[100u8], 1, 1, 1)?;
//! avg(Eight, &mut dst, 1, &first, &second, 1, 1)?;
//! assert_eq!((first, second, dst), ([3200], [1600], [150]));
//!
//! // ... and of 1023 with itself, at depth 10.
//! let mut dst = [0u16];
//! prep(Depth::Ten, &mut first, 1, &[1023u16], 1, 1, 1)?;
//! avg(Depth::Ten, &mut dst, 1, &first, &first, 1, 1)?;
//! assert_eq!(dst, [1023]);
//! # Ok::<(), hemavolups::Refusal>(())
//! ```
//!
//! A block that reaches over a plane's border is predicted by an [`Order`].

// The kernels have many parameters.
#![allow(clippy::too_many_arguments)]
#![warn(missing_docs)]

mod bilinear;
mod blend;
mod combine;
mod copy;
mod edge;
mod mask;
mod order;
mod pixel;
mod refusal;
mod scaled;
mod search;
mod shear;
mod subpel;
mod sys;
mod warp;
mod window;

pub use bilinear::{BilinMotion, prep_bilin, put_bilin};
pub use blend::{blend, morph};
pub use combine::{avg, mask, w_avg};
pub use copy::{prep, put};
pub use edge::emu_edge;
pub use mask::w_mask;
pub use order::{Kind, Order, Tables};
pub use pixel::{Depth, Eight, Pixel};
pub use refusal::Refusal;
pub use scaled::{ScaledMotion, prep_8tap_scaled, prep_bilin_scaled, put_8tap_scaled, put_bilin_scaled};
pub use search::{Offset, sad_nxn, sad_refine_mv};
pub use shear::{Divisor, WarpParams, resolve_divisor_32};
pub use subpel::{SubpelMotion, prep_8tap, put_8tap};
pub use warp::{Shears, warp_affine_8x8, warp_affine_8x8t};
pub use window::{Buffer, Frame, Mode, Part, Plane, PlaneName, SCRATCH_LEN};
