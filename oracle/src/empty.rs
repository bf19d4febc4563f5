//! Each call with one of its slices empty, slice by slice, so that a null pointer can be handed over for it.

use crate::answer::Px;
use crate::calls::bilinear::{PrepBilin, PutBilin};
use crate::calls::combine::{Avg, Blend, Mask, Morph, WAvg, WMask};
use crate::calls::copy::{Prep, Put};
use crate::calls::edge::EmuEdge;
use crate::calls::order::{OrderPrep, OrderPut};
use crate::calls::scaled::{Prep8tapScaled, PrepBilinScaled, Put8tapScaled, PutBilinScaled};
use crate::calls::search::{SadNxn, SadRefineMv};
use crate::calls::shear::{GetShearParams, ResolveDivisor32, SetAffineMv2d};
use crate::calls::subpel::{Prep8tap, Put8tap};
use crate::calls::warp::{WarpAffine, WarpAffineT};
use crate::calls::window::{Row, Window};

/// A call whose slices are known.
pub trait Slices: Sized {
    /// The call once for each of its slices, which is empty there, with the slice's name. All else is as it was.
    fn emptied(&self) -> Vec<(&'static str, Self)>;
}

/// The slices of each call, by the fields that hold them.
macro_rules! slices {
    ($($call:ident $(<$pixel:ident>)? { $($($field:tt).+),* })+) => {
        $(impl $(<$pixel: Px>)? Slices for $call $(<$pixel>)? {
            fn emptied(&self) -> Vec<(&'static str, Self)> {
                vec![$({
                    let mut call = self.clone();
                    call.$($field).+.clear();
                    (stringify!($($field).+), call)
                }),*]
            }
        })+
    };
}

slices! {
    Put<P> { dst, src }
    Prep<P> { tmp, src }
    Avg<P> { 0.dst, 0.tmp1, 0.tmp2 }
    WAvg<P> { pair.dst, pair.tmp1, pair.tmp2 }
    Mask<P> { pair.dst, pair.tmp1, pair.tmp2, mask }
    Blend<P> { dst, tmp, mask }
    Morph<P> { dst }
    WMask<P> { pair.dst, pair.tmp1, pair.tmp2, mask }
    EmuEdge<P> { dst, plane }
    Put8tap<P> { dst, from.src, from.subpel, from.ext }
    Prep8tap<P> { tmp, from.src, from.subpel, from.ext }
    PutBilin<P> { dst, from.src }
    PrepBilin<P> { tmp, from.src }
    SadNxn<P> { p0, p1 }
    SadRefineMv<P> { planes.p0, planes.p1 }
    WarpAffine<P> { dst, from.src, from.warp }
    WarpAffineT<P> { tmp, from.src, from.warp }
    Put8tapScaled<P> { dst, from.src, by.subpel }
    Prep8tapScaled<P> { tmp, from.src, by.subpel }
    PutBilinScaled<P> { dst, from.src }
    PrepBilinScaled<P> { tmp, from.src }
    Window<P> { from.plane, scratch }
    Row<P> { from.plane }
    OrderPut<P> { order.from.plane, order.motion.subpel, order.motion.ext, order.motion.warp, order.scratch, dst }
    OrderPrep<P> { order.from.plane, order.motion.subpel, order.motion.ext, order.motion.warp, order.scratch, tmp }
    ResolveDivisor32 { recip }
    GetShearParams { recip }
    SetAffineMv2d {}
}

#[cfg(test)]
mod tests {
    use super::Slices;
    use crate::amount::Amount;
    use crate::calls::Call;
    use crate::compare::nth_call;
    use crate::every_entry;

    const HEADER: &str = include_str!("../../include/hemavolups.h");

    /// How many slices the header's function of this name has: each has a length.
    fn in_header(name: &str) -> usize {
        let (_, after) = HEADER.split_once(&format!(" {name}(")).expect("the header has the function");
        let (parameters, _) = after.split_once(");").expect("a declaration ends");
        parameters.matches("_len").count()
    }

    /// Are the slices of a call as many as the header's, and different ones? Nobody is asked, but `every_entry!` names
    /// somebody.
    #[allow(clippy::extra_unused_type_parameters)]
    fn holds<C: Call + Slices, A>(depth: Option<i32>, amount: Amount) {
        let set = depth.map_or("", |depth| if depth == 8 { "_8bpc" } else { "_16bpc" });
        let call: C = nth_call(depth, amount.seed, 0);
        let mut names: Vec<&str> = call.emptied().iter().map(|(name, _)| *name).collect();
        names.sort();
        names.dedup();
        assert_eq!(names.len(), in_header(&format!("hv_{}{set}", C::NAME)), "{} has {names:?}", C::NAME);
    }

    #[test]
    fn every_slice_of_the_header_is_emptied() {
        every_entry!(holds of (), Amount { calls: 1, seed: 1 }, |()| ());
    }
}
