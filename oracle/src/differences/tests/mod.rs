//! A row for each test of each entry. Each family has a call of w x h that is accepted; a row changes what one test is
//! about and nothing else. Rows are of bytes, for the tests and the Rust's code are one for both sets; the depth's rows
//! are of 16-bit pixels, which alone have one.

mod bilinear;
mod combine;
mod copy;
mod edge;
mod scaled;
mod search;
mod shear;
mod subpel;
mod warp;

use super::case;
use super::run::Run;
use crate::answer::{Px, Room};
use crate::calls::Call;
use crate::refuse::Refuse;

/// The rows of every entry.
pub fn cases() -> Vec<String> {
    let still = [copy::cases(), combine::cases(), edge::cases()];
    let moved = [subpel::cases(), bilinear::cases(), scaled::cases(), search::cases(), warp::cases(), shear::cases()];
    [still.concat(), moved.concat()].concat()
}

/// The smallest stride above the greatest accepted one.
const FAR: usize = 32_769;

/// What a change is about, and the change.
type Change<C> = (&'static str, fn(&mut C));

/// A row for each change of an accepted call.
fn changes<C: Call + Refuse + Run + Clone>(accepted: &C, changes: &[Change<C>]) -> Vec<String> {
    parts(accepted, |call| call, changes)
}

/// A row for each change of a part of an accepted call.
fn parts<C: Call + Refuse + Run + Clone, S>(
    accepted: &C,
    part: fn(&mut C) -> &mut S,
    changes: &[Change<S>],
) -> Vec<String> {
    assert_eq!(accepted.number(), 0, "{accepted:?}");
    let row = |(what, change): &Change<S>| {
        let mut call = accepted.clone();
        change(part(&mut call));
        refused(what, call)
    };
    changes.iter().map(row).collect()
}

/// The row of a call that is refused.
fn refused<C: Call + Refuse + Run>(what: &str, call: C) -> String {
    assert_ne!(call.number(), 0, "{call:?}");
    case(what, call)
}

/// A row for each side of a block outside 1 to 64; `sized` makes the call of w x h.
fn sides<C: Call + Refuse + Run>(sized: fn(usize, usize) -> C) -> Vec<String> {
    let named = [("w 0", 0, 1), ("w 65", 65, 1), ("h 0", 1, 0), ("h 65", 1, 65)];
    named.map(|(what, w, h)| refused(what, sized(w, h))).to_vec()
}

/// A row for each of three depths that the 16-bit set doesn't have; `depth` gives the call's own.
fn depths<C: Call + Refuse + Run + Clone>(accepted: &C, depth: fn(&mut C) -> &mut i32) -> Vec<String> {
    let outside: [Change<i32>; 3] = [
        ("16-bit pixels at depth 8", |d| *d = 8),
        ("16-bit pixels at depth 11", |d| *d = 11),
        ("16-bit pixels at depth 16", |d| *d = 16),
    ];
    parts(accepted, depth, &outside)
}

/// The depth of a set's accepted calls.
fn depth<P: Px>() -> i32 {
    if P::TAKES_DEPTH { 10 } else { 8 }
}

/// A written buffer of so many pixels, one at least, nines.
fn nines<P: Px>(places: usize) -> Room<P> {
    Room(vec![P::low(9); places.max(1)])
}

/// A written buffer of so many intermediates, one at least, nines.
fn shorts(places: usize) -> Room<i16> {
    Room(vec![9; places.max(1)])
}

/// A read buffer of so many pixels, one at least: 1, 2, 3 to 97, and again.
fn ramp<P: Px>(places: usize) -> Room<P> {
    Room((0..places.max(1)).map(|place| P::low(1 + place as i64 % 97)).collect())
}

/// The places of a source without gaps that has so many more rows and columns than the block; a side of 0 counts as 1.
fn reach(w: usize, h: usize, more: usize) -> usize {
    w.max(1) * (h.max(1) + more) + more
}
