//! The library behind its C interface: lends each call's buffers to the C function and takes its whole answer.

mod bilinear;
mod combine;
mod copy;
mod edge;
mod order;
mod scaled;
mod search;
mod shear;
mod subpel;
mod warp;
mod window;

use std::marker::PhantomData;

use crate::answer::{Answer, Buffer, Px, Room};
use crate::lend::{Ground, Lent};

/// Answers by the functions of A (the linked archive, or what stands in for it), with buffers that stand on G.
pub struct Library<A, G>(PhantomData<(A, G)>);

/// The whole answer of a function that writes one buffer of pixels.
fn pixels<P: Px, G: Ground>(number: u32, dst: &Lent<P, G>, harm: Option<String>) -> Answer {
    let buffers = vec![P::buffer(Room(dst.now().to_vec()))];
    Answer { number, results: vec![], buffers, harm: dst.guards().or(harm) }
}

/// The whole answer of a function that writes one buffer of intermediates.
fn shorts<G: Ground>(number: u32, tmp: &Lent<i16, G>, harm: Option<String>) -> Answer {
    let buffers = vec![Buffer::Shorts(Room(tmp.now().to_vec()))];
    Answer { number, results: vec![], buffers, harm: tmp.guards().or(harm) }
}
