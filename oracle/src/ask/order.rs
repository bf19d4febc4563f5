//! window, row and the orders. The original has none of them: document 01's sentences say where a window is, emu_edge
//! fetches it, and the original's own kernel predicts from it.

use original::mc;

use super::{Answers, Original};
use crate::answer::{Answer, Buffer, Px, Room};
use crate::calls::order::{Order, OrderPrep, OrderPut};
use crate::calls::window::{Area, Reference, Row, Window};
use crate::kernels::{self, Fetched};
use crate::rules::Rules;
use crate::rules::order::mode;
use crate::rules::window::{self, filled, in_plane, part};

/// The pixels of an area, without gaps, as emu_edge fetches them.
pub fn fetch<P: Px>(from: &Reference<P>, area: &Area) -> Vec<P> {
    let mut pixels = vec![P::low(0); area.w * area.h];
    let ((iw, ih), x, y) = (from.sides(), area.x as isize, area.y as isize);
    mc::emu_edge(area.w, area.h, iw, ih, x, y, &mut pixels, area.w, &from.plane, from.plane_stride);
    pixels
}

impl<P: Px> Answers<Window<P>> for Original {
    const REFUSES: bool = false;

    fn answer(call: &Window<P>) -> Answer {
        window::answer(call, || fetch(&call.from, &call.block.window()))
    }
}

impl<P: Px> Answers<Row<P>> for Original {
    const REFUSES: bool = false;

    // No pixel is computed, so there is nothing to ask.
    fn answer(call: &Row<P>) -> Answer {
        call.rule()
    }
}

/// What the order's kernel reads, a part of the plane or what emu_edge fetched, and scratch after the order.
fn fetched<P: Px>(order: &Order<P>) -> (Fetched<P>, Buffer) {
    let Order { from, block, scratch, .. } = order;
    if in_plane(from, block, mode(block)) {
        let [_, place, stride, length] = part(from, block, mode(block)).map(|number| number as usize);
        let src = Room(from.plane[place..place + length].to_vec());
        return (Fetched { src, stride }, P::buffer(scratch.clone()));
    }
    let pixels = fetch(from, &block.window());
    let after = P::buffer(filled(scratch, &pixels));
    (Fetched { src: Room(pixels), stride: block.window().w }, after)
}

impl<P: Px> Answers<OrderPut<P>> for Original {
    const REFUSES: bool = false;

    fn answer(call: &OrderPut<P>) -> Answer {
        let (fetched, scratch) = fetched(&call.order);
        Answer::done(vec![], [scratch].into_iter().chain(kernels::put::<P, Original>(call, fetched)).collect())
    }
}

impl<P: Px> Answers<OrderPrep<P>> for Original {
    const REFUSES: bool = false;

    fn answer(call: &OrderPrep<P>) -> Answer {
        let (fetched, scratch) = fetched(&call.order);
        Answer::done(vec![], [scratch].into_iter().chain(kernels::prep::<P, Original>(call, fetched)).collect())
    }
}
