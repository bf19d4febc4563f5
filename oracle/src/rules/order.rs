//! order_put and order_prep: the kernel's rule on the endless plane, wherever the window lies.

use super::Rules;
use super::window::{endless, filled, in_plane, told};
use crate::answer::{Answer, Buffer, Px, Room};
use crate::ask::Answers;
use crate::calls::order::{Order, OrderPrep, OrderPut};
use crate::calls::window::{ALWAYS_SCRATCH, Block, PLANE_IF_INSIDE};
use crate::kernels::{self, Fetched};

/// Answers each accepted call by its rule.
struct ByRule;

impl<C: Rules> Answers<C> for ByRule {
    const REFUSES: bool = false;

    fn answer(call: &C) -> Answer {
        call.rule()
    }
}

/// The mode of the window of an order's block: 8-tap and bilinear ask for mode 1, copy and warp take the default (E12).
pub fn mode(block: &Block) -> u32 {
    if block.kind == 1 || block.kind == 2 { PLANE_IF_INSIDE } else { ALWAYS_SCRATCH }
}

/// The endless plane's pixels in the order's window, and scratch after the order: as its window's mode leaves it.
fn fetched<P: Px>(order: &Order<P>) -> (Fetched<P>, Buffer) {
    let Order { from, block, scratch, .. } = order;
    let pixels = endless(from, &block.window());
    let after = if in_plane(from, block, mode(block)) { scratch.clone() } else { filled(scratch, &pixels) };
    (Fetched { src: Room(pixels), stride: block.window().w }, P::buffer(after))
}

impl<P: Px> Rules for OrderPut<P> {
    fn rule(&self) -> Answer {
        let (fetched, scratch) = fetched(&self.order);
        Answer::done(vec![], [scratch].into_iter().chain(kernels::put::<P, ByRule>(self, fetched)).collect())
    }

    fn rare(&self) -> Vec<&'static str> {
        told(&self.order.from, &self.order.block, mode(&self.order.block))
    }
}

impl<P: Px> Rules for OrderPrep<P> {
    fn rule(&self) -> Answer {
        let (fetched, scratch) = fetched(&self.order);
        Answer::done(vec![], [scratch].into_iter().chain(kernels::prep::<P, ByRule>(self, fetched)).collect())
    }

    fn rare(&self) -> Vec<&'static str> {
        told(&self.order.from, &self.order.block, mode(&self.order.block))
    }
}
