//! Blocks that are cut: the rectangles are as demand 3 has them, right orders pass, and wrong ones are caught.

use oracle::amount::Amount;
use oracle::answer::{Answer, Buffer, Px};
use oracle::ask::Answers;
use oracle::calls::order::{Order, OrderPrep, OrderPut};
use oracle::calls::window::Lie;
use oracle::compare::expected;
use oracle::cut::{Cut, Orders, every_block, pieces};
use oracle::rng::Rng;

const AMOUNT: Amount = Amount { calls: 200, seed: 11 };

/// What somebody does wrong who runs orders as document 01 says otherwise.
trait Fault {
    /// Changes the order.
    fn before<P: Px>(_order: &mut Order<P>) {}

    /// Changes the destination, of this stride, that an order wrote.
    fn after(_buffer: &mut Buffer, _stride: usize) {}
}

/// Somebody who is right but for a fault.
struct But<F>(std::marker::PhantomData<F>);

impl<P: Px, F: Fault> Answers<OrderPut<P>> for But<F> {
    const REFUSES: bool = true;

    fn answer(call: &OrderPut<P>) -> Answer {
        let mut call = call.clone();
        F::before(&mut call.order);
        let mut answer = expected(&call);
        F::after(&mut answer.buffers[1], call.dst_stride);
        answer
    }
}

impl<P: Px, F: Fault> Answers<OrderPrep<P>> for But<F> {
    const REFUSES: bool = true;

    fn answer(call: &OrderPrep<P>) -> Answer {
        let mut call = call.clone();
        F::before(&mut call.order);
        let mut answer = expected(&call);
        F::after(&mut answer.buffers[1], call.tmp_stride);
        answer
    }
}

/// No fault.
struct Nothing;

impl Fault for Nothing {}

/// Predicts from the wrong column where the window isn't inside the plane.
struct WrongColumn;

impl Fault for WrongColumn {
    fn before<P: Px>(order: &mut Order<P>) {
        if order.from.lie(&order.block.window()) != Lie::Inside {
            order.block.x -= 1;
        }
    }
}

/// Changes the last place that it was lent: outside the block where that is longer.
struct WritesAtEnd;

impl Fault for WritesAtEnd {
    fn after(buffer: &mut Buffer, _stride: usize) {
        match buffer {
            Buffer::Bytes(room) => room.last_mut().into_iter().for_each(|place| *place = place.wrapping_add(1)),
            Buffer::Words(room) => room.last_mut().into_iter().for_each(|place| *place = place.wrapping_add(1)),
            _ => (),
        }
    }
}

/// What came of the blocks of somebody, line by line.
fn sums<S: Orders>() -> Vec<Cut> {
    let mut sums = vec![];
    every_block::<S>(AMOUNT, |sum| sums.push(sum));
    sums
}

#[test]
fn each_pixel_is_in_one_rectangle() {
    let mut rng = Rng::new(5);
    for (w, h) in [(1, 1), (4, 4), (5, 4), (4, 9), (10, 10), (64, 1), (64, 64), (17, 33)] {
        for _ in 0..50 {
            let mut covered = vec![0; w * h];
            for piece in pieces(&mut rng, w, h) {
                assert_eq!((piece.w > 4, piece.h > 4), (w > 4, h > 4));
                let rows = piece.y..piece.y + piece.h;
                rows.for_each(|y| (piece.x..piece.x + piece.w).for_each(|x| covered[y * w + x] += 1));
            }
            assert!(covered.iter().all(|times| *times == 1), "{w} x {h}");
        }
    }
}

#[test]
fn right_orders_pass() {
    for sum in sums::<But<Nothing>>() {
        assert_eq!(sum.differences, 0, "{}: {:?}", sum.name, sum.first);
        assert!(2 * (sum.across + sum.outside) >= sum.blocks, "{}: too few blocks at a border", sum.name);
    }
}

#[test]
fn a_wrong_column_is_caught() {
    for sum in sums::<But<WrongColumn>>() {
        assert!(sum.differences > sum.blocks / 20, "{}: {}", sum.name, sum.differences);
    }
}

#[test]
fn a_place_outside_the_block_is_caught() {
    for sum in sums::<But<WritesAtEnd>>().into_iter().filter(|sum| sum.name.starts_with("put")) {
        assert_eq!(sum.differences, sum.blocks, "{}", sum.name);
    }
}
