//! The modes of windows (E12): made-up calls tell the two apart, and orders that take the wrong one. The archive's window
//! is the same in both, and in mode 0 it never is the plane's.

use archive::Linked;
use oracle::amount::Amount;
use oracle::answer::{Answer, Buffer, Px};
use oracle::ask::{Answers, Original};
use oracle::calls::Call;
use oracle::calls::order::{Order, OrderPrep, OrderPut};
use oracle::calls::window::{ALWAYS_SCRATCH, Lie, PLANE_IF_INSIDE, Window};
use oracle::compare::{expected, nth_call, one_entry};
use oracle::lend::Places;
use oracle::library::Library;
use oracle::refuse::Refuse;
use oracle::rules::Rules;

type Ours = Library<Linked, Places>;

const AMOUNT: Amount = Amount { calls: 2000, seed: 12 };

/// The accepted calls of an entry whose window is inside the plane.
fn inside<C: Call + Refuse>(depth: i32, lie: impl Fn(&C) -> Lie) -> Vec<C> {
    let calls = (0..AMOUNT.calls).map(|index| nth_call::<C>(Some(depth), AMOUNT.seed, index));
    calls.filter(|call| call.number() == 0 && lie(call) == Lie::Inside).collect()
}

/// The accepted windows inside the plane.
fn windows<P: Px>(depth: i32) -> Vec<Window<P>> {
    inside(depth, |call: &Window<P>| call.from.lie(&call.block.window()))
}

/// Exchanges the modes, and is right otherwise: what stood before E12.
struct Exchanges;

impl<P: Px> Answers<Window<P>> for Exchanges {
    const REFUSES: bool = true;

    fn answer(call: &Window<P>) -> Answer {
        let mode = if call.mode <= 1 { 1 - call.mode } else { call.mode };
        expected(&Window { mode, ..call.clone() })
    }
}

/// Takes one mode for orders of every kind, and is right otherwise.
struct Takes<const MODE: u32>;

/// What scratch holds after the window of an order was asked for in a mode.
fn scratch<P: Px>(order: &Order<P>, mode: u32) -> Buffer {
    let Order { from, block, scratch, .. } = order.clone();
    expected(&Window { from, block, mode, scratch }).buffers[0].clone()
}

/// An order's answer, but for scratch, which is as this mode leaves it.
fn in_mode<C: Call + Refuse + Rules, P: Px>(call: &C, order: &Order<P>, mode: u32) -> Answer {
    let mut answer = expected(call);
    if answer.number == 0 {
        answer.buffers[0] = scratch(order, mode);
    }
    answer
}

impl<P: Px, const MODE: u32> Answers<OrderPut<P>> for Takes<MODE> {
    const REFUSES: bool = true;

    fn answer(call: &OrderPut<P>) -> Answer {
        in_mode(call, &call.order, MODE)
    }
}

impl<P: Px, const MODE: u32> Answers<OrderPrep<P>> for Takes<MODE> {
    const REFUSES: bool = true;

    fn answer(call: &OrderPrep<P>) -> Answer {
        in_mode(call, &call.order, MODE)
    }
}

/// Each call whose window is inside the plane, and isn't what scratch came with, is answered otherwise by somebody who
/// takes the other mode for its kind, and no other call is.
fn orders_are_caught<P: Px>(depth: i32)
where
    Original: Answers<OrderPut<P>> + Answers<OrderPrep<P>>,
{
    let puts = inside(depth, |call: &OrderPut<P>| call.order.from.lie(&call.order.block.window()));
    let told = |order: &Order<P>| scratch(order, ALWAYS_SCRATCH) != scratch(order, PLANE_IF_INSIDE);
    let of = |kinds: [u32; 2], order: &Order<P>| kinds.contains(&order.block.kind) && told(order);
    let by_kind = |kinds: [u32; 2]| puts.iter().filter(|call| of(kinds, &call.order)).count() as u64;
    let (filled, spared) = (by_kind([0, 3]), by_kind([1, 2]));
    assert!(filled > 100 && spared > 100, "{filled} {spared}");
    let never_spares = one_entry::<OrderPut<P>, Takes<ALWAYS_SCRATCH>>(Some(depth), AMOUNT);
    assert_eq!(never_spares.differences, spared);
    let spares_all = one_entry::<OrderPut<P>, Takes<PLANE_IF_INSIDE>>(Some(depth), AMOUNT);
    assert_eq!(spares_all.differences, filled);
    assert!(one_entry::<OrderPrep<P>, Takes<ALWAYS_SCRATCH>>(Some(depth), AMOUNT).differences > 100);
    assert!(one_entry::<OrderPrep<P>, Takes<PLANE_IF_INSIDE>>(Some(depth), AMOUNT).differences > 100);
}

#[test]
fn both_modes_are_made_equally_often() {
    let windows = windows::<u8>(8);
    let first = windows.iter().filter(|call| call.mode == 0).count();
    assert!(windows.len() > 200 && first.abs_diff(windows.len() - first) < windows.len() / 5, "{first}");
}

#[test]
fn exchanged_modes_are_caught() {
    let inside = windows::<u16>(10).len() as u64;
    let tally = one_entry::<Window<u16>, Exchanges>(Some(10), AMOUNT);
    assert_eq!(tally.differences, inside);
    assert!(tally.rare["window inside the plane, yet in scratch"] > inside / 3, "{:?}", tally.rare);
}

#[test]
fn wrong_modes_of_orders_are_caught() {
    orders_are_caught::<u8>(8);
    orders_are_caught::<u16>(10);
    orders_are_caught::<u16>(12);
}

/// The pixels of a window that the archive names, row by row without gaps.
fn shown<P: Px>(call: &Window<P>) -> (i64, Vec<P>)
where
    Ours: Answers<Window<P>>,
{
    let answer = Ours::answer(call);
    let [buffer, place, stride, len] = answer.results[..] else { panic!("a window has four results") };
    let lent = if buffer == 1 { &call.from.plane } else { P::pixels(&answer.buffers[0]).expect("scratch") };
    let part = &lent[place as usize..(place + len) as usize];
    (buffer, part.chunks(stride as usize).flat_map(|row| &row[..call.block.window().w]).copied().collect())
}

/// Inside the plane the archive's window has the same pixels in both modes, in scratch and in the plane.
fn modes_show_the_same<P: Px>(depth: i32)
where
    Ours: Answers<Window<P>>,
{
    for call in windows::<P>(depth) {
        let [held, own] = [0, 1].map(|mode| shown(&Window { mode, ..call.clone() }));
        assert_eq!((held.0, own.0), (2, 1), "{call:?}");
        assert!(held.1 == own.1, "{call:?}");
    }
}

#[test]
fn the_archives_windows_are_the_same_in_both_modes() {
    modes_show_the_same::<u8>(8);
    modes_show_the_same::<u16>(10);
    modes_show_the_same::<u16>(12);
}
