//! A picture of 641 x 9 with both flags (E3): its chroma is 321 x 5. Two pictures that differ in the last chroma column
//! alone are told apart by windows, rows and orders of every kind, and each answer is that of the whole plane.

use archive::Linked;
use oracle::amount::Amount;
use oracle::answer::{Answer, Buffer, Px, Room};
use oracle::ask::Answers;
use oracle::calls::Call;
use oracle::calls::order::{Motion, Order, OrderPrep, OrderPut};
use oracle::calls::window::{ALWAYS_SCRATCH, Block, PLANE_IF_INSIDE, Reference, Row, Window};
use oracle::compare::{expected, one_entry};
use oracle::lend::Places;
use oracle::library::Library;
use oracle::refuse::Refuse;
use oracle::rules::Rules;
use oracle::tables::{real_ext, real_subpel, real_warp};

type Ours = Library<Linked, Places>;

/// Chroma's sides: luma's divided by two, rounded up.
const W: usize = 321;
const H: usize = 5;
/// The last column, which luma's last one lies over.
const LAST: usize = 320;

/// The chroma plane whose pixels in the last column are so much brighter.
fn chroma<P: Px>(brighter: i64) -> Reference<P> {
    let pixel = |place: usize| (place * 37 % 101) as i64 + if place % W == LAST { brighter } else { 0 };
    let plane = Room((0..W * H).map(|place| P::low(pixel(place))).collect());
    Reference { luma_w: 641, luma_h: 9, ss_hor: true, ss_ver: true, plane_no: 1, plane, plane_stride: W }
}

/// The two pictures.
fn pictures<P: Px>() -> [Reference<P>; 2] {
    [chroma(0), chroma(90)]
}

/// The C function's answer, which has to be the whole plane's.
fn answer<C: Call + Refuse + Rules>(call: &C) -> Answer
where
    Ours: Answers<C>,
{
    let answer = Ours::answer(call);
    assert_eq!(expected(call).difference(&answer), None, "{call:?}");
    assert_eq!(answer.number, 0, "{call:?}");
    answer
}

/// An order for a block of 8 x 8 at these places, at a fraction on both axes.
fn order<P: Px>(depth: i32, from: Reference<P>, kind: u32, x: i64, y: i64) -> Order<P> {
    let motion = Motion {
        mx: 6,
        my: 9,
        filter_type: 0,
        abcd: [64, -64, 128, 0],
        subpel: real_subpel(),
        ext: real_ext(),
        warp: real_warp(),
    };
    let scratch = Room(vec![P::low(1); 15 * 15]);
    Order { depth, from, block: Block { kind, x, y, w: 8, h: 8 }, motion, scratch }
}

/// What an order writes as put, and as prep.
fn written<P: Px>(order: Order<P>) -> [Buffer; 2]
where
    Ours: Answers<OrderPut<P>> + Answers<OrderPrep<P>>,
{
    let put = answer(&OrderPut { order: order.clone(), dst: Room(vec![P::low(2); 64]), dst_stride: 8 });
    let prep = answer(&OrderPrep { order, tmp: Room(vec![3; 64]), tmp_stride: 8 });
    [put, prep].map(|answer| answer.buffers[1].clone())
}

/// Orders of every kind see the last column: of a block that ends with it, one across the border, and one beyond.
fn orders_see_it<P: Px>(depth: i32)
where
    Ours: Answers<OrderPut<P>> + Answers<OrderPrep<P>>,
{
    for kind in 0..4 {
        for (x, y) in [(313, -2), (317, 1), (330, 40)] {
            let [dark, bright] = pictures::<P>().map(|from| written(order(depth, from, kind, x, y)));
            assert_ne!(dark[0], bright[0], "put, kind {kind} at {x}, {y}");
            assert_ne!(dark[1], bright[1], "prep, kind {kind} at {x}, {y}");
        }
    }
}

/// Windows and rows name it: in the plane, in scratch, and at a row's end.
fn parts_name_it<P: Px>()
where
    Ours: Answers<Window<P>> + Answers<Row<P>>,
{
    let from = chroma::<P>(90);
    let corner = from.plane[4 * W + LAST];
    let block = Block { kind: 0, x: LAST as i64, y: 4, w: 1, h: 1 };
    let window = |mode| answer(&Window { from: from.clone(), block, mode, scratch: Room(vec![P::low(0)]) });
    assert_eq!(window(PLANE_IF_INSIDE).results, [1, 4 * 321 + 320, 321, 1]);
    assert_eq!(window(ALWAYS_SCRATCH), Answer::done(vec![2, 0, 1, 1], vec![P::buffer(Room(vec![corner]))]));
    for row in 0..5 {
        assert_eq!(answer(&Row { from: from.clone(), row }).results, [1, row * 321, 321, 321]);
    }
    assert_eq!(Ours::answer(&Row { from, row: 5 }).number, 3);
}

#[test]
fn chroma_of_641_by_9_is_321_by_5() {
    assert_eq!(chroma::<u8>(0).sides(), (W, H));
}

#[test]
fn the_last_column_is_seen() {
    orders_see_it::<u8>(8);
    orders_see_it::<u16>(10);
    orders_see_it::<u16>(12);
}

#[test]
fn the_last_column_is_named() {
    parts_name_it::<u8>();
    parts_name_it::<u16>();
}

/// Is right but for chroma's sides, which it rounds down.
struct RoundsDown;

impl<P: Px> Answers<Row<P>> for RoundsDown {
    const REFUSES: bool = true;

    fn answer(call: &Row<P>) -> Answer {
        let mut call = call.clone();
        let from = &mut call.from;
        from.luma_w -= (from.luma_w % 2) * (from.plane_no == 1 && from.ss_hor) as usize;
        from.luma_h -= (from.luma_h % 2) * (from.plane_no == 1 && from.ss_ver) as usize;
        expected(&call)
    }
}

#[test]
fn made_up_calls_tell_the_roundings_apart() {
    let tally = one_entry::<Row<u8>, RoundsDown>(Some(8), Amount { calls: 1000, seed: 3 });
    assert!(tally.rare["chroma of an odd luma side"] > 100, "{:?}", tally.rare);
    assert!(tally.differences > 100, "{}", tally.differences);
}
