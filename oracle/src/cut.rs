//! Demand 3, run: a block is cut into rectangles, each fetched and predicted by an order of its own, in any order. What
//! comes of it is compared with the block that the original predicts at once, on a plane that its emu_edge has padded.

use archive::Linked;

use crate::amount::Amount;
use crate::answer::{Answer, Buffer, Px, Room};
use crate::ask::order::fetch;
use crate::ask::{Answers, Original};
use crate::calls::order::{self, Order, OrderPrep, OrderPut};
use crate::calls::window::{self, Area, Block, Lie, Wrong};
use crate::kernels::{self, Fetched};
use crate::lend::Places;
use crate::library::Library;
use crate::limits::{self, Faults, need};
use crate::rng::Rng;

/// The kinds that are cut.
const KINDS: [&str; 3] = ["copy", "8-tap", "bilinear"];
/// So far the plane is padded past a block's window.
const PAD: usize = 9;

/// A rectangle of a block, counted from the block's first pixel.
#[derive(Clone, Copy, Debug, PartialEq)]
pub struct Rect {
    pub x: usize,
    pub y: usize,
    pub w: usize,
    pub h: usize,
}

impl Rect {
    /// A rectangle of this one.
    fn part(&self, x: usize, y: usize, w: usize, h: usize) -> Rect {
        Rect { x: self.x + x, y: self.y + y, w, h }
    }
}

/// Five rectangles, four of them about the fifth like the sails of a mill, which no straight cut makes.
fn mill(rng: &mut Rng, rect: &Rect, least: [usize; 2]) -> Vec<Rect> {
    let mut two = |side: usize, least: usize| {
        let first = rng.place(least, side - 2 * least);
        (first, rng.place(first + least, side - least))
    };
    let ((x1, x2), (y1, y2)) = (two(rect.w, least[0]), two(rect.h, least[1]));
    vec![
        rect.part(0, 0, x2, y1),
        rect.part(x2, 0, rect.w - x2, y2),
        rect.part(x1, y2, rect.w - x1, rect.h - y2),
        rect.part(0, y1, x1, rect.h - y1),
        rect.part(x1, y1, x2 - x1, y2 - y1),
    ]
}

/// Cuts a rectangle, and its parts again, until chance or the least sides stop it.
fn cut(rng: &mut Rng, rect: Rect, least: [usize; 2], pieces: &mut Vec<Rect>) {
    let (wide, high) = (rect.w / least[0], rect.h / least[1]);
    if rng.chance(25) || wide.max(high) < 2 {
        return pieces.push(rect);
    }
    let parts = if wide.min(high) >= 3 && rng.chance(30) {
        mill(rng, &rect, least)
    } else if high < 2 || (wide >= 2 && rng.chance(50)) {
        let x = rng.place(least[0], rect.w - least[0]);
        vec![rect.part(0, 0, x, rect.h), rect.part(x, 0, rect.w - x, rect.h)]
    } else {
        let y = rng.place(least[1], rect.h - least[1]);
        vec![rect.part(0, 0, rect.w, y), rect.part(0, y, rect.w, rect.h - y)]
    };
    for part in parts {
        cut(rng, part, least, pieces);
    }
}

/// A block's rectangles in any order: each pixel is in one, and each is on the same side of four as the block.
pub fn pieces(rng: &mut Rng, w: usize, h: usize) -> Vec<Rect> {
    let least = [w, h].map(|side| if side > 4 { 5 } else { 1 });
    let mut pieces = vec![];
    cut(rng, Rect { x: 0, y: 0, w, h }, least, &mut pieces);
    for last in (1..pieces.len()).rev() {
        pieces.swap(last, rng.place(0, last));
    }
    pieces
}

/// Makes up the order of a block. Half of the blocks are placed as if they had no margins, so that more of them have
/// pixels of their own on both sides of a border.
fn candidate<P: Px>(rng: &mut Rng, depth: i32, kind: u32) -> Order<P> {
    let (w, h) = (limits::side(rng, false), limits::side(rng, false));
    let motion = order::motion(rng, &Faults::NONE, kind, [false; 3]);
    let block = Block { kind: rng.pick(&[0, kind]), x: 0, y: 0, w, h };
    let (from, block) = window::place(rng, depth, &Faults::NONE, &Wrong::default(), block);
    // A piece's position must not be past 2^30 either.
    let (x, y) = (block.x.min((1 << 30) - w as i64), block.y.min((1 << 30) - h as i64));
    let block = Block { kind, x, y, w, h };
    let scratch = window::scratch(rng, depth, &Faults::NONE, &block, false);
    Order { depth, from, block, motion, scratch }
}

/// Makes up the order of a block, none of whose pieces is refused: one whose plane isn't too long to be made.
fn draw<P: Px>(rng: &mut Rng, depth: i32, kind: u32) -> Order<P> {
    loop {
        let order: Order<P> = candidate(rng, depth, kind);
        let (iw, ih) = order.from.sides();
        if order.from.plane.len() as u128 >= need(ih, order.from.plane_stride, iw) {
            return order;
        }
    }
}

/// The block of a piece.
fn piece_block(block: &Block, piece: &Rect) -> Block {
    let (x, y) = (block.x + piece.x as i64, block.y + piece.y as i64);
    Block { x, y, w: piece.w, h: piece.h, ..*block }
}

/// The plane about a block, padded by the original's emu_edge, from the window's first pixel on.
fn padded<P: Px>(order: &Order<P>) -> Fetched<P> {
    let Area { x, y, w, h } = order.block.window();
    let (pad, w, h) = (PAD as i64, w + 2 * PAD, h + 2 * PAD);
    let pixels = fetch(&order.from, &Area { x: x - pad, y: y - pad, w, h });
    Fetched { src: Room(pixels[PAD * w + PAD..].to_vec()), stride: w }
}

/// How two buffers differ, in words.
fn difference(due: Option<Buffer>, given: Buffer) -> Option<String> {
    let answer = |buffer: Option<Buffer>| Answer::done(vec![], buffer.into_iter().collect());
    answer(due).difference(&answer(Some(given)))
}

/// What is wrong with a piece's answer, whatever its pixels are.
fn refused(piece: &Rect, answer: &Answer) -> Option<String> {
    let told = |text: String| format!("{piece:?}: {text}");
    let number = (answer.number != 0).then(|| format!("refused with number {}", answer.number));
    answer.harm.clone().or(number).map(told)
}

/// Puts the pieces into one destination, each lent from its first pixel on, and tells how it differs, its gaps and its end
/// too, from what the original makes of it at once.
fn put<P: Px, S: Answers<OrderPut<P>>>(rng: &mut Rng, order: Order<P>, pieces: &[Rect]) -> Option<String> {
    let (block, depth) = (order.block, order.depth);
    let dst_stride = limits::stride(rng, block.w, block.h, false);
    let tail = rng.place(0, 70);
    let mut dst: Room<P> = limits::pixels(rng, depth, (block.h - 1) * dst_stride + block.w + tail);
    let mut call = OrderPut { order, dst: dst.clone(), dst_stride };
    let due = kernels::put::<P, Original>(&call, padded(&call.order));
    for piece in pieces {
        let first = piece.y * dst_stride + piece.x;
        call.order.block = piece_block(&block, piece);
        call.dst = Room(dst[first..].to_vec());
        let answer = S::answer(&call);
        if let Some(text) = refused(piece, &answer) {
            return Some(text);
        }
        let [scratch, lent] = [0, 1].map(|k| answer.buffers.get(k).and_then(P::pixels));
        call.order.scratch = scratch?.clone();
        dst[first..].copy_from_slice(lent?);
    }
    difference(due, P::buffer(dst))
}

/// Prepares each piece into an intermediate of its own, without gaps, and tells how they differ, place by place, from what
/// the original makes of the block at once.
fn prep<P: Px, S: Answers<OrderPrep<P>>>(rng: &mut Rng, order: Order<P>, pieces: &[Rect]) -> Option<String> {
    let block = order.block;
    let tmp = limits::words(rng, block.w * block.h);
    let mut call = OrderPrep { order, tmp: tmp.clone(), tmp_stride: block.w };
    let due = kernels::prep::<P, Original>(&call, padded(&call.order));
    let mut joined = tmp.clone();
    for piece in pieces {
        call.order.block = piece_block(&block, piece);
        call.tmp = Room(tmp[..piece.w * piece.h].to_vec());
        call.tmp_stride = piece.w;
        let answer = S::answer(&call);
        if let Some(text) = refused(piece, &answer) {
            return Some(text);
        }
        let [scratch, Buffer::Shorts(own)] = answer.buffers.as_slice() else { return Some("no tmp".to_string()) };
        call.order.scratch = P::pixels(scratch)?.clone();
        for (row, numbers) in own.chunks(piece.w).enumerate() {
            let first = (piece.y + row) * block.w + piece.x;
            joined[first..first + piece.w].copy_from_slice(numbers);
        }
    }
    difference(due, Buffer::Shorts(joined))
}

/// What came of the blocks of one kind, run and depth.
pub struct Cut {
    pub name: String,
    pub depth: i32,
    /// Does the answerer have the orders?
    pub there: bool,
    pub blocks: u64,
    /// Blocks with some pixels in the plane, but not all.
    pub across: u64,
    /// Blocks with none.
    pub outside: u64,
    pub rectangles: u64,
    /// Blocks that came out otherwise than at once.
    pub differences: u64,
    /// The first of them, in words.
    pub first: Option<String>,
}

/// One way to run the pieces of an order: how it differs, in words.
type Run<P> = fn(&mut Rng, Order<P>, &[Rect]) -> Option<String>;

/// Cuts all blocks of one kind, run and depth.
fn blocks<P: Px>(run: (&str, Run<P>, bool), kind: usize, depth: i32, amount: Amount) -> Cut {
    let (name, run, there) = (format!("{} {}", run.0, KINDS[kind]), run.1, run.2);
    let (across, outside, rectangles, differences) = (0, 0, 0, 0);
    let mut sum = Cut { name, depth, there, blocks: 0, across, outside, rectangles, differences, first: None };
    for index in 0..if there { amount.calls } else { 0 } {
        let mut rng = Rng::of_call(amount.seed, &sum.name, depth, index);
        let order: Order<P> = draw(&mut rng, depth, kind as u32);
        let (block, lie) = (order.block, order.from.lie(&order.block.area()));
        let pieces = pieces(&mut rng, block.w, block.h);
        sum.blocks += 1;
        sum.across += (lie == Lie::Across) as u64;
        sum.outside += (lie == Lie::Outside) as u64;
        sum.rectangles += pieces.len() as u64;
        if let Some(text) = run(&mut rng, order, &pieces) {
            sum.differences += 1;
            sum.first.get_or_insert(format!("seed {}, index {index}: {block:?}: {text}", amount.seed));
        }
    }
    sum
}

/// Somebody who runs orders, of both sets and in both ways.
pub trait Orders:
    Answers<OrderPut<u8>> + Answers<OrderPut<u16>> + Answers<OrderPrep<u8>> + Answers<OrderPrep<u16>>
{
}

impl<S> Orders for S where
    S: Answers<OrderPut<u8>> + Answers<OrderPut<u16>> + Answers<OrderPrep<u8>> + Answers<OrderPrep<u16>>
{
}

/// Cuts blocks of each kind, run and depth, and hands over what came of them.
pub fn every_block<S: Orders>(amount: Amount, mut each: impl FnMut(Cut)) {
    for kind in 0..KINDS.len() {
        let bytes: [(&str, Run<u8>, bool); 2] = [
            ("put", put::<u8, S>, <S as Answers<OrderPut<u8>>>::THERE),
            ("prep", prep::<u8, S>, <S as Answers<OrderPrep<u8>>>::THERE),
        ];
        let words: [(&str, Run<u16>, bool); 2] = [
            ("put", put::<u16, S>, <S as Answers<OrderPut<u16>>>::THERE),
            ("prep", prep::<u16, S>, <S as Answers<OrderPrep<u16>>>::THERE),
        ];
        for run in 0..2 {
            each(blocks(bytes[run], kind, 8, amount));
            each(blocks(words[run], kind, 10, amount));
            each(blocks(words[run], kind, 12, amount));
        }
    }
}

/// Prints one line of the columns.
fn print(sum: &Cut) {
    let Cut { name, depth, blocks, across, outside, rectangles, differences, .. } = sum;
    let there = if sum.there { "compared" } else { "not in the archive" };
    println!("{name:<18} {depth:>5} {blocks:>9} {across:>9} {outside:>9} {rectangles:>11} {differences:>11}  {there}");
    if let Some(first) = &sum.first {
        println!("  first difference: {first}");
    }
}

/// Cuts blocks through the linked archive's orders, prints a line for each kind, run and depth and the sum, and says
/// whether nothing differs.
pub fn run(amount: Amount) -> bool {
    let (mut blocks, mut rectangles, mut differences) = (0, 0, 0);
    println!(
        "{:<18} {:>5} {:>9} {:>9} {:>9} {:>11} {:>11}",
        "cut", "depth", "blocks", "across", "outside", "rectangles", "differences"
    );
    every_block::<Library<Linked, Places>>(amount, |sum| {
        print(&sum);
        blocks += sum.blocks;
        rectangles += sum.rectangles;
        differences += sum.differences;
    });
    println!("cut: {blocks} blocks into {rectangles} rectangles, {differences} differences");
    differences == 0
}
