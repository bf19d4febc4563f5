//! Compares somebody's answers, say the library's, on many made-up calls of every entry: accepted calls with the original
//! Rust's answer, which is compared with document 01's rules; refused ones with document 01's number.

use std::collections::BTreeMap;
use std::panic::{self, AssertUnwindSafe};

use archive::Linked;

use crate::amount::Amount;
use crate::answer::Answer;
use crate::ask::{Answers, Original};
use crate::calls::Call;
use crate::cut;
use crate::lend::Places;
use crate::library::Library;
use crate::refuse::Refuse;
use crate::rng::Rng;
use crate::rules::Rules;
use crate::tally::{Tally, print_heads};

/// The call of an entry at a depth with this index under a seed.
pub fn nth_call<C: Call>(depth: Option<i32>, seed: u64, index: u64) -> C {
    let depth = depth.unwrap_or(0);
    C::make(&mut Rng::of_call(seed, C::NAME, depth, index), depth)
}

/// Document 01's whole answer to a call.
pub fn expected<C: Call + Refuse + Rules>(call: &C) -> Answer {
    match call.number() {
        0 => call.rule(),
        number => call.refused(number),
    }
}

/// What is computed, or nothing if that panics.
fn caught<T>(compute: impl FnOnce() -> T) -> Option<T> {
    panic::catch_unwind(AssertUnwindSafe(compute)).ok()
}

/// How an answer differs from the one that is due, in words; nothing stands for a panic.
fn difference(who: &str, due: &Option<Answer>, given: &Option<Answer>) -> Option<String> {
    let text = match (due, given) {
        (Some(due), Some(given)) => due.difference(given)?,
        (None, _) => "no answer to compare with, for a panic".to_string(),
        (_, None) => "panics".to_string(),
    };
    Some(format!("{who}: {text}"))
}

/// How the answers to a call of this number differ, in words.
fn differences<C: Call + Rules, S: Answers<C>>(call: &C, number: u32) -> Vec<String>
where
    Original: Answers<C>,
{
    let accepted = number == 0;
    let due = caught(|| if accepted { Original::answer(call) } else { call.refused(number) });
    let mut texts = vec![];
    if accepted {
        texts.extend(difference("the Rust against the rules", &caught(|| call.rule()), &due));
    }
    if S::THERE && (accepted || S::REFUSES) {
        let who = if accepted { "the C function against the Rust" } else { "the C function on a refused call" };
        texts.extend(difference(who, &due, &caught(|| S::answer(call))));
    }
    texts
}

/// Compares all calls of one entry at one depth.
pub fn one_entry<C: Call + Refuse + Rules, S: Answers<C>>(depth: Option<i32>, amount: Amount) -> Tally
where
    Original: Answers<C>,
{
    let mut tally = Tally {
        name: C::NAME,
        depth,
        there: S::THERE,
        calls: 0,
        differences: 0,
        numbers: BTreeMap::new(),
        rare: BTreeMap::new(),
        first: None,
        possible: C::NUMBERS,
    };
    for index in 0..amount.calls {
        let call: C = nth_call(depth, amount.seed, index);
        count::<C, S>(&mut tally, &call, amount.seed, index);
    }
    tally
}

/// Counts one call and what came of it.
fn count<C: Call + Refuse + Rules, S: Answers<C>>(tally: &mut Tally, call: &C, seed: u64, index: u64)
where
    Original: Answers<C>,
{
    let number = caught(|| call.number());
    let texts = match number {
        Some(number) => differences::<C, S>(call, number),
        None => vec!["document 01's number: panics".to_string()],
    };
    let rare = if number == Some(0) { caught(|| call.rare()).unwrap_or_default() } else { vec![] };
    // Only a call that differs is told, for telling costs time.
    let told = if texts.is_empty() { String::new() } else { format!("seed {seed}, index {index}: {call:?}") };
    tally.count(number, &rare, &texts, &told);
}

/// Runs `$run::<call, $subject>` on every entry and depth, and hands what it gives to `$each` as soon as it is there. With
/// `kernels` before it, on the kernels alone, which have no plane: document 01's, then document 02's scaled ones.
#[macro_export]
macro_rules! every_entry {
    ($run:ident of $subject:ty, $amount:expr, $each:expr) => {{
        $crate::every_entry! { @kernels $run, $subject, $amount, $each }
        $crate::every_entry! { @scaled $run, $subject, $amount, $each }
        $crate::every_entry! { @sets $run, $subject, $amount, $each;
            window::Window, window::Row, order::OrderPut, order::OrderPrep }
        $crate::every_entry! { @shears $run, $subject, $amount, $each }
    }};
    (kernels $run:ident of $subject:ty, $amount:expr, $each:expr) => {{
        $crate::every_entry! { @kernels $run, $subject, $amount, $each }
        $crate::every_entry! { @shears $run, $subject, $amount, $each }
        $crate::every_entry! { @scaled $run, $subject, $amount, $each }
    }};
    (@scaled $run:ident, $subject:ty, $amount:expr, $each:expr) => {
        $crate::every_entry! { @sets $run, $subject, $amount, $each;
            scaled::Put8tapScaled, scaled::Prep8tapScaled, scaled::PutBilinScaled, scaled::PrepBilinScaled }
    };
    (@kernels $run:ident, $subject:ty, $amount:expr, $each:expr) => {
        $crate::every_entry! { @sets $run, $subject, $amount, $each;
            copy::Put, copy::Prep, combine::Avg, combine::WAvg, combine::Mask, combine::Blend, combine::Morph,
            combine::WMask, edge::EmuEdge, subpel::Put8tap, subpel::Prep8tap, bilinear::PutBilin, bilinear::PrepBilin,
            search::SadNxn, search::SadRefineMv, warp::WarpAffine, warp::WarpAffineT }
    };
    (@shears $run:ident, $subject:ty, $amount:expr, $each:expr) => {
        $crate::every_entry! { @plain $run, $subject, $amount, $each;
            shear::ResolveDivisor32, shear::GetShearParams, shear::SetAffineMv2d }
    };
    (@sets $run:ident, $subject:ty, $amount:expr, $each:expr; $($family:ident :: $call:ident),+) => {
        $(
            $each($run::<$crate::calls::$family::$call<u8>, $subject>(Some(8), $amount));
            $each($run::<$crate::calls::$family::$call<u16>, $subject>(Some(10), $amount));
            $each($run::<$crate::calls::$family::$call<u16>, $subject>(Some(12), $amount));
        )+
    };
    (@plain $run:ident, $subject:ty, $amount:expr, $each:expr; $($family:ident :: $call:ident),+) => {
        $($each($run::<$crate::calls::$family::$call, $subject>(None, $amount));)+
    };
}

/// Prints a line for each tally that `run` hands over, then the sum, and says whether all is well.
fn report(run: impl FnOnce(&mut dyn FnMut(Tally))) -> bool {
    // A panic is told as a difference of its call, so the usual message would only be in the way.
    panic::set_hook(Box::new(|_| {}));
    let (mut calls, mut differences, mut astray, mut missing) = (0, 0, 0, 0);
    print_heads();
    run(&mut |tally: Tally| {
        tally.print();
        calls += tally.calls;
        differences += tally.differences;
        astray += tally.astray().len();
        missing += !tally.there as u32;
    });
    let _ = panic::take_hook();
    println!("compared: {calls} calls, {differences} differences");
    // An archive has to have every function.
    differences == 0 && astray == 0 && (missing == 0 || archive::PLACE.is_none())
}

/// Compares the linked archive's functions with the original, and the original with the rules; then blocks that are cut.
pub fn library(amount: Amount) -> bool {
    match archive::PLACE {
        Some(place) => println!("C functions of {place}"),
        None => println!("no archive was found, so the Rust is compared with the rules alone"),
    }
    let well = report(|each| every_entry!(one_entry of Library<Linked, Places>, amount, each));
    cut::run(amount) && well
}
