//! The comparison itself: it passes an answerer that is right, refusals too, and catches those that are wrong.

use oracle::amount::Amount;
use oracle::answer::{Answer, Buffer};
use oracle::ask::{Answers, Original};
use oracle::calls::Call;
use oracle::compare::{expected, one_entry};
use oracle::every_entry;
use oracle::refuse::Refuse;
use oracle::rng::Rng;
use oracle::rules::Rules;
use oracle::tally::Tally;

const AMOUNT: Amount = Amount { calls: 1000, seed: 3 };

/// Answers as document 01 says.
struct Right;

impl<C: Call + Refuse + Rules> Answers<C> for Right {
    const REFUSES: bool = true;

    fn answer(call: &C) -> Answer {
        expected(call)
    }
}

/// Refuses everything with number 1.
struct RefusesAll;

impl<C: Call> Answers<C> for RefusesAll {
    const REFUSES: bool = true;

    fn answer(call: &C) -> Answer {
        call.refused(1)
    }
}

/// Refuses nothing: where it should, it says done and leaves everything.
struct RefusesNothing;

impl<C: Call + Refuse + Rules> Answers<C> for RefusesNothing {
    const REFUSES: bool = true;

    fn answer(call: &C) -> Answer {
        if call.number() == 0 { call.rule() } else { call.refused(0) }
    }
}

/// How many of an entry's calls give this number.
fn given(tally: &Tally, number: u32) -> u64 {
    tally.numbers.get(&number).copied().unwrap_or(0)
}

#[test]
fn right_answers_pass() {
    every_entry!(one_entry of Right, AMOUNT, |tally: Tally| {
        assert_eq!(tally.differences, 0, "{}: {:?}", tally.name, tally.first);
        assert_eq!(tally.astray(), vec![], "{}", tally.name);
    });
}

#[test]
fn refusing_everything_is_caught() {
    every_entry!(one_entry of RefusesAll, AMOUNT, |tally: Tally| {
        assert_eq!(tally.differences, tally.calls - given(&tally, 1), "{}", tally.name);
    });
}

#[test]
fn refusing_nothing_is_caught() {
    every_entry!(one_entry of RefusesNothing, AMOUNT, |tally: Tally| {
        assert_eq!(tally.differences, tally.calls - tally.accepted(), "{}", tally.name);
    });
}

/// A call whose rule panics.
#[derive(Debug)]
struct Panics;

impl Call for Panics {
    const NAME: &'static str = "panics";
    const NUMBERS: &'static [u32] = &[];
    const RESULTS: usize = 0;

    fn make(_: &mut Rng, _: i32) -> Self {
        Panics
    }

    fn lent(&self) -> Vec<Buffer> {
        vec![]
    }
}

impl Refuse for Panics {
    fn number(&self) -> u32 {
        0
    }
}

impl Rules for Panics {
    fn rule(&self) -> Answer {
        panic!("the rule panics")
    }
}

impl Answers<Panics> for Original {
    const REFUSES: bool = false;

    fn answer(_: &Panics) -> Answer {
        Answer::done(vec![], vec![])
    }
}

#[test]
fn a_panic_in_the_rules_is_a_difference() {
    assert_eq!(one_entry::<Panics, Original>(None, Amount { calls: 2, seed: 1 }).differences, 2);
}

#[test]
fn worked_numbers_are_right() {
    assert!(oracle::worked::print());
}
