//! Medians of repeated calls, the two sides in turn, so that a slow spell of the machine falls on both.

use std::time::Instant;

use crate::pair::{Pair, Side};

/// Rounds whose median counts, and how long a round lasts at least.
const ROUNDS: usize = 41;
const ROUND_NS: f64 = 50_000.0;

/// Times both sides, and keeps each one's median where it is its least so far.
pub fn time(pair: &mut Pair) {
    let calls_rust = calls_per_round(&mut pair.rust);
    let calls_ours = calls_per_round(&mut pair.ours);
    let mut rust = Vec::with_capacity(ROUNDS);
    let mut ours = Vec::with_capacity(ROUNDS);
    for _ in 0..ROUNDS {
        rust.push(round(&mut pair.rust, calls_rust));
        ours.push(round(&mut pair.ours, calls_ours));
    }
    pair.rust_ns = pair.rust_ns.min(median(rust));
    pair.ours_ns = pair.ours_ns.min(median(ours));
}

/// How many calls fill a round.
fn calls_per_round(call: &mut Side) -> usize {
    let mut calls = 1;
    while round(call, calls) * (calls as f64) < ROUND_NS {
        calls *= 2;
    }
    calls
}

/// Nanoseconds of one call, over a round.
fn round(call: &mut Side, calls: usize) -> f64 {
    let start = Instant::now();
    for _ in 0..calls {
        call();
    }
    start.elapsed().as_nanos() as f64 / calls as f64
}

fn median(mut times: Vec<f64>) -> f64 {
    times.sort_by(f64::total_cmp);
    times[times.len() / 2]
}

/// One call, in a function that a counter of instructions can name.
#[inline(never)]
pub fn counted(call: &mut Side) {
    call();
}
