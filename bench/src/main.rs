//! Speed of the library against the original Rust, built for release, in one process: markdown tables of the ratios and
//! of the times. A ratio below 1 is faster than the Rust. Words name the kernels to measure, all without them; by the
//! word `count` each is called once, for bench/count. Nothing here is a test, but both sides must write the same.

mod clock;
mod kernels;
mod pair;
mod room;
mod table;

use std::env;

use original::pixel::{BitDepth8, BitDepth16};
use pair::Pair;

/// Times that the whole list is gone through; of each side's medians the least counts.
const PASSES: usize = 5;

fn main() {
    let words: Vec<String> = env::args().skip(1).collect();
    let counts = words.iter().any(|word| word == "count");
    let named: Vec<&str> = words.iter().map(String::as_str).filter(|word| *word != "count").collect();
    let mut pairs = pair::pairs::<BitDepth8>(8);
    pairs.extend(pair::pairs::<BitDepth16>(10));
    pairs.retain(|pair| named.is_empty() || named.iter().any(|word| pair.name.contains(word)));
    pairs.sort_by_key(|pair| (pair.place, pair.depth, pair.size));
    if counts { count(&mut pairs) } else { measure(&mut pairs) }
}

/// Times all pairs and prints the tables.
fn measure(pairs: &mut [Pair]) {
    for _ in 0..PASSES {
        pairs.iter_mut().for_each(clock::time);
    }
    table::print("Ratios", pairs, table::ratio);
    table::print("Nanoseconds of a call, the Rust and ours", pairs, table::times);
}

/// Calls each side of each pair once in `counted`, and names the pairs.
fn count(pairs: &mut [Pair]) {
    for pair in pairs {
        clock::counted(&mut pair.rust);
        clock::counted(&mut pair.ours);
        println!("{}|{}|{}", pair.name, pair.depth, pair.size);
    }
}
