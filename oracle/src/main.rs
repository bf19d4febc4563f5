//! `oracle`: the worked numbers. `oracle compare [N] [SEED]`: the library's C functions against the original, and the
//! original against document 01's rules. `oracle guard [N] [SEED]`: the C functions on buffers at unreadable pages, and on
//! null slices. `oracle cut [N] [SEED]`: blocks cut into rectangles, which `compare` does too. `oracle differences`: where
//! the original and document 01 part. `oracle record N SEED FILE`: the list of the original's answers that the program
//! `replay` reads. `oracle stack [N] [SEED]`, if it was built for that (bench/stack): the stack that the C functions use.

use std::process::ExitCode;

use oracle::amount::Amount;
use oracle::compare;
use oracle::{cut, differences, guard, record, worked};

const USAGE: &str = "usage: oracle | oracle compare [N] [SEED] | oracle guard [N] [SEED] | oracle cut [N] [SEED] | \
                     oracle differences | oracle record N SEED FILE";

fn main() -> ExitCode {
    let arguments: Vec<String> = std::env::args().skip(1).collect();
    let words: Vec<&str> = arguments.iter().map(String::as_str).collect();
    let well = match words.as_slice() {
        [] => worked::print(),
        ["compare", numbers @ ..] => amount(numbers).map_or_else(usage, compare::library),
        ["guard", numbers @ ..] => amount(numbers).map_or_else(usage, guard::run),
        ["cut", numbers @ ..] => amount(numbers).map_or_else(usage, cut::run),
        #[cfg(feature = "stack")]
        ["stack", numbers @ ..] => amount(numbers).map_or_else(usage, oracle::stack::run),
        ["differences"] => {
            differences::print();
            true
        }
        ["record", numbers @ .., file] => amount(numbers).map_or_else(usage, |all| record::write(all, file)),
        _ => usage(),
    };
    if well { ExitCode::SUCCESS } else { ExitCode::FAILURE }
}

/// Number of calls and seed from the words after a command.
fn amount(numbers: &[&str]) -> Option<Amount> {
    let parsed: Result<Vec<u64>, _> = numbers.iter().map(|word| word.parse()).collect();
    match parsed.ok()?.as_slice() {
        [] => Some(Amount { calls: 20_000, seed: 1 }),
        [calls] => Some(Amount { calls: *calls, seed: 1 }),
        [calls, seed] => Some(Amount { calls: *calls, seed: *seed }),
        _ => None,
    }
}

/// Says how the program is called.
fn usage() -> bool {
    eprintln!("{USAGE}");
    false
}
