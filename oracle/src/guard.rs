//! Runs the C functions on buffers that end or begin exactly at an unreadable page: a place read or written there ends
//! the program with a signal, and the line that was begun says in whose calls. Then on null pointers with length 0.

use std::io::{self, Write};

use archive::Linked;

use crate::amount::Amount;
use crate::ask::Answers;
use crate::calls::Call;
use crate::compare::{expected, nth_call};
use crate::empty::Slices;
use crate::every_entry;
use crate::library::Library;
use crate::pages::{BeginsAfterPage, EndsAtPage, NullIfEmpty};
use crate::refuse::Refuse;
use crate::rules::Rules;
use crate::tally::shown;

/// What came of an entry's calls at one depth.
pub struct Guarded {
    pub calls: u64,
    /// Calls that changed a guard place or a buffer that is only read, or that answered a null slice otherwise than the
    /// rules answer an empty one.
    pub harmful: u64,
}

/// Makes all calls of one entry at one depth, and counts those that do harm.
fn harmful_calls<C: Call, S: Answers<C>>(depth: Option<i32>, amount: Amount) -> u64 {
    let mut harmful = 0;
    for index in 0..amount.calls {
        let call: C = nth_call(depth, amount.seed, index);
        if let Some(harm) = S::answer(&call).harm {
            harmful += 1;
            println!("\nseed {}, index {index}: {harm}\n  {call:?}", amount.seed);
        }
    }
    harmful
}

/// Makes each call of one entry at one depth once for each of its slices, which is null with length 0, the rest as it
/// is, and counts the answers that differ from the rules'. These know of no null: to them the slice is empty, which most
/// calls are refused for; a table that isn't used may be.
fn null_calls<C: Call + Refuse + Rules + Slices, S: Answers<C>>(depth: Option<i32>, amount: Amount) -> Guarded {
    let mut guarded = Guarded { calls: 0, harmful: 0 };
    for index in 0..amount.calls {
        for (slice, call) in nth_call::<C>(depth, amount.seed, index).emptied() {
            guarded.calls += 1;
            if let Some(text) = expected(&call).difference(&S::answer(&call)) {
                guarded.harmful += 1;
                println!("\nseed {}, index {index}, {slice} null: {text}\n  {call:?}", amount.seed);
            }
        }
    }
    guarded
}

/// All calls of one entry at one depth, with buffers that end at a page, then with buffers that begin after one, then
/// with null slices.
pub fn guard_entry<C: Call + Refuse + Rules + Slices, A>(depth: Option<i32>, amount: Amount) -> Guarded
where
    Library<A, EndsAtPage>: Answers<C>,
    Library<A, BeginsAfterPage>: Answers<C>,
    Library<A, NullIfEmpty>: Answers<C>,
{
    print!("{:<18} {:>5} ", C::NAME, shown(depth));
    let _ = io::stdout().flush();
    if !<Library<A, EndsAtPage> as Answers<C>>::THERE {
        println!("not in the archive");
        return Guarded { calls: 0, harmful: 0 };
    }
    let harmful = harmful_calls::<C, Library<A, EndsAtPage>>(depth, amount);
    print!("{:>13} ", amount.calls);
    let _ = io::stdout().flush();
    let harmful = harmful + harmful_calls::<C, Library<A, BeginsAfterPage>>(depth, amount);
    print!("{:>17} ", amount.calls);
    let _ = io::stdout().flush();
    let null = null_calls::<C, Library<A, NullIfEmpty>>(depth, amount);
    println!("{:>11}", null.calls);
    Guarded { calls: 2 * amount.calls + null.calls, harmful: harmful + null.harmful }
}

/// Runs every entry, prints a line for each and the sum, and says whether something ran and nothing did harm.
pub fn run(amount: Amount) -> bool {
    let (mut calls, mut harmful) = (0, 0);
    println!("{:<18} {:>5} {:>13} {:>17} {:>11}", "name", "depth", "ends at page", "begins after page", "null slices");
    every_entry!(guard_entry of Linked, amount, |guarded: Guarded| {
        calls += guarded.calls;
        harmful += guarded.harmful;
    });
    match (calls, harmful) {
        (0, _) => println!("guarded: 0 calls, for the archive has none of the functions"),
        (_, 0) => println!("guarded: {calls} calls, nothing read or written outside, null slices as empty ones"),
        _ => println!("guarded: {calls} calls, {harmful} of them wrote outside or took a null slice otherwise"),
    }
    calls > 0 && harmful == 0
}

#[cfg(test)]
mod tests {
    use super::{Amount, guard_entry};
    use crate::calls::copy::Put;

    /// A put that writes nothing and says that it is done.
    struct Idle;

    impl archive::Put<u8> for Idle {
        const THERE: bool = true;

        unsafe fn call(_: *mut u8, _: usize, _: usize, _: *const u8, _: usize, _: usize, _: usize, _: usize) -> u32 {
            0
        }
    }

    #[test]
    fn a_null_slice_that_is_not_refused_is_noticed() {
        let guarded = guard_entry::<Put<u8>, Idle>(Some(8), Amount { calls: 10, seed: 1 });
        // Its two slices are null in 10 calls each; the 20 calls before write nothing, so they do no harm.
        assert_eq!((guarded.calls, guarded.harmful), (40, 20));
    }
}
