//! The most of the stack that each C function uses, over the calls that `compare` makes.

use archive::Linked;

use crate::amount::Amount;
use crate::ask::Answers;
use crate::calls::Call;
use crate::compare::nth_call;
use crate::every_entry;
use crate::library::Library;
use crate::pages::EndsAtPage;

/// Makes an entry's calls at one depth; archive::stack notes what each used.
fn call_entry<C: Call, A>(depth: Option<i32>, amount: Amount)
where
    Library<A, EndsAtPage>: Answers<C>,
{
    if <Library<A, EndsAtPage> as Answers<C>>::THERE {
        for index in 0..amount.calls {
            <Library<A, EndsAtPage> as Answers<C>>::answer(&nth_call(depth, amount.seed, index));
        }
    }
}

/// Prints the table, and says whether any function is there.
pub fn run(amount: Amount) -> bool {
    every_entry!(call_entry of Linked, amount, |_: ()| {});
    println!("| C function | bytes of stack at most |\n|---|---|");
    let most = archive::stack::most();
    for (function, bytes) in &most {
        println!("| {function} | {bytes} |");
    }
    !most.is_empty()
}
