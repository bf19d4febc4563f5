//! Where the original and document 01 part, each call run on the original: for each test that document 01 refuses by, an
//! accepted call, changed in what this test is about alone; then calls that show more of what the Rust does with refused
//! ones, and accepted ones where a careless port, or AV1's rules, would go another way.

mod copied;
mod filtered;
mod motion;
mod public;
mod run;
mod scaled;
mod tests;

use std::panic::{self, AssertUnwindSafe};

use crate::answer::Room;
use crate::calls::Call;
use crate::refuse::Refuse;
use run::Run;

/// What stands above the tables.
const TITLE: &str = "# Differences, run

This file is what `cargo run --release -- differences` prints in oracle/, to the letter; the gate holds it to that. \
Each row is a call, what the Rust, built for release, does with it, and document 01's number for it. docs/DIFFERENCES.md \
says it in plain words.";

/// What stands above a table.
const HEAD: &str = "| entry | what | call | the Rust | number |\n|---|---|---|---|---|";

/// Prints every case as a row of a table: the call, what the Rust does with it, document 01's number.
pub fn print() {
    println!("{TITLE}");
    table("Each test of each entry: an accepted call, changed in what the test is about alone", tests::cases());
    let more = [copied::cases(), filtered::cases(), scaled::cases(), motion::cases()];
    table("Further calls", more.concat());
    table("Accepted calls about the places where AV1's rules part", public::cases());
}

/// Prints a table.
fn table(title: &str, rows: Vec<String>) {
    println!("\n## {title}\n\n{HEAD}");
    for row in rows {
        println!("{row}");
    }
}

/// One row: runs the original on the call's own buffers, so that what it wrote before a panic is seen.
fn case<C: Call + Refuse + Run>(what: &str, mut call: C) -> String {
    let (input, number) = (format!("{call:?}"), call.number());
    // A panic is told in its row.
    panic::set_hook(Box::new(|_| {}));
    let ran = panic::catch_unwind(AssertUnwindSafe(|| call.run()));
    let _ = panic::take_hook();
    let buffers: Vec<String> = call.lent().iter().map(|buffer| shown(&buffer.numbers())).collect();
    let results = ran.unwrap_or("panics".to_string());
    let left = if buffers.is_empty() { String::new() } else { format!("leaves {}", buffers.join(" and ")) };
    let told: Vec<String> = [results, left].into_iter().filter(|part| !part.is_empty()).collect();
    format!("| {} | {what} | {input} | {} | {number} |", C::NAME, told.join(", "))
}

/// A buffer's numbers, long ones by their beginning and their end.
fn shown(numbers: &[i64]) -> String {
    if numbers.len() <= 20 {
        return format!("{numbers:?}");
    }
    format!("{:?} ... {:?}", &numbers[..12], &numbers[numbers.len() - 4..])
}

/// A lent buffer with these numbers.
fn room<T: Clone>(numbers: &[T]) -> Room<T> {
    Room(numbers.to_vec())
}
