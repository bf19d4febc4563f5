//! How much of the stack a call used: the places below the caller are painted before it, and after it the lowest that
//! lost its paint is looked for. What the callee was handed on the stack counts; what the painting itself used is below
//! `LEAST`, so a call that used less shows as that.

use std::collections::BTreeMap;
use std::hint::black_box;
use std::sync::Mutex;

const PAINT: u8 = 0xa5;

/// The bytes that are painted: more than any function uses, and less than a thread's stack has.
const PAINTED: usize = 128 * 1024;

/// The bytes next to the caller that are not painted: paint's own frame stands there.
const LEAST: usize = 256;

static MOST: Mutex<BTreeMap<&str, usize>> = Mutex::new(BTreeMap::new());

/// Paints what is below the caller, and gives the place from which the use is counted.
#[inline(never)]
pub fn paint() -> usize {
    let here = 0u8;
    let top = black_box(&raw const here) as usize;
    for place in top - PAINTED..top - LEAST {
        // The place is in this thread's stack, below everything that is in use.
        unsafe { (place as *mut u8).write_volatile(PAINT) };
    }
    top
}

/// Notes the function's use, if it is the most so far.
#[inline(never)]
pub fn note(function: &'static str, top: usize) {
    let lost = |place: &usize| unsafe { (*place as *const u8).read_volatile() } != PAINT;
    let lowest = (top - PAINTED..top - LEAST).find(lost).unwrap_or(top - LEAST);
    let mut all = MOST.lock().expect("no thread that noted a use has panicked");
    let most = all.entry(function).or_default();
    *most = (*most).max(top - lowest);
}

/// The most that each function used so far, in bytes.
pub fn most() -> BTreeMap<&'static str, usize> {
    MOST.lock().expect("no thread that noted a use has panicked").clone()
}
