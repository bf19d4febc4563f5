//! The tables that a call lends: the original's own numbers, or made-up ones of right and wrong lengths.

use original::real_tables;

use crate::answer::Room;
use crate::limits::{filter_bytes, list};
use crate::rng::Rng;

/// Five families of fifteen filters.
pub const SUBPEL_LENGTH: usize = 600;
/// Reciprocals.
pub const RECIP_LENGTH: usize = 129;

/// The original's subpel filters: its first five families.
pub fn real_subpel() -> Room<i8> {
    let families = real_tables::MC_SUBPEL_FILTERS.iter().take(5);
    Room(families.flatten().flatten().copied().collect())
}

/// The original's ext filters.
pub fn real_ext() -> Room<i8> {
    Room(real_tables::EXT_WARP_FILTER.as_flattened().to_vec())
}

/// The original's warp filters.
pub fn real_warp() -> Room<i8> {
    Room(real_tables::MC_WARP_FILTER.as_flattened().to_vec())
}

/// The original's reciprocals.
pub fn real_recip() -> Room<u16> {
    Room(real_tables::DIV_RECIP.to_vec())
}

/// A subpel table, or one of a wrong length.
pub fn subpel(rng: &mut Rng, wrong: bool) -> Room<i8> {
    if wrong {
        let length = rng.pick(&[599, 601, 592, 608, 720, 0]);
        return filter_bytes(rng, length);
    }
    if rng.chance(40) { real_subpel() } else { filter_bytes(rng, SUBPEL_LENGTH) }
}

/// A table of so many filters, or more; or one whose length is no whole number of filters.
pub fn filters(rng: &mut Rng, least: usize, wrong: bool) -> Room<i8> {
    let more = rng.pick(&[0, 0, 1, 5]);
    let part = if wrong { rng.pick(&[1, 4, 7]) } else { 0 };
    filter_bytes(rng, 8 * (least + more) + part)
}

/// Reciprocals, or a table of a wrong length.
pub fn recip(rng: &mut Rng, wrong: bool) -> Room<u16> {
    if wrong {
        let length = rng.pick(&[128, 130, 0, 1, 258]);
        return list(rng, length, |rng| rng.next() as u16);
    }
    match rng.range(0, 3) {
        0 => real_recip(),
        1 => list(rng, RECIP_LENGTH, |rng| rng.pick(&[0, 1, u16::MAX])),
        _ => list(rng, RECIP_LENGTH, |rng| rng.next() as u16),
    }
}
