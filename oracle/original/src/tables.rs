//! Stands in for the original's tables: the four that mc.rs and warpmv.rs read are lent for a call.

use std::cell::Cell;
use std::ops::Index;
use std::ptr::slice_from_raw_parts;

/// One filter: eight signed bytes.
type Filter = [i8; 8];

/// The tables of the call that runs now, on this thread.
#[derive(Clone, Copy)]
struct Lent {
    subpel: *const [i8],
    ext: *const [i8],
    warp: *const [i8],
    recip: *const [u16],
}

const NOTHING: Lent = Lent {
    subpel: slice_from_raw_parts(std::ptr::dangling(), 0),
    ext: slice_from_raw_parts(std::ptr::dangling(), 0),
    warp: slice_from_raw_parts(std::ptr::dangling(), 0),
    recip: slice_from_raw_parts(std::ptr::dangling(), 0),
};

thread_local! {
    static LENT: Cell<Lent> = const { Cell::new(NOTHING) };
}

/// Takes the tables back when the call ends, by a panic too.
struct Return(Lent);

impl Drop for Return {
    fn drop(&mut self) {
        LENT.set(self.0);
    }
}

/// Lends the tables, of any length, while `call` runs.
pub fn with_tables<R>(subpel: &[i8], ext: &[i8], warp: &[i8], recip: &[u16], call: impl FnOnce() -> R) -> R {
    let _back = Return(LENT.replace(Lent { subpel, ext, warp, recip }));
    call()
}

/// MC_SUBPEL_FILTERS: families of fifteen filters.
pub struct SubpelFilters;

/// EXT_WARP_FILTER: filters.
pub struct ExtFilters;

/// MC_WARP_FILTER: filters.
pub struct WarpFilters;

/// DIV_RECIP: reciprocals.
pub struct Reciprocals;

pub static MC_SUBPEL_FILTERS: SubpelFilters = SubpelFilters;
pub static EXT_WARP_FILTER: ExtFilters = ExtFilters;
pub static MC_WARP_FILTER: WarpFilters = WarpFilters;
pub static DIV_RECIP: Reciprocals = Reciprocals;

// In each `index` below the pointer is good: it is set by `with_tables` alone, which holds the borrow
// while the call runs, and the original keeps no reference past its call.

impl Index<usize> for SubpelFilters {
    type Output = [Filter; 15];

    fn index(&self, family: usize) -> &Self::Output {
        let table: &[i8] = unsafe { &*LENT.get().subpel };
        &table.as_chunks::<8>().0.as_chunks::<15>().0[family]
    }
}

impl Index<usize> for ExtFilters {
    type Output = Filter;

    fn index(&self, number: usize) -> &Self::Output {
        let table: &[i8] = unsafe { &*LENT.get().ext };
        &table.as_chunks::<8>().0[number]
    }
}

impl Index<usize> for WarpFilters {
    type Output = Filter;

    fn index(&self, number: usize) -> &Self::Output {
        let table: &[i8] = unsafe { &*LENT.get().warp };
        &table.as_chunks::<8>().0[number]
    }
}

impl Index<usize> for Reciprocals {
    type Output = u16;

    fn index(&self, number: usize) -> &Self::Output {
        let table: &[u16] = unsafe { &*LENT.get().recip };
        &table[number]
    }
}
