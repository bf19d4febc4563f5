//! Buffers lent to C functions. Each stands between guard places, which the call must leave as they were.

use std::any::type_name;
use std::fmt::Debug;
use std::ops::DerefMut;
use std::ptr;

/// So many guard places stand on a side that has no unreadable page.
const GUARDS: usize = 64;

/// What a result holds before the call, so that one that isn't written is seen.
pub const JUNK: i32 = 0x5a5a_5a5a;
/// The same for a result that is a place.
pub const JUNK_PLACE: usize = 0x5a5a_5a5a;

/// A number of a lent buffer.
pub trait Number: Copy + PartialEq + Debug + 'static {
    /// The low bits.
    fn cut(bits: u64) -> Self;
}

macro_rules! numbers {
    ($($number:ident)+) => {
        $(impl Number for $number {
            fn cut(bits: u64) -> Self {
                bits as Self
            }
        })+
    };
}

numbers! { u8 i8 u16 i16 u32 i32 usize }

/// What the guard place with this index holds: neighbours differ, so that a shifted row is seen too.
fn guard<T: Number>(index: usize) -> T {
    T::cut((index as u64 + 1).wrapping_mul(0x9e37_79b9_7f4a_7c15) >> 24)
}

/// Where lent buffers stand.
pub trait Ground {
    /// Does a guard stand before and after a buffer? One does on each side that has no unreadable page.
    const SIDES: [bool; 2];
    /// Is the pointer to an empty buffer null?
    const NULL_IF_EMPTY: bool = false;
    /// Memory of so many numbers.
    type Memory<T: Number>: DerefMut<Target = [T]>;

    /// Takes such memory.
    fn memory<T: Number>(length: usize) -> Self::Memory<T>;
}

/// Ordinary memory, with guard places on both sides.
pub struct Places;

impl Ground for Places {
    const SIDES: [bool; 2] = [true, true];
    type Memory<T: Number> = Vec<T>;

    fn memory<T: Number>(length: usize) -> Vec<T> {
        vec![T::cut(0); length]
    }
}

/// A lent buffer: a copy of what the call has, between guards.
pub struct Lent<'a, T: Number, G: Ground> {
    name: &'static str,
    came: &'a [T],
    memory: G::Memory<T>,
}

/// Lends a copy of a buffer under the interface's name for it.
pub fn lend<'a, G: Ground, T: Number>(name: &'static str, came: &'a [T]) -> Lent<'a, T, G> {
    let [before, after] = G::SIDES.map(|side| GUARDS * side as usize);
    let end = before + came.len();
    let mut memory = G::memory::<T>(end + after);
    memory[before..end].copy_from_slice(came);
    for index in (0..before).chain(end..end + after) {
        memory[index] = guard(index);
    }
    Lent { name, came, memory }
}

impl<T: Number, G: Ground> Lent<'_, T, G> {
    /// Where the buffer begins in its memory.
    fn first(&self) -> usize {
        GUARDS * G::SIDES[0] as usize
    }

    /// Pointer to the buffer's first place, or null for one that has none and whose ground says so.
    pub fn start(&mut self) -> *mut T {
        if G::NULL_IF_EMPTY && self.len() == 0 {
            return ptr::null_mut();
        }
        let first = self.first();
        self.memory[first..].as_mut_ptr()
    }

    /// Length of the buffer.
    #[allow(clippy::len_without_is_empty)]
    pub fn len(&self) -> usize {
        self.came.len()
    }

    /// What the buffer holds now.
    pub fn now(&self) -> &[T] {
        &self.memory[self.first()..self.first() + self.len()]
    }

    /// The first guard place that has changed, in words.
    pub fn guards(&self) -> Option<String> {
        let (first, name) = (self.first(), self.name);
        let end = first + self.len();
        let mut outside = (0..first).chain(end..self.memory.len());
        let index = outside.find(|index| self.memory[*index] != guard(*index))?;
        let (place, held, now) = (index as i64 - first as i64, guard::<T>(index), self.memory[index]);
        Some(format!(
            "{name} of {} {}: guard place {place} changed from {held:?} to {now:?}",
            self.len(),
            type_name::<T>()
        ))
    }

    /// For a buffer that is only read: the first of its places or guard places that has changed, in words.
    pub fn kept(&self) -> Option<String> {
        if self.now() == self.came {
            return self.guards();
        }
        let place = (0..self.len()).find(|place| self.now()[*place] != self.came[*place])?;
        let (name, came, now) = (self.name, self.came[place], self.now()[place]);
        Some(format!("{name} is only read, but place {place} changed from {came:?} to {now:?}"))
    }
}
