//! What a call lends and what it answers, in one shape for every entry, so that any two answers can be compared.

use std::fmt;
use std::ops::{Deref, DerefMut};

use original::pixel::{BitDepth, BitDepth8, BitDepth16, Pixel};

use crate::lend::Number;

/// A lent buffer or table. Shown by its length and first numbers, for calls are printed.
#[derive(Clone, PartialEq)]
pub struct Room<T>(pub Vec<T>);

impl<T> Deref for Room<T> {
    type Target = Vec<T>;

    fn deref(&self) -> &Vec<T> {
        &self.0
    }
}

impl<T> DerefMut for Room<T> {
    fn deref_mut(&mut self) -> &mut Vec<T> {
        &mut self.0
    }
}

impl<T: fmt::Debug> fmt::Debug for Room<T> {
    fn fmt(&self, f: &mut fmt::Formatter<'_>) -> fmt::Result {
        let dots = if self.len() > 12 { " ..." } else { "" };
        write!(f, "{} of {:?}{dots}", self.len(), &self[..self.len().min(12)])
    }
}

/// A written buffer after the call.
#[derive(Clone, Debug, PartialEq)]
pub enum Buffer {
    Bytes(Room<u8>),
    Words(Room<u16>),
    Shorts(Room<i16>),
    Ints(Room<i32>),
}

impl Buffer {
    /// The numbers of the buffer as wide ones, to say where two differ.
    pub fn numbers(&self) -> Vec<i64> {
        match self {
            Buffer::Bytes(room) => room.iter().map(|v| *v as i64).collect(),
            Buffer::Words(room) => room.iter().map(|v| *v as i64).collect(),
            Buffer::Shorts(room) => room.iter().map(|v| *v as i64).collect(),
            Buffer::Ints(room) => room.iter().map(|v| *v as i64).collect(),
        }
    }
}

/// A call's whole answer: its number, its other results, and every buffer it may write, gaps and tails too.
#[derive(Clone, Debug, PartialEq)]
pub struct Answer {
    pub number: u32,
    pub results: Vec<i64>,
    pub buffers: Vec<Buffer>,
    /// What the call changed though it isn't lent to be written, in words.
    pub harm: Option<String>,
}

impl Answer {
    /// The answer with this number, of a call that does no harm.
    pub fn new(number: u32, results: Vec<i64>, buffers: Vec<Buffer>) -> Self {
        Answer { number, results, buffers, harm: None }
    }

    /// The answer of an accepted call.
    pub fn done(results: Vec<i64>, buffers: Vec<Buffer>) -> Self {
        Answer::new(0, results, buffers)
    }

    /// The first place where another answer differs from this one.
    pub fn difference(&self, other: &Answer) -> Option<String> {
        if self == other {
            return None;
        }
        if other.harm.is_some() {
            return other.harm.clone();
        }
        if self.number != other.number {
            return Some(format!("number: {} expected, {} given", self.number, other.number));
        }
        if let Some(text) = first_difference("result", &self.results, &other.results) {
            return Some(text);
        }
        let pairs = self.buffers.iter().zip(&other.buffers).enumerate();
        let mut texts =
            pairs.filter_map(|(k, (a, b))| first_difference(&format!("buffer {k}, place"), &a.numbers(), &b.numbers()));
        texts.next().or_else(|| Some("the answers have different shapes".to_string()))
    }
}

/// The first place where two lists differ, in words.
fn first_difference(what: &str, expected: &[i64], given: &[i64]) -> Option<String> {
    if expected.len() != given.len() {
        return Some(format!("{what}: {} places expected, {} given", expected.len(), given.len()));
    }
    let place = (0..expected.len()).find(|k| expected[*k] != given[*k])?;
    Some(format!("{what} {place}: {} expected, {} given", expected[place], given[place]))
}

/// The pixel type of a set: u8 for the byte set, u16 for the 16-bit set.
pub trait Px: Pixel + Number {
    /// The original's depth type for these pixels.
    type Depth: BitDepth<Pixel = Self>;
    /// The 16-bit set is told its depth, the byte set never.
    const TAKES_DEPTH: bool;

    /// The pixel as a wide number.
    fn wide(self) -> i64 {
        Into::<i32>::into(self) as i64
    }

    /// The low bits of a wide number.
    fn low(value: i64) -> Self;

    /// A buffer of such pixels.
    fn buffer(room: Room<Self>) -> Buffer;

    /// The pixels of such a buffer.
    fn pixels(buffer: &Buffer) -> Option<&Room<Self>>;

    /// The original's depth, for depths it knows.
    fn depth(depth: i32) -> Self::Depth {
        Self::Depth::new(depth as u8)
    }
}

impl Px for u8 {
    type Depth = BitDepth8;
    const TAKES_DEPTH: bool = false;

    fn low(value: i64) -> u8 {
        value as u8
    }

    fn buffer(room: Room<u8>) -> Buffer {
        Buffer::Bytes(room)
    }

    fn pixels(buffer: &Buffer) -> Option<&Room<u8>> {
        if let Buffer::Bytes(room) = buffer { Some(room) } else { None }
    }
}

impl Px for u16 {
    type Depth = BitDepth16;
    const TAKES_DEPTH: bool = true;

    fn low(value: i64) -> u16 {
        value as u16
    }

    fn buffer(room: Room<u16>) -> Buffer {
        Buffer::Words(room)
    }

    fn pixels(buffer: &Buffer) -> Option<&Room<u16>> {
        if let Buffer::Words(room) = buffer { Some(room) } else { None }
    }
}
