//! Buffers, tables and numbers of a side. All are read from memory, so that no call is compiled for one stride or size.

use original::pixel::{BitDepth, Pixel};
use original::real_tables::{EXT_WARP_FILTER, MC_SUBPEL_FILTERS, MC_WARP_FILTER};

/// Columns of every picture, and its places: blocks of 64 at twice the step, with taps or offsets around them. The last
/// taps of such a scaled row are the next row's first pixels.
const STRIDE: usize = 128;
const PLACES: usize = STRIDE * ROWS;

/// Rows of every picture.
pub const ROWS: usize = 2 * 64 + 16;

pub struct Room<BD: BitDepth> {
    pub bd: BD,
    pub depth: i32,
    pub size: usize,
    pub stride: usize,
    /// Where a block begins in src: room for the taps before it.
    pub start: usize,
    pub filter_type: i32,
    pub shears: [i16; 4],
    pub src: Vec<BD::Pixel>,
    pub second: Vec<BD::Pixel>,
    pub tmp1: Vec<i16>,
    pub tmp2: Vec<i16>,
    pub mask: Vec<u8>,
    pub subpel: Vec<i8>,
    pub ext: Vec<i8>,
    pub warp: Vec<i8>,
    /// Written: pixels, intermediates, weights, and a search's answer.
    pub dst: Vec<BD::Pixel>,
    pub tmp: Vec<i16>,
    pub weights: Vec<u8>,
    pub found: (i32, i32),
    /// Written by orders alone; the Rust has none, so it isn't compared.
    pub scratch: Vec<BD::Pixel>,
}

impl<BD: BitDepth> Room<BD> {
    pub fn new(depth: i32, size: usize) -> Self {
        Room {
            bd: BD::new(depth as u8),
            depth,
            size,
            stride: STRIDE,
            start: 8 * STRIDE + 8,
            filter_type: 0,
            shears: [640, -384, 256, -512],
            src: pixels(1, depth),
            second: pixels(2, depth),
            tmp1: intermediates(3),
            tmp2: intermediates(4),
            mask: numbers(5, 65).map(|n| n as u8).collect(),
            subpel: MC_SUBPEL_FILTERS[..5].iter().flatten().flatten().copied().collect(),
            ext: EXT_WARP_FILTER.iter().flatten().copied().collect(),
            warp: MC_WARP_FILTER.iter().flatten().copied().collect(),
            dst: pixels(6, depth),
            tmp: vec![0; PLACES],
            weights: vec![0; PLACES],
            found: (0, 0),
            scratch: pixels(7, depth),
        }
    }

    /// All that a call wrote.
    pub fn written(&self) -> Vec<i32> {
        let pixels = self.dst.iter().map(|pixel| pixel.as_u16() as i32);
        let shorts = self.tmp.iter().map(|short| *short as i32);
        let weights = self.weights.iter().map(|weight| *weight as i32);
        pixels.chain(shorts).chain(weights).chain([self.found.0, self.found.1]).collect()
    }
}

fn pixels<P: Pixel>(seed: u32, depth: i32) -> Vec<P> {
    numbers(seed, 1 << depth).map(|n| P::from_i32(n as i32)).collect()
}

/// Numbers from -8192 to 8191, which all depths have.
fn intermediates(seed: u32) -> Vec<i16> {
    numbers(seed, 16384).map(|n| n as i16 - 8192).collect()
}

/// As many as there are places, below the limit, the same in each run.
fn numbers(seed: u32, limit: u32) -> impl Iterator<Item = u32> {
    let mut state = seed;
    (0..PLACES).map(move |_| {
        state = state.wrapping_mul(1_664_525).wrapping_add(1_013_904_223);
        (state >> 16) % limit
    })
}
