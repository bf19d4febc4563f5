//! Predicts a block across a plane's border and prints it.
//!
//!     cargo run --offline --example border

use hemavolups::{BilinMotion, Depth, Frame, Kind, Order, Plane, PlaneName, Refusal, SCRATCH_LEN, Tables};

fn main() -> Result<(), Refusal> {
    // A plane of 6 x 4 pixels at depth 10: 100 for each column, 1 for each row.
    let (w, h) = (6, 4);
    let pixels: Vec<u16> = (0..w * h).map(|place| (place % w * 100 + place / w) as u16).collect();
    let frame = Frame { luma_w: w, luma_h: h, ss_hor: false, ss_ver: false };
    let plane = Plane { frame, name: PlaneName::Luma, pixels: &pixels, stride: w };
    println!("the plane:");
    print(&pixels, w);

    // A block of 8 x 4 that begins three columns left of the plane and a row above it, moved by half a pixel.
    let order = Order { x: -3, y: -1, w: 8, h: 4, kind: Kind::Bilinear(BilinMotion { mx: 8, my: 0 }) };
    let tables = Tables { subpel: &[0; 600], ext: &[], warp: &[] };
    let (mut scratch, mut dst) = ([0; SCRATCH_LEN], [0; 8 * 4]);
    order.put(Depth::Ten, &plane, &tables, &mut scratch, &mut dst, order.w)?;
    println!("the block at column {}, row {}, and a half to the right:", order.x, order.y);
    print(&dst, order.w);
    Ok(())
}

/// Prints rows of pixels.
fn print(pixels: &[u16], stride: usize) {
    for row in pixels.chunks(stride) {
        println!("{}", row.iter().map(|pixel| format!("{pixel:5}")).collect::<String>());
    }
}
