//! Sums and the search by them, and the warp model.

mod common;

use common::refusal;
use hemavolups::*;

#[test]
fn sad_nxn_takes_every_other_row() {
    assert_eq!(sad_nxn(Eight, &[10u8, 20, 0, 0], 2, &[13, 16, 99, 99], 2, 2, 2), Ok(7));
    assert_eq!(sad_nxn(Depth::Ten, &[10u16, 20, 0, 0], 2, &[13, 16, 99, 99], 2, 2, 2), Ok(1));
}

/// A picture of 9 x 9 without a repeating pattern, its columns counted from `left`.
fn picture<P: From<u8>>(left: u32) -> [P; 81] {
    std::array::from_fn(|place| {
        let (x, y) = (left + place as u32 % 9, place as u32 / 9);
        P::from(((37 * x * x + 91 * y * y + 17 * x * y) % 251) as u8)
    })
}

#[test]
fn refinement_finds_the_offset() {
    // The second buffer shows the same picture two columns further left: one column for each of the two.
    let found = sad_refine_mv(Eight, &picture::<u8>(0), 9, &picture(2), 9, 1, 1, false);
    assert_eq!(found, Ok(Offset { dx: 1, dy: 0 }));
    let found = sad_refine_mv(Depth::Ten, &picture::<u16>(0), 9, &picture(2), 9, 1, 1, true);
    assert_eq!(found, Ok(Offset { dx: 1, dy: 0 }));
}

#[test]
fn only_an_implicit_refinement_answers_the_centre() {
    let flat = [50u8; 81];
    assert_eq!(sad_refine_mv(Eight, &flat, 9, &flat, 9, 1, 1, true), Ok(Offset { dx: 0, dy: 0 }));
    assert_eq!(sad_refine_mv(Eight, &flat, 9, &flat, 9, 1, 1, false), Ok(Offset { dx: -2, dy: -2 }));
}

#[test]
fn divisor_looks_up_the_reciprocal() {
    let recip: [u16; 129] = std::array::from_fn(|place| place as u16);
    assert_eq!(resolve_divisor_32(1, &recip), Ok(Divisor { y: 0, shift: 9 }));
    assert_eq!(resolve_divisor_32(3, &recip), Ok(Divisor { y: 64, shift: 10 }));
    assert_eq!(resolve_divisor_32(0, &recip), Err(Refusal::Number));
    assert_eq!(resolve_divisor_32(1, &recip[1..]), Err(Refusal::Table));
}

/// A model with this entry 2 and 3, and something else in every other place.
fn model(m2: i32, m3: i32) -> WarpParams {
    WarpParams { matrix: [7, 8, m2, m3, 0, 65536], abcd: [1, 2, 3, 4], affine: 5 }
}

#[test]
fn shears_are_c10() {
    for (entry, shear) in [(31, 0), (32, 64), (-31, 0), (-32, -64), (32767, 32704)] {
        let mut warp = model(65536, entry);
        warp.get_shear_params(&[0; 129]).unwrap();
        // 7 x 32704 is above the bound of 196,608.
        let affine = (entry != 32767) as i32;
        assert_eq!(warp, WarpParams { abcd: [0, shear, 0, 0], affine, ..model(65536, entry) });
    }
}

/// The refusal of a model, which has to come back as it came.
fn refused(model: WarpParams, call: impl FnOnce(&mut WarpParams) -> Result<(), Refusal>) -> Refusal {
    refusal(&mut [model], |models| call(&mut models[0]))
}

#[test]
fn shears_refuse() {
    assert_eq!(model(1, 0).get_shear_params(&[0; 129]), Ok(()));
    assert_eq!(refused(model(0, 0), |warp| warp.get_shear_params(&[0; 129])), Refusal::NoShears);
    assert_eq!(refused(model(0, 0), |warp| warp.get_shear_params(&[0; 128])), Refusal::Table);
    assert_eq!(refused(model(0, 1 + (1 << 22)), |warp| warp.get_shear_params(&[])), Refusal::Number);
}

#[test]
fn a_motion_sets_entries_0_and_1() {
    // The block's middle is 4 + 4 - 1 = 7 on both axes.
    let mut warp = model(65536, 1);
    warp.set_affine_mv2d(2, 2, 3, -2, 1, 1).unwrap();
    assert_eq!(warp, WarpParams { matrix: [8192 * 3 - 7, 8192 * -2, 65536, 1, 0, 65536], ..model(65536, 1) });
    assert_eq!(refused(model(65536, 1), |warp| warp.set_affine_mv2d(0, 2, 3, -2, 1, 1)), Refusal::Size);
    assert_eq!(refused(model(65536, 1), |warp| warp.set_affine_mv2d(2, 2, 3, -2, -1, 1)), Refusal::Number);
}
