//! Combinations of two predictions, masks, blends and morphs.

use hemavolups::*;

#[test]
fn avg_is_c1_and_c2() {
    let mut dst = [0u8];
    avg(Eight, &mut dst, 1, &[3200], &[3200], 1, 1).unwrap();
    assert_eq!(dst, [200]);
    // What C8's intermediate gives.
    avg(Eight, &mut dst, 1, &[8], &[8], 1, 1).unwrap();
    assert_eq!(dst, [1]);
    let mut dst = [0u16];
    avg(Depth::Ten, &mut dst, 1, &[8176], &[8176], 1, 1).unwrap();
    assert_eq!(dst, [1023]);
}

#[test]
fn w_avg_is_c3() {
    let mut dst = [0u8];
    w_avg(Eight, &mut dst, 1, &[3200], &[0], 1, 1, 12).unwrap();
    assert_eq!(dst, [150]);
    // Pixels 600 and 0 of depth 10, half and half.
    let mut dst = [0u16];
    w_avg(Depth::Ten, &mut dst, 1, &[600 * 16 - 8192], &[-8192], 1, 1, 8).unwrap();
    assert_eq!(dst, [300]);
}

#[test]
fn mask_weighs_each_pixel() {
    let mut dst = [0u8; 2];
    mask(Eight, &mut dst, 2, &[3200, 3200], &[0, 0], 2, 1, &[32, 64]).unwrap();
    assert_eq!(dst, [100, 200]);
    let mut dst = [0u16; 2];
    mask(Depth::Twelve, &mut dst, 2, &[8188, 8188], &[-8192, -8192], 2, 1, &[64, 0]).unwrap();
    assert_eq!(dst, [4095, 0]);
}

#[test]
fn w_mask_is_c4_and_c5() {
    let (mut dst, mut weights) = ([0u8; 4], [0; 4]);
    w_mask(Eight, &mut dst, 4, &[0, 3200, 6647, 6648], &[0; 4], 4, 1, &mut weights, 4, 0, false, false).unwrap();
    assert_eq!((dst, weights), ([0, 156, 255, 255], [38, 50, 63, 64]));
    for (sign, weight) in [(0, 45), (1, 44)] {
        let mut weights = [0];
        w_mask(Eight, &mut dst, 2, &[3200, 248], &[0; 2], 2, 1, &mut weights, 1, sign, true, false).unwrap();
        assert_eq!(weights, [weight]);
    }
    let (mut dst, mut weights) = ([0u16; 4], [0]);
    w_mask(Depth::Ten, &mut dst, 2, &[8176; 4], &[8176; 4], 2, 2, &mut weights, 1, 1, true, true).unwrap();
    assert_eq!((dst, weights), ([1023; 4], [38]));
}

#[test]
fn blend_changes_dst() {
    let mut dst = [10u8, 10, 7, 10];
    blend(&mut dst, 3, &[74, 74], 1, 2, &[32, 64]).unwrap();
    assert_eq!(dst, [42, 10, 7, 74]);
    let mut dst = [0u16];
    blend(&mut dst, 1, &[1000], 1, 1, &[64]).unwrap();
    assert_eq!(dst, [1000]);
}

#[test]
fn morph_clamps_to_the_depth() {
    let mut dst = [100u8, 255];
    morph(Eight, &mut dst, 2, 128, 256, 2, 1).unwrap();
    assert_eq!(dst, [51, 128]);
    let mut dst = [1000u16, 3];
    morph(Depth::Ten, &mut dst, 2, 512, 0, 2, 1).unwrap();
    assert_eq!(dst, [1023, 6]);
}
