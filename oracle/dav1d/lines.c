// dav1d's own answers for the lines of docs/DIFFERENCES.md, "Public documents": its C functions, compiled unchanged. ./run builds and runs it.
#include "src/warpmv.c"
#define BITDEPTH 8
#include "src/mc_tmpl.c"
#include <stdio.h>

static void divisor(const unsigned d) {
    int shift;
    const int y = resolve_divisor_32(d, &shift);
    printf("resolve_divisor_32 of %u: %d, shift %d\n", d, y, shift);
}

static void shear(const int m2, const int m3, const int m4, const int m5) {
    Dav1dWarpedMotionParams wm = { .matrix = { 0, 0, m2, m3, m4, m5 } };
    const int refused = dav1d_get_shear_params(&wm);
    printf("get_shear_params of %d, %d, %d, %d: %d, %d, %d, %d, %s\n", m2, m3, m4, m5, wm.u.p.alpha, wm.u.p.beta, wm.u.p.gamma, wm.u.p.delta,
           refused ? "refused" : "taken");
}

static void affine(const int x) {
    Dav1dWarpedMotionParams wm = { .matrix = { 0, 0, 65536, 0, 0, 65536 } };
    dav1d_set_affine_mv2d(1, 1, (mv) { .x = x, .y = 0 }, &wm, 0, 0);
    printf("set_affine_mv2d of mv.x %d, unit matrix: entry 0 is %d\n", x, wm.matrix[0]);
}

// 15 columns and rows of 0, but for a column of 255, three to the right of each row's first pixel; no shears.
static void warp(const int mx) {
    pixel src[15 * 15] = { 0 }, dst[8 * 8];
    const int16_t abcd[4] = { 0 };
    for (int y = 0; y < 15; y++) src[15 * y + 6] = 255;
    warp_affine_8x8_c(dst, 8, src + 3 * 15 + 3, 15, abcd, mx, 0);
    printf("warp_affine_8x8 at mx %d: the first pixels are %d, %d, %d\n", mx, dst[0], dst[1], dst[2]);
}

int main(void) {
    divisor(1), divisor(3);
    shear(65215, 0, 95, 65536);
    shear(81856, 0, 0, 65536), shear(81920, 0, 0, 65536);
    shear(65536, 32735, 0, 65536), shear(65536, 32736, 0, 65536), shear(98272, 0, 0, 65536);
    affine(1023), affine(1024), affine(-1024), affine(-1025);
    warp(130559), warp(130560);
    return 0;
}
