// The library's C functions against dav1d's C, compiled unchanged, on made-up calls that both accept: pixels within the depth, dav1d's own filters, strides
// above the row. Compiled once with BITDEPTH 8 and once with 16 (depths 10 and 12 in turn). ./run builds and runs it.
#include "src/mc_tmpl.c"
#include "hemavolups.h"
#include <stdio.h>

#if BITDEPTH == 8
#define HV(name, ...) hv_##name##_8bpc(__VA_ARGS__)
#define HV_DEPTH(name, ...) hv_##name##_8bpc(__VA_ARGS__)
#define MAX
#else
#define HV(name, ...) hv_##name##_16bpc(__VA_ARGS__)
#define HV_DEPTH(name, ...) hv_##name##_16bpc(depth, __VA_ARGS__)
#define MAX , max
#endif

enum { SIDE = 160, STRIDE = 130, FIRST = 8 * SIDE + 8, PLACES = STRIDE * 130, BYTES = sizeof(pixel) };
static pixel src[SIDE * SIDE], dst[PLACES], their_dst[PLACES], other[64 * 64];
static int16_t tmp[PLACES], their_tmp[PLACES], tmp1[64 * 64], tmp2[64 * 64];
static uint8_t mask[64 * 64], their_mask[64 * 64];
static int8_t warp_table[321 * 8]; // filters 128 on are dav1d's: ours begins at 192, dav1d at 64

static int any(const int from, const int to) {
    static uint64_t state = 1;
    state = state * 6364136223846793005ull + 1442695040888963407ull;
    return from + (int) ((state >> 33) % (uint64_t) (to - from + 1));
}

static struct { const char *name; int calls, differ; } told[24];

static void same(const int k, const char *const name, const uint32_t number) {
    const int is = number == 0 && !memcmp(dst, their_dst, sizeof dst) && !memcmp(tmp, their_tmp, sizeof tmp) && !memcmp(mask, their_mask, sizeof mask);
    told[k].name = name, told[k].calls++, told[k].differ += !is;
    memcpy(their_dst, dst, sizeof dst), memcpy(their_tmp, tmp, sizeof tmp), memcpy(their_mask, mask, sizeof mask);
}

// One call of each kernel.
static void round_of(const int depth) {
    const int max = (1 << depth) - 1, far = any(0, 3) == 0;
    for (int i = 0; i < SIDE * SIDE; i++) src[i] = far ? max * any(0, 1) : any(0, max);
    for (int i = 0; i < 64 * 64; i++) other[i] = any(0, max), tmp1[i] = any(-32768, 32767), tmp2[i] = any(-32768, 32767), mask[i] = their_mask[i] = any(0, 64);
    const int w = any(1, 64), h = any(1, 64), mx = any(0, 15), my = any(0, 15), type = any(0, 2), all = 64 * 64, size = SIDE * SIDE;
    const int sx = any(0, 1023), sy = any(0, 1023), dx = any(512, 2048), dy = any(512, 2048), hor = any(0, 1), ver = hor & any(0, 1), sign = any(0, 1);
    const int bw = any(1, 128), bh = any(1, 128), iw = any(1, SIDE), ih = any(1, SIDE), x = any(-300, 300), y = any(-300, 300);
    const int even_w = (w + 1) & ~1, even_h = (h + 1) & ~1;
    const int8_t *const subpel = dav1d_mc_subpel_filters[0][0];
    const int16_t abcd[4] = { any(-1000, 1000), any(-1000, 1000), any(-1000, 1000), any(-1000, 1000) };
    const int weight = any(-16, 32), wx = any(-40000, 90000), wy = any(-40000, 90000), both = type | type << 2;
    const pixel *const at = src + FIRST;
    const ptrdiff_t ss = SIDE * BYTES, ds = STRIDE * BYTES;
    size_t row, col;
    int k = 0;
#define TRY(name, ours, theirs) do { const uint32_t number = ours; theirs; same(k++, name, number); } while (0)
    TRY("put", HV(put, dst, PLACES, STRIDE, at, size - FIRST, SIDE, w, h), put_c(their_dst, STRIDE, at, SIDE, w, h));
    TRY("prep", HV_DEPTH(prep, tmp, PLACES, w, at, size - FIRST, SIDE, w, h), prep_c(their_tmp, at, SIDE, w, h MAX));
    TRY("put_8tap", HV_DEPTH(put_8tap, dst, PLACES, STRIDE, src, size, FIRST, SIDE, w, h, mx, my, type, subpel, 600, NULL, 0),
        put_8tap_c(their_dst, ds, at, ss, w, h, mx, my, both MAX));
    TRY("prep_8tap", HV_DEPTH(prep_8tap, tmp, PLACES, w, src, size, FIRST, SIDE, w, h, mx, my, type, subpel, 600, NULL, 0),
        prep_8tap_c(their_tmp, at, ss, w, h, mx, my, both MAX));
    TRY("put_bilin", HV_DEPTH(put_bilin, dst, PLACES, STRIDE, at, size - FIRST, SIDE, w, h, mx, my), put_bilin_c(their_dst, ds, at, ss, w, h, mx, my MAX));
    TRY("prep_bilin", HV_DEPTH(prep_bilin, tmp, PLACES, w, at, size - FIRST, SIDE, w, h, mx, my), prep_bilin_c(their_tmp, at, ss, w, h, mx, my MAX));
    TRY("put_8tap_scaled", HV_DEPTH(put_8tap_scaled, dst, PLACES, STRIDE, src, size, FIRST, SIDE, w, h, sx, sy, dx, dy, type, subpel, 600),
        put_8tap_scaled_c(their_dst, ds, at, ss, w, h, sx, sy, dx, dy, both MAX));
    TRY("prep_8tap_scaled", HV_DEPTH(prep_8tap_scaled, tmp, PLACES, w, src, size, FIRST, SIDE, w, h, sx, sy, dx, dy, type, subpel, 600),
        prep_8tap_scaled_c(their_tmp, at, ss, w, h, sx, sy, dx, dy, both MAX));
    TRY("put_bilin_scaled", HV_DEPTH(put_bilin_scaled, dst, PLACES, STRIDE, src, size, FIRST, SIDE, w, h, sx, sy, dx, dy),
        put_bilin_scaled_c(their_dst, ds, at, ss, w, h, sx, sy, dx, dy MAX));
    TRY("prep_bilin_scaled", HV_DEPTH(prep_bilin_scaled, tmp, PLACES, w, src, size, FIRST, SIDE, w, h, sx, sy, dx, dy),
        prep_bilin_scaled_c(their_tmp, at, ss, w, h, sx, sy, dx, dy MAX));
    TRY("avg", HV_DEPTH(avg, dst, PLACES, STRIDE, tmp1, all, tmp2, all, w, h), avg_c(their_dst, ds, tmp1, tmp2, w, h MAX));
    TRY("w_avg", HV_DEPTH(w_avg, dst, PLACES, STRIDE, tmp1, all, tmp2, all, w, h, weight), w_avg_c(their_dst, ds, tmp1, tmp2, w, h, weight MAX));
    TRY("mask", HV_DEPTH(mask, dst, PLACES, STRIDE, tmp1, all, tmp2, all, w, h, mask, all), mask_c(their_dst, ds, tmp1, tmp2, w, h, mask MAX));
    TRY("blend", HV(blend, dst, PLACES, STRIDE, other, all, w, h, mask, all, &row, &col), blend_c(their_dst, ds, other, w, h, mask));
    TRY("w_mask", HV_DEPTH(w_mask, dst, PLACES, STRIDE, tmp1, all, tmp2, all, even_w, even_h, mask, all, even_w >> hor, sign, hor, ver),
        w_mask_c(their_dst, ds, tmp1, tmp2, even_w, even_h, their_mask, sign, hor, ver MAX));
    TRY("emu_edge", HV(emu_edge, bw, bh, iw, ih, x, y, dst, PLACES, STRIDE, src, size, SIDE), emu_edge_c(bw, bh, iw, ih, x, y, their_dst, ds, src, ss));
    TRY("warp_affine_8x8", HV_DEPTH(warp_affine_8x8, dst, PLACES, STRIDE, src, size, SIDE, FIRST, abcd[0], abcd[1], abcd[2], abcd[3], wx, wy, warp_table,
        sizeof warp_table), warp_affine_8x8_c(their_dst, ds, at, ss, abcd, wx, wy MAX));
    TRY("warp_affine_8x8t", HV_DEPTH(warp_affine_8x8t, tmp, PLACES, 8, src, size, SIDE, FIRST, abcd[0], abcd[1], abcd[2], abcd[3], wx, wy, warp_table,
        sizeof warp_table), warp_affine_8x8t_c(their_tmp, 8, at, ss, abcd, wx, wy MAX));
}

int main(const int words, char **const word) {
    const int rounds = words > 1 ? atoi(word[1]) : 2000;
    int calls = 0, differ = 0;
    memcpy(warp_table + 128 * 8, dav1d_mc_warp_filter, sizeof dav1d_mc_warp_filter);
    for (int i = 0; i < rounds; i++) round_of(BITDEPTH == 8 ? 8 : i % 2 ? 10 : 12);
    for (int k = 0; told[k].name; k++) {
        printf("%-18s %d bits: %d calls, %d differ\n", told[k].name, BITDEPTH, told[k].calls, told[k].differ);
        calls += told[k].calls, differ += told[k].differ;
    }
    printf("%d bits: %d calls, %d differ\n", BITDEPTH, calls, differ);
    return differ != 0;
}
