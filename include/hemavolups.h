/*
 * hemavolups.h: motion compensation for AV2, as functions for C and C++ in libblocks.a.
 *
 * Every function takes any numbers, tables and buffers. It ends, and reads and writes only what it was lent. It answers
 * one of the numbers below; HV_DONE (0) says that it did its work. A refusal changes no buffer and no warp record, and
 * gives 0 in the other results (row and col of hv_blend with HV_MASK_VALUE excepted). Where several numbers apply, the
 * lowest is given. Above each function stand the numbers that it can give.
 *
 * Two sets. `_8bpc` has pixels of a byte, at depth 8. `_16bpc` has pixels of 16 bits, at depth 10 or 12; where the
 * result depends on the depth, it is the first parameter, and any other depth is HV_NUMBER.
 *
 * What a caller has to see to, since no function can test it:
 * - A slice is a pointer to its first element, then `_len`, its number of elements. The pointer is aligned for its
 *   element, also where the slice is empty. It may be null where `_len` is 0, and only there: a null slice is answered
 *   as any other empty one. No `_len` is more than there is.
 * - A single result is a pointer, never null; so are matrix (6 entries) and abcd (4).
 * - Nothing that is written overlaps anything else that the call was lent. What is only read may overlap.
 * - A bool is 0 or 1.
 * - 8-tap and the scaled functions take src_off before src_stride, warp takes src_stride before src_off.
 *
 * Stack and threads. The library has no variables of its own and allocates nothing: what a call keeps is on its stack.
 * In the calls measured on x86-64, with what is handed over on the stack, 8-tap and orders used less than 4 KB,
 * bilinear and the scaled functions less than 2 KB, all others less than 1 KB (docs/PERFORMANCE.md, "The stack"). Calls
 * share nothing but what they are lent: the functions are re-entrant, and any threads may call them at the same time.
 * What a call writes, its scratch too, is that call's alone while it runs: one scratch for each thread.
 *
 * Words used below:
 * - Strides, offsets and places count elements, not bytes. A stride is from the row that it carries (a source's w, a
 *   plane's width) to 32768, also where there is a single row. A buffer of rows holds (rows - 1) x stride + row
 *   elements; it may be longer.
 * - A block has w and h of 1 to 64. dst begins at its first pixel.
 * - An intermediate (tmp) is what the prep functions write: pixels times 2^B, minus P, cut to 16 bits. B is 4 at depths
 *   8 and 10, 2 at depth 12. P is 0 at depth 8, else 8192. Intermediates that are combined have no gaps: their rows are
 *   w apart.
 * - Tables are lent by the caller. A filter is 8 numbers. subpel has 600 numbers, 5 families of 15 filters; ext and
 *   warp have any whole number of filters, none too; recip has 129 numbers. A wrong length is HV_TABLE, also where the
 *   table isn't used.
 * - mx and my of a block are fractions of a pixel in sixteenths, 0 to 15; 0 means no filter on that axis. The scaled
 *   functions and warp have their own.
 */
#ifndef HEMAVOLUPS_H
#define HEMAVOLUPS_H

#include <stddef.h>
#include <stdint.h>
#ifndef __cplusplus
#include <stdbool.h>
#endif

#ifdef __cplusplus
extern "C" {
#endif

/* The numbers that a function answers. */
enum hv_number {
    HV_DONE = 0,
    HV_SIZE = 1,       /* a size is outside its range; w_mask has an odd side that it halves */
    HV_STRIDE = 2,     /* a stride is outside its range */
    HV_NUMBER = 3,     /* another number is outside its range; ss_ver without ss_hor */
    HV_TABLE = 4,      /* a table has a wrong length, or a needed filter isn't in it */
    HV_READ = 5,       /* a buffer that is read doesn't hold every place that is read */
    HV_WRITTEN = 6,    /* a buffer that is written, scratch included, is too short */
    HV_MASK_VALUE = 7, /* blend meets a mask value above 64 */
    HV_NO_SHEARS = 8   /* get_shear_params has matrix[2] at or below 0 */
};

/* Copy. The block's first pixel is src[0]. */

/* Copies a block of pixels from src to dst. Numbers 1 2 5 6. */
uint32_t hv_put_8bpc(uint8_t *dst, size_t dst_len, size_t dst_stride, const uint8_t *src, size_t src_len,
    size_t src_stride, size_t w, size_t h);
uint32_t hv_put_16bpc(uint16_t *dst, size_t dst_len, size_t dst_stride, const uint16_t *src, size_t src_len,
    size_t src_stride, size_t w, size_t h);

/* Makes the intermediate of a block: low 16 bits of (pixel << B) - P. Writes tmp. Numbers 1 2 5 6; 16-bit 3 too. */
uint32_t hv_prep_8bpc(int16_t *tmp, size_t tmp_len, size_t tmp_stride, const uint8_t *src, size_t src_len,
    size_t src_stride, size_t w, size_t h);
uint32_t hv_prep_16bpc(int32_t depth, int16_t *tmp, size_t tmp_len, size_t tmp_stride,
    const uint16_t *src, size_t src_len, size_t src_stride, size_t w, size_t h);

/*
 * 8-tap.
 *
 * The block's first pixel is src[src_off]. Taps stand at -3 to +4 on each axis whose fraction isn't 0; src has to hold
 * them all. filter_type is 0 to 2, and the filters are those of subpel: family filter_type on a side above 4 pixels,
 * else family 3 + (filter_type & 1). Or it is -1, and the filters are those of ext; a fraction may then be any number
 * from 0 up, and one above the number of filters is HV_TABLE. Filter number fraction - 1 is used.
 */

/* Predicts a block of pixels. Writes dst. Numbers 1 2 3 4 5 6. */
uint32_t hv_put_8tap_8bpc(uint8_t *dst, size_t dst_len, size_t dst_stride, const uint8_t *src, size_t src_len,
    size_t src_off, size_t src_stride, size_t w, size_t h, int32_t mx, int32_t my, int32_t filter_type,
    const int8_t *subpel, size_t subpel_len, const int8_t *ext, size_t ext_len);
uint32_t hv_put_8tap_16bpc(int32_t depth, uint16_t *dst, size_t dst_len, size_t dst_stride,
    const uint16_t *src, size_t src_len, size_t src_off, size_t src_stride, size_t w, size_t h, int32_t mx, int32_t my,
    int32_t filter_type, const int8_t *subpel, size_t subpel_len, const int8_t *ext, size_t ext_len);

/* Predicts a block's intermediate. Writes tmp. Numbers 1 2 3 4 5 6. */
uint32_t hv_prep_8tap_8bpc(int16_t *tmp, size_t tmp_len, size_t tmp_stride, const uint8_t *src, size_t src_len,
    size_t src_off, size_t src_stride, size_t w, size_t h, int32_t mx, int32_t my, int32_t filter_type,
    const int8_t *subpel, size_t subpel_len, const int8_t *ext, size_t ext_len);
uint32_t hv_prep_8tap_16bpc(int32_t depth, int16_t *tmp, size_t tmp_len, size_t tmp_stride,
    const uint16_t *src, size_t src_len, size_t src_off, size_t src_stride, size_t w, size_t h, int32_t mx, int32_t my,
    int32_t filter_type, const int8_t *subpel, size_t subpel_len, const int8_t *ext, size_t ext_len);

/* Bilinear. The block's first pixel is src[0]; src has a column, or a row, more where that fraction isn't 0. */

/* Predicts a block of pixels. Writes dst. Numbers 1 2 3 5 6. */
uint32_t hv_put_bilin_8bpc(uint8_t *dst, size_t dst_len, size_t dst_stride, const uint8_t *src, size_t src_len,
    size_t src_stride, size_t w, size_t h, int32_t mx, int32_t my);
uint32_t hv_put_bilin_16bpc(int32_t depth, uint16_t *dst, size_t dst_len, size_t dst_stride,
    const uint16_t *src, size_t src_len, size_t src_stride, size_t w, size_t h, int32_t mx, int32_t my);

/* Predicts a block's intermediate. Writes tmp. Numbers 1 2 3 5 6. */
uint32_t hv_prep_bilin_8bpc(int16_t *tmp, size_t tmp_len, size_t tmp_stride, const uint8_t *src, size_t src_len,
    size_t src_stride, size_t w, size_t h, int32_t mx, int32_t my);
uint32_t hv_prep_bilin_16bpc(int32_t depth, int16_t *tmp, size_t tmp_len, size_t tmp_stride,
    const uint16_t *src, size_t src_len, size_t src_stride, size_t w, size_t h, int32_t mx, int32_t my);

/*
 * Scaled: predicts a block from a reference of another size. The block's first pixel is src[src_off]. Column x of the
 * block stands at mx + x dx, row y at my + y dy, in 1/1024 of a pixel of the source: the whole pixel is that >> 10, and
 * of the fraction only the top four bits count, its sixteenths. In 8-tap they choose the filter of that column or row,
 * none for 0; in bilinear they are the weight. Row r and column c of the source are src[src_off + r src_stride + c]. The
 * starts mx and my are 0 to 1023, the steps dx and dy 0 to 4096; 1024 is no scaling.
 *
 * src has to hold each place that is fetched, whether or not a pixel comes of it. 8-tap fetches every row from -3 to
 * ((my + (h - 1) dy) >> 10) + 4, and in each, for every x with c = (mx + x dx) >> 10, column c alone where its
 * sixteenths are 0, else c - 3 to c + 4. Bilinear fetches every row from 0 to ((my + (h - 1) dy) >> 10) + 1, and in
 * each always c and c + 1. src_stride is from w, also where more of a row is fetched.
 *
 * A pixel that is put without a fraction is no copy: it goes through the intermediate, which has 16 bits, and is
 * clipped. Within the depth it is the same pixel.
 */

/*
 * Predicts a block of pixels by 8 taps. filter_type is 0 to 2; families go by w and h as in hv_put_8tap, and there is
 * no ext. Writes dst. Numbers 1 2 3 4 5 6.
 */
uint32_t hv_put_8tap_scaled_8bpc(uint8_t *dst, size_t dst_len, size_t dst_stride, const uint8_t *src, size_t src_len,
    size_t src_off, size_t src_stride, size_t w, size_t h, int32_t mx, int32_t my, int32_t dx, int32_t dy,
    int32_t filter_type, const int8_t *subpel, size_t subpel_len);
uint32_t hv_put_8tap_scaled_16bpc(int32_t depth, uint16_t *dst, size_t dst_len, size_t dst_stride,
    const uint16_t *src, size_t src_len, size_t src_off, size_t src_stride, size_t w, size_t h, int32_t mx, int32_t my,
    int32_t dx, int32_t dy, int32_t filter_type, const int8_t *subpel, size_t subpel_len);

/* Predicts a block's intermediate by 8 taps. Writes tmp. Numbers 1 2 3 4 5 6. */
uint32_t hv_prep_8tap_scaled_8bpc(int16_t *tmp, size_t tmp_len, size_t tmp_stride, const uint8_t *src, size_t src_len,
    size_t src_off, size_t src_stride, size_t w, size_t h, int32_t mx, int32_t my, int32_t dx, int32_t dy,
    int32_t filter_type, const int8_t *subpel, size_t subpel_len);
uint32_t hv_prep_8tap_scaled_16bpc(int32_t depth, int16_t *tmp, size_t tmp_len, size_t tmp_stride,
    const uint16_t *src, size_t src_len, size_t src_off, size_t src_stride, size_t w, size_t h, int32_t mx, int32_t my,
    int32_t dx, int32_t dy, int32_t filter_type, const int8_t *subpel, size_t subpel_len);

/* Predicts a block of pixels, bilinear. Writes dst. Numbers 1 2 3 5 6. */
uint32_t hv_put_bilin_scaled_8bpc(uint8_t *dst, size_t dst_len, size_t dst_stride, const uint8_t *src, size_t src_len,
    size_t src_off, size_t src_stride, size_t w, size_t h, int32_t mx, int32_t my, int32_t dx, int32_t dy);
uint32_t hv_put_bilin_scaled_16bpc(int32_t depth, uint16_t *dst, size_t dst_len, size_t dst_stride,
    const uint16_t *src, size_t src_len, size_t src_off, size_t src_stride, size_t w, size_t h, int32_t mx, int32_t my,
    int32_t dx, int32_t dy);

/* Predicts a block's intermediate, bilinear. Writes tmp. Numbers 1 2 3 5 6. */
uint32_t hv_prep_bilin_scaled_8bpc(int16_t *tmp, size_t tmp_len, size_t tmp_stride, const uint8_t *src, size_t src_len,
    size_t src_off, size_t src_stride, size_t w, size_t h, int32_t mx, int32_t my, int32_t dx, int32_t dy);
uint32_t hv_prep_bilin_scaled_16bpc(int32_t depth, int16_t *tmp, size_t tmp_len, size_t tmp_stride,
    const uint16_t *src, size_t src_len, size_t src_off, size_t src_stride, size_t w, size_t h, int32_t mx, int32_t my,
    int32_t dx, int32_t dy);

/* Combine: two intermediates without gaps become a block of pixels. Writes dst. */

/* Their average. Numbers 1 2 5 6; 16-bit 3 too. */
uint32_t hv_avg_8bpc(uint8_t *dst, size_t dst_len, size_t dst_stride, const int16_t *tmp1, size_t tmp1_len,
    const int16_t *tmp2, size_t tmp2_len, size_t w, size_t h);
uint32_t hv_avg_16bpc(int32_t depth, uint16_t *dst, size_t dst_len, size_t dst_stride,
    const int16_t *tmp1, size_t tmp1_len, const int16_t *tmp2, size_t tmp2_len, size_t w, size_t h);

/* Their weighted average: weight of tmp1, 16 - weight of tmp2. weight is -16 to 32. Numbers 1 2 3 5 6. */
uint32_t hv_w_avg_8bpc(uint8_t *dst, size_t dst_len, size_t dst_stride, const int16_t *tmp1, size_t tmp1_len,
    const int16_t *tmp2, size_t tmp2_len, size_t w, size_t h, int32_t weight);
uint32_t hv_w_avg_16bpc(int32_t depth, uint16_t *dst, size_t dst_len, size_t dst_stride,
    const int16_t *tmp1, size_t tmp1_len, const int16_t *tmp2, size_t tmp2_len, size_t w, size_t h, int32_t weight);

/*
 * Their average by a mask without gaps, which has for each pixel the weight m of tmp1, against 64 - m of tmp2. m may be
 * any byte. Numbers 1 2 5 6; 16-bit 3 too.
 */
uint32_t hv_mask_8bpc(uint8_t *dst, size_t dst_len, size_t dst_stride, const int16_t *tmp1, size_t tmp1_len,
    const int16_t *tmp2, size_t tmp2_len, size_t w, size_t h, const uint8_t *mask, size_t mask_len);
uint32_t hv_mask_16bpc(int32_t depth, uint16_t *dst, size_t dst_len, size_t dst_stride,
    const int16_t *tmp1, size_t tmp1_len, const int16_t *tmp2, size_t tmp2_len, size_t w, size_t h,
    const uint8_t *mask, size_t mask_len);

/*
 * Mask: combines two intermediates as hv_mask does, by weights that come of their difference, and writes these weights.
 * With ss_hor a pair of columns gives one weight, (m + n + 1 - sign) >> 1; with ss_ver too, a square of four gives (k +
 * l + m + n + 2 - sign) >> 2. The mask then has w / 2 columns, and h / 2 rows; a side that is halved is even. sign is 0
 * or 1. Writes dst and mask. Numbers 1 2 3 5 6.
 */
uint32_t hv_w_mask_8bpc(uint8_t *dst, size_t dst_len, size_t dst_stride, const int16_t *tmp1, size_t tmp1_len,
    const int16_t *tmp2, size_t tmp2_len, size_t w, size_t h, uint8_t *mask, size_t mask_len, size_t mask_stride,
    int32_t sign, bool ss_hor, bool ss_ver);
uint32_t hv_w_mask_16bpc(int32_t depth, uint16_t *dst, size_t dst_len, size_t dst_stride,
    const int16_t *tmp1, size_t tmp1_len, const int16_t *tmp2, size_t tmp2_len, size_t w, size_t h,
    uint8_t *mask, size_t mask_len, size_t mask_stride, int32_t sign, bool ss_hor, bool ss_ver);

/* Blend. dst is read and written. */

/*
 * Blends tmp into dst: m of tmp against 64 - m of dst. tmp and mask have no gaps. A mask value above 64 inside the
 * block is HV_MASK_VALUE; row and col then say where the first such value stands, in reading order. Numbers 1 2 5 6 7.
 */
uint32_t hv_blend_8bpc(uint8_t *dst, size_t dst_len, size_t dst_stride, const uint8_t *tmp, size_t tmp_len, size_t w,
    size_t h, const uint8_t *mask, size_t mask_len, size_t *row, size_t *col);
uint32_t hv_blend_16bpc(uint16_t *dst, size_t dst_len, size_t dst_stride, const uint16_t *tmp, size_t tmp_len, size_t w,
    size_t h, const uint8_t *mask, size_t mask_len, size_t *row, size_t *col);

/*
 * Changes each pixel d to (alpha x d + beta) >> 8, clamped to the depth. alpha is within +-2^14, beta within +-2^22.
 * Numbers 1 2 3 6.
 */
uint32_t hv_morph_8bpc(uint8_t *dst, size_t dst_len, size_t dst_stride, int32_t alpha, int32_t beta, size_t w,
    size_t h);
uint32_t hv_morph_16bpc(int32_t depth, uint16_t *dst, size_t dst_len, size_t dst_stride, int32_t alpha, int32_t beta,
    size_t w, size_t h);

/*
 * Warp: a block of 8 x 8. Its first pixel is src[src_off]; src holds the rows -3 to 11, and on each the columns -3 to
 * 11. At the r-th of these rows, column i takes filter 192 + ((mx + i a + r b + 512) >> 10) of warp; then output row j
 * takes, at column i, filter 192 + ((my + i c + j d + 512) >> 10). One that isn't in warp is HV_TABLE. mx and my are
 * within +-2^20. Strides are from 8.
 */

/* Predicts a block of pixels. Writes dst. Numbers 2 3 4 5 6. */
uint32_t hv_warp_affine_8x8_8bpc(uint8_t *dst, size_t dst_len, size_t dst_stride, const uint8_t *src, size_t src_len,
    size_t src_stride, size_t src_off, int16_t a, int16_t b, int16_t c, int16_t d, int32_t mx, int32_t my,
    const int8_t *warp, size_t warp_len);
uint32_t hv_warp_affine_8x8_16bpc(int32_t depth, uint16_t *dst, size_t dst_len, size_t dst_stride,
    const uint16_t *src, size_t src_len, size_t src_stride, size_t src_off, int16_t a, int16_t b, int16_t c, int16_t d,
    int32_t mx, int32_t my, const int8_t *warp, size_t warp_len);

/* Predicts a block's intermediate. Writes tmp. Numbers 2 3 4 5 6. */
uint32_t hv_warp_affine_8x8t_8bpc(int16_t *tmp, size_t tmp_len, size_t tmp_stride, const uint8_t *src, size_t src_len,
    size_t src_stride, size_t src_off, int16_t a, int16_t b, int16_t c, int16_t d, int32_t mx, int32_t my,
    const int8_t *warp, size_t warp_len);
uint32_t hv_warp_affine_8x8t_16bpc(int32_t depth, int16_t *tmp, size_t tmp_len, size_t tmp_stride,
    const uint16_t *src, size_t src_len, size_t src_stride, size_t src_off, int16_t a, int16_t b, int16_t c, int16_t d,
    int32_t mx, int32_t my, const int8_t *warp, size_t warp_len);

/*
 * Edge: fetches a block of bw x bh (1 to 128 each) at column x, row y of a plane of iw x ih (1 to 16384 each) that goes
 * on for ever by repeating its border pixels. x and y are within +-2^30. Writes dst. Numbers 1 2 3 5 6.
 */
uint32_t hv_emu_edge_8bpc(size_t bw, size_t bh, size_t iw, size_t ih, int64_t x, int64_t y,
    uint8_t *dst, size_t dst_len, size_t dst_stride, const uint8_t *plane, size_t plane_len, size_t plane_stride);
uint32_t hv_emu_edge_16bpc(size_t bw, size_t bh, size_t iw, size_t ih, int64_t x, int64_t y,
    uint16_t *dst, size_t dst_len, size_t dst_stride, const uint16_t *plane, size_t plane_len, size_t plane_stride);

/* Search. Nothing but the results is written. */

/*
 * The sum of absolute differences of two blocks over the rows 0, 2, 4 and so on, shifted right by depth - 8. Both
 * blocks are lent whole. Numbers 1 2 5; 16-bit 3 too.
 */
uint32_t hv_sad_nxn_8bpc(const uint8_t *p0, size_t p0_len, size_t p0_stride, const uint8_t *p1, size_t p1_len,
    size_t p1_stride, size_t w, size_t h, int32_t *sum);
uint32_t hv_sad_nxn_16bpc(int32_t depth, const uint16_t *p0, size_t p0_len, size_t p0_stride,
    const uint16_t *p1, size_t p1_len, size_t p1_stride, size_t w, size_t h, int32_t *sum);

/*
 * The offset, -2 to 2 on each axis, at which two blocks match best. p0 and p1 hold (w + 8) x (h + 8) pixels, and
 * strides are from w + 8. Without is_implicit the centre (0, 0) is never the answer. With it the centre is tried first,
 * its sum s counted as (7s + 7) >> 3, and is the answer at once where that is below 2(w + 4)(h + 4). Numbers 1 2 5;
 * 16-bit 3 too.
 */
uint32_t hv_sad_refine_mv_8bpc(const uint8_t *p0, size_t p0_len, size_t p0_stride, const uint8_t *p1, size_t p1_len,
    size_t p1_stride, size_t w, size_t h, bool is_implicit, int32_t *dx, int32_t *dy);
uint32_t hv_sad_refine_mv_16bpc(int32_t depth, const uint16_t *p0, size_t p0_len, size_t p0_stride,
    const uint16_t *p1, size_t p1_len, size_t p1_stride, size_t w, size_t h, bool is_implicit, int32_t *dx,
    int32_t *dy);

/*
 * The warp model. It is a record of matrix, abcd (the four shears) and affine (1 where the shears are small enough to
 * warp by, else 0). The two functions that change it write it where they answer 0, and leave all of it as it was where
 * they refuse. Entries 2 to 5 of matrix are within +-2^22.
 */

/* The reciprocal of d, near y / 2^shift: y is from recip, shift is d's top bit + 9. d is 1 to 2^31 - 1. Numbers 3 4. */
uint32_t hv_resolve_divisor_32(uint32_t d, const uint16_t *recip, size_t recip_len, int32_t *y, int32_t *shift);

/* Sets abcd and affine from matrix. Numbers 3 4 8. */
uint32_t hv_get_shear_params(int32_t matrix[6], int16_t abcd[4], int32_t *affine,
    const uint16_t *recip, size_t recip_len);

/*
 * Sets entries 0 and 1 of matrix, so that a block moves by mv_x, mv_y (within +-2^20). bw4 and bh4 are its sides in
 * units of 4 pixels, 1 to 64; bx4 and by4 its place, 0 to 16384. Numbers 1 3.
 */
uint32_t hv_set_affine_mv2d(int32_t bw4, int32_t bh4, int32_t mv_x, int32_t mv_y, int32_t matrix[6], int32_t bx4,
    int32_t by4);

/*
 * Frames. A frame has luma sides of 1 to 16384 and two flags; a chroma plane's side is luma's divided by two, rounded
 * up, where its flag is set: luma 641 has chroma 321, and luma 1 has 1. ss_ver without ss_hor is HV_NUMBER, for luma
 * too. plane is the plane that plane_no names, whole; any other name is HV_NUMBER.
 */
enum hv_plane_no { HV_LUMA = 0, HV_CHROMA = 1 };

/* How a block is predicted. Any other kind is HV_NUMBER. */
enum hv_kind { HV_COPY = 0, HV_8TAP = 1, HV_BILINEAR = 2, HV_WARP = 3 };

/*
 * Where a window is taken from: always from scratch, which is the default; or from the plane if it lies inside, else
 * from scratch. Any other mode is HV_NUMBER. A window in scratch stays as it is whatever becomes of the plane; one that
 * is a part of the plane is only good until the plane's memory is written again.
 *
 * WARNING: these two numbers have changed places (CHANGELOG.md, request E12): 0 was HV_PLANE_IF_INSIDE, 1 was
 * HV_ALWAYS_SCRATCH. A caller that passes the names has to be compiled again, with this header. One that passes a bare
 * 0 or 1 now gets the other mode, and is answered HV_DONE as before.
 */
enum hv_mode { HV_ALWAYS_SCRATCH = 0, HV_PLANE_IF_INSIDE = 1 };

/* The buffer that holds an answer. */
enum hv_buffer { HV_IN_PLANE = 1, HV_IN_SCRATCH = 2 };

/* Scratch of this length holds every window: a block of 64 x 64 and the margins of 8 taps. */
enum { HV_SCRATCH_LEN = 71 * 71 };

/*
 * Window: the pixels that a block of w x h at x, y (within +-2^30) is predicted from, on the plane that goes on for
 * ever. It is the block with margins of 3 before and 4 after on both axes (HV_8TAP, HV_WARP), 0 and 1 (HV_BILINEAR) or
 * none (HV_COPY). Answers the buffer, the place of the window's first pixel in it, its stride there, and len, the
 * number of elements from its first pixel to its last. Scratch has the window's width as stride, must hold the window
 * in either mode, and is written where it is answered. Numbers 1 2 3 5 6.
 */
uint32_t hv_window_8bpc(size_t luma_w, size_t luma_h, bool ss_hor, bool ss_ver, uint32_t plane_no,
    const uint8_t *plane, size_t plane_len, size_t plane_stride, uint32_t kind, size_t w, size_t h, int64_t x,
    int64_t y, uint32_t mode, uint8_t *scratch, size_t scratch_len, uint32_t *buffer, size_t *place, size_t *stride,
    size_t *len);
uint32_t hv_window_16bpc(size_t luma_w, size_t luma_h, bool ss_hor, bool ss_ver, uint32_t plane_no,
    const uint16_t *plane, size_t plane_len, size_t plane_stride, uint32_t kind, size_t w, size_t h, int64_t x,
    int64_t y, uint32_t mode, uint16_t *scratch, size_t scratch_len, uint32_t *buffer, size_t *place, size_t *stride,
    size_t *len);

/*
 * Row: where one row of the plane lies. row is 0 to the plane's height - 1. Answers HV_IN_PLANE, the place of its first
 * pixel, the plane's stride, and the plane's width as len. Nothing but the results is written. Numbers 1 2 3 5.
 */
uint32_t hv_row_8bpc(size_t luma_w, size_t luma_h, bool ss_hor, bool ss_ver, uint32_t plane_no,
    const uint8_t *plane, size_t plane_len, size_t plane_stride, int64_t row, uint32_t *buffer, size_t *place,
    size_t *stride, size_t *len);
uint32_t hv_row_16bpc(size_t luma_w, size_t luma_h, bool ss_hor, bool ss_ver, uint32_t plane_no,
    const uint16_t *plane, size_t plane_len, size_t plane_stride, int64_t row, uint32_t *buffer, size_t *place,
    size_t *stride, size_t *len);

/*
 * Orders: predict a block from a plane that goes on for ever, through a window. x, y is the reference's place of the
 * block's first pixel, whole motion included, within +-2^30. mx, my, filter_type and a, b, c, d are those of the kernel
 * of this kind; what it doesn't take isn't looked at. A warp is 8 x 8. Of the tables each length is tested, whatever
 * the kind. Scratch must hold the window. The kind decides the window's mode: HV_COPY and HV_WARP take the default,
 * HV_ALWAYS_SCRATCH, and so write the window into scratch always, inside the plane too; HV_8TAP and HV_BILINEAR take
 * HV_PLANE_IF_INSIDE, and so write it there only where it isn't inside the plane.
 */

/* Predicts a block of pixels. Writes dst, and scratch as said above. Numbers 1 2 3 4 5 6. */
uint32_t hv_order_put_8bpc(size_t luma_w, size_t luma_h, bool ss_hor, bool ss_ver, uint32_t plane_no,
    const uint8_t *plane, size_t plane_len, size_t plane_stride, uint32_t kind, int64_t x, int64_t y, size_t w,
    size_t h, int32_t mx, int32_t my, int32_t filter_type, int16_t a, int16_t b, int16_t c, int16_t d,
    const int8_t *subpel, size_t subpel_len, const int8_t *ext, size_t ext_len, const int8_t *warp, size_t warp_len,
    uint8_t *scratch, size_t scratch_len, uint8_t *dst, size_t dst_len, size_t dst_stride);
uint32_t hv_order_put_16bpc(int32_t depth, size_t luma_w, size_t luma_h, bool ss_hor, bool ss_ver, uint32_t plane_no,
    const uint16_t *plane, size_t plane_len, size_t plane_stride, uint32_t kind, int64_t x, int64_t y, size_t w,
    size_t h, int32_t mx, int32_t my, int32_t filter_type, int16_t a, int16_t b, int16_t c, int16_t d,
    const int8_t *subpel, size_t subpel_len, const int8_t *ext, size_t ext_len, const int8_t *warp, size_t warp_len,
    uint16_t *scratch, size_t scratch_len, uint16_t *dst, size_t dst_len, size_t dst_stride);

/* Predicts a block's intermediate. Writes tmp, and scratch likewise. Numbers 1 2 3 4 5 6. */
uint32_t hv_order_prep_8bpc(size_t luma_w, size_t luma_h, bool ss_hor, bool ss_ver, uint32_t plane_no,
    const uint8_t *plane, size_t plane_len, size_t plane_stride, uint32_t kind, int64_t x, int64_t y, size_t w,
    size_t h, int32_t mx, int32_t my, int32_t filter_type, int16_t a, int16_t b, int16_t c, int16_t d,
    const int8_t *subpel, size_t subpel_len, const int8_t *ext, size_t ext_len, const int8_t *warp, size_t warp_len,
    uint8_t *scratch, size_t scratch_len, int16_t *tmp, size_t tmp_len, size_t tmp_stride);
uint32_t hv_order_prep_16bpc(int32_t depth, size_t luma_w, size_t luma_h, bool ss_hor, bool ss_ver, uint32_t plane_no,
    const uint16_t *plane, size_t plane_len, size_t plane_stride, uint32_t kind, int64_t x, int64_t y, size_t w,
    size_t h, int32_t mx, int32_t my, int32_t filter_type, int16_t a, int16_t b, int16_t c, int16_t d,
    const int8_t *subpel, size_t subpel_len, const int8_t *ext, size_t ext_len, const int8_t *warp, size_t warp_len,
    uint16_t *scratch, size_t scratch_len, int16_t *tmp, size_t tmp_len, size_t tmp_stride);

#ifdef __cplusplus
}
#endif

#endif
