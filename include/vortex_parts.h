/* A column that is cut into parts, by numbers alone: what slices, masks and picks of the whole are
 * of each part, and items of several lists in any order. Link with libvortex_parts_c.a.
 *
 * The caller's duties are those of vortex_select.h: pointers lead to as many aligned items as their
 * length says, a list that is written overlaps no other list of the call, and no other thread
 * uses the lists during the call. Nothing else is asked. Each call tests its lists, doesn't
 * allocate, and writes nothing if its status isn't 0.
 *
 * Lengths, rows and positions are numbers of 64 bits. The bounds of parts are where each part
 * begins, and where the last one ends: one more than there are parts. */
#ifndef VORTEX_PARTS_H
#define VORTEX_PARTS_H

#include <stddef.h>
#include <stdint.h>

#include "vortex_select.h"

#ifdef __cplusplus
extern "C" {
#endif

/* The statuses of these calls, beside those of vortex_select.h. */
enum {
    VORTEX_RANGE = 5,    /* a slice begins past its end, or ends past the rows */
    VORTEX_BOUNDS = 6,   /* the bounds don't begin at 0 and ascend */
    VORTEX_TOO_MANY = 7  /* the parts have more rows than 64 bits count */
};

/* Returns the version of this library, which is VORTEX_VERSION of vortex_select.h if the header is
 * of the same version. */
uint32_t vortex_parts_version(void);

/* A null among places, parts and rows. */
#define VORTEX_NULL UINT64_MAX

/* Writes the bounds of parts of these lengths. The value is the number of all rows. LENGTHS:
 * `bounds` isn't one longer than `lengths`. TOO_MANY. */
vortex_answer vortex_cut_bounds(const size_t *lengths, size_t n_lengths,
    size_t *bounds, size_t n_bounds);

/* Cuts the rows from `start` up to `end` of the whole into ranges of the parts. Part k keeps its
 * rows from starts[k] up to ends[k], which are left[k] rows. LENGTHS: the lists aren't all of
 * one length. RANGE. */
vortex_answer vortex_cut_slice(const size_t *lengths, size_t n_lengths, size_t start, size_t end,
    size_t *starts, size_t n_starts, size_t *ends, size_t n_ends, size_t *left, size_t n_left);

/* Counts for each part the rows that a mask of the whole keeps of it. The mask has a bit for each
 * row of the parts, from bit `mask_at` of the words on, lowest bit first. LENGTHS: `left` isn't
 * as long as `lengths`, or the words have fewer bits. */
vortex_answer vortex_cut_mask(const uint64_t *words, size_t n_words, size_t mask_at,
    const size_t *lengths, size_t n_lengths, size_t *left, size_t n_left);

/* Cuts picks of the whole into picks of the parts. A place is a row of the whole, or VORTEX_NULL,
 * which goes to no part. The picks of all parts are written to `own`, part after part and in
 * their order, counted from the part's first row. Those of part k end at ends[k]. `own` is
 * unspecified after the last one. For each pick `parts` has its part, and `rows` which of that
 * part's picks it is. Both are VORTEX_NULL at a null.
 *
 * LENGTHS: `own`, `parts` and `rows` aren't as long as `places`, or `bounds` isn't one longer than
 * `ends`. INDEX: a pick is past the rows; the value is the number of the first one. BOUNDS. */
vortex_answer vortex_cut_picks(const uint64_t *places, size_t n_places,
    const size_t *bounds, size_t n_bounds, size_t *own, size_t n_own, size_t *ends, size_t n_ends,
    uint64_t *parts, size_t n_parts, uint64_t *rows, size_t n_rows);

/* Items of several lists, in any order. Item k of `dst` is row rows[k] of list parts[k], or zeros
 * if parts[k] is VORTEX_NULL. LENGTHS: `rows` and `dst` aren't as long as `parts`. INDEX: a list
 * doesn't have such a row; the value is the number of the first such place. */

typedef struct vortex_list_1 { const uint8_t *items; size_t len; } vortex_list_1;
typedef struct vortex_list_2 { const uint16_t *items; size_t len; } vortex_list_2;
typedef struct vortex_list_4 { const uint32_t *items; size_t len; } vortex_list_4;
typedef struct vortex_list_8 { const uint64_t *items; size_t len; } vortex_list_8;
typedef struct vortex_list_16 { const vortex_record_16 *items; size_t len; } vortex_list_16;
typedef struct vortex_list_32 { const vortex_record_32 *items; size_t len; } vortex_list_32;

vortex_answer vortex_interleave_1(const vortex_list_1 *lists, size_t n_lists, const uint64_t *parts,
    size_t n_parts, const uint64_t *rows, size_t n_rows, uint8_t *dst, size_t n_dst);
vortex_answer vortex_interleave_2(const vortex_list_2 *lists, size_t n_lists, const uint64_t *parts,
    size_t n_parts, const uint64_t *rows, size_t n_rows, uint16_t *dst, size_t n_dst);
vortex_answer vortex_interleave_4(const vortex_list_4 *lists, size_t n_lists, const uint64_t *parts,
    size_t n_parts, const uint64_t *rows, size_t n_rows, uint32_t *dst, size_t n_dst);
vortex_answer vortex_interleave_8(const vortex_list_8 *lists, size_t n_lists, const uint64_t *parts,
    size_t n_parts, const uint64_t *rows, size_t n_rows, uint64_t *dst, size_t n_dst);
vortex_answer vortex_interleave_16(const vortex_list_16 *lists, size_t n_lists, const uint64_t *parts,
    size_t n_parts, const uint64_t *rows, size_t n_rows, vortex_record_16 *dst, size_t n_dst);
vortex_answer vortex_interleave_32(const vortex_list_32 *lists, size_t n_lists, const uint64_t *parts,
    size_t n_parts, const uint64_t *rows, size_t n_rows, vortex_record_32 *dst, size_t n_dst);

/* `len` bits from bit `at` of the words on, lowest bit first. */
typedef struct vortex_bits {
    const uint64_t *words;
    size_t n_words;
    size_t at;
    size_t len;
} vortex_bits;

/* Does the same for bits. A clear bit is written at each null, and clear bits to the end of the
 * last word. LENGTHS: `rows` isn't as long as `parts`, `dst` doesn't have as many words as their
 * bits need, or the words of a list have fewer bits. INDEX. */
vortex_answer vortex_interleave_bits(const vortex_bits *lists, size_t n_lists, const uint64_t *parts,
    size_t n_parts, const uint64_t *rows, size_t n_rows, uint64_t *dst, size_t n_dst);

#ifdef __cplusplus
}
#endif

#endif
