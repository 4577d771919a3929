/* Row selection by the proved kernels of this repository. Link with libvortex_c.a, and for
 * vortex_program with libvortex_rows_c.a and shim/memory.c.
 *
 * Each call returns a status and a value. A call whose status isn't VORTEX_DONE fails and writes
 * nothing; its value is 0, except with VORTEX_ROOM and VORTEX_INDEX. vortex_program has its own
 * statuses and values.
 *
 * The proofs hold for calls that keep these duties. They are the caller's, and nothing tests them:
 *
 * - Lists. Each is a pointer and a number of items. The pointer is aligned for the items and leads
 *   to that many of them, initialized if the list is read. A list has less than 2^63 bytes. The
 *   pointer of a list without items is ignored, so it may be null.
 * - Overlap. A list that is written overlaps no other list of the call. Lists that are only read
 *   may overlap one another.
 * - Threads. Until the call returns no other thread uses a list that the call writes, and none
 *   writes a list that it reads. A kernel tests a list in one pass and reads by it in another:
 *   the indices of vortex_take_* and vortex_take_bits, the bits of each mask, and the document of
 *   vortex_program. If such a list changes in between, the kernel reads outside of the others. So
 *   copy what is tested, if you can't keep writers off. Calls that share no list that one of them
 *   writes may run at once, since kernels have no state.
 * - Signals and forks. A signal handler that runs during a call uses none of its lists. Since
 *   vortex_program allocates, don't call it from a signal handler, or in the child of a fork of a
 *   process with threads. The kernels don't allocate, and may be called from both.
 * - Stack. It isn't bounded by a proof. bindings/check runs the kernels on a stack of 64 KiB.
 * - Names. A program has one copy of the library, and of each of the three functions of memory.c.
 *   The three belong to one allocator, which aligns each block to the powers of two up to 16 that
 *   divide its size.
 * - Processor. The library is built for x86-64-v2 (SSE4.2 and POPCNT) and Linux's calling
 *   convention. On a processor without POPCNT a call ends the process by SIGILL.
 * - Floating point. Kernels move floats as bytes.
 *
 * No function keeps a pointer or calls back, and only vortex_program allocates.
 *
 * Bit k of words is bit k % 64 of word k / 64, the lowest bit first. If a call has a parameter for
 * the first bit, such as mask_at, the bits before and after the list are ignored. Otherwise n bits
 * have exactly (n + 63) / 64 words, and the bits past the n are clear. A mask's bit is set if its
 * row is selected. */
#ifndef VORTEX_SELECT_H
#define VORTEX_SELECT_H

#include <stddef.h>
#include <stdint.h>

#ifdef __cplusplus
extern "C" {
#endif

/* The version of this header. The library has the same one if vortex_version() returns
 * VORTEX_VERSION. */
#define VORTEX_VERSION_MAJOR 0
#define VORTEX_VERSION_MINOR 1
#define VORTEX_VERSION_PATCH 0
#define VORTEX_VERSION                                                                             \
    (VORTEX_VERSION_MAJOR * 1000000 + VORTEX_VERSION_MINOR * 1000 + VORTEX_VERSION_PATCH)

/* Returns the version of the library: a million times the major number, plus a thousand times the
 * minor one, plus the patch number. */
uint32_t vortex_version(void);

typedef struct vortex_answer {
    uint64_t status;
    uint64_t value;
} vortex_answer;

enum {
    VORTEX_DONE = 0,
    VORTEX_LENGTHS = 1,   /* two lengths disagree */
    VORTEX_BITS_PAST = 2, /* a bit past the length is set */
    VORTEX_ROOM = 3,      /* the output is too small; the value is the required size */
    VORTEX_INDEX = 4      /* an index is out of bounds */
};

typedef struct vortex_record_16 {
    uint64_t words[2];
} vortex_record_16;

typedef struct vortex_record_32 {
    uint64_t words[4];
} vortex_record_32;

/* The rows from start up to end. */
typedef struct vortex_run {
    uint64_t start;
    uint64_t end;
} vortex_run;

/* Copies the records of src at the set bits of the mask to the front of dst, in order; the rest of
 * dst is unchanged. The mask has src_len bits from bit mask_at on. The value is the number of
 * selected records.
 *
 * VORTEX_LENGTHS: the mask has fewer bits. VORTEX_ROOM. */
vortex_answer vortex_filter_1(const uint8_t *src, size_t src_len, const uint64_t *mask,
    size_t mask_len, size_t mask_at, uint8_t *dst, size_t dst_len);
vortex_answer vortex_filter_2(const uint16_t *src, size_t src_len, const uint64_t *mask,
    size_t mask_len, size_t mask_at, uint16_t *dst, size_t dst_len);
vortex_answer vortex_filter_4(const uint32_t *src, size_t src_len, const uint64_t *mask,
    size_t mask_len, size_t mask_at, uint32_t *dst, size_t dst_len);
vortex_answer vortex_filter_8(const uint64_t *src, size_t src_len, const uint64_t *mask,
    size_t mask_len, size_t mask_at, uint64_t *dst, size_t dst_len);
vortex_answer vortex_filter_16(const vortex_record_16 *src, size_t src_len, const uint64_t *mask,
    size_t mask_len, size_t mask_at, vortex_record_16 *dst, size_t dst_len);
vortex_answer vortex_filter_32(const vortex_record_32 *src, size_t src_len, const uint64_t *mask,
    size_t mask_len, size_t mask_at, vortex_record_32 *dst, size_t dst_len);

/* Moves the records at the set bits of the mask to the front, in order. The mask has values_len
 * bits from bit mask_at on. The value is the number of selected records. The records after them
 * are unspecified.
 *
 * VORTEX_LENGTHS: the mask has fewer bits. */
vortex_answer vortex_filter_in_place_1(uint8_t *values, size_t values_len,
    const uint64_t *mask, size_t mask_len, size_t mask_at);
vortex_answer vortex_filter_in_place_2(uint16_t *values, size_t values_len,
    const uint64_t *mask, size_t mask_len, size_t mask_at);
vortex_answer vortex_filter_in_place_4(uint32_t *values, size_t values_len,
    const uint64_t *mask, size_t mask_len, size_t mask_at);
vortex_answer vortex_filter_in_place_8(uint64_t *values, size_t values_len,
    const uint64_t *mask, size_t mask_len, size_t mask_at);
vortex_answer vortex_filter_in_place_16(vortex_record_16 *values, size_t values_len,
    const uint64_t *mask, size_t mask_len, size_t mask_at);
vortex_answer vortex_filter_in_place_32(vortex_record_32 *values, size_t values_len,
    const uint64_t *mask, size_t mask_len, size_t mask_at);

/* Copies the records of src at the indices to the front of dst, in order; the rest of dst is
 * unchanged. If bit k of valid is clear, index k is null, and gives a record of zeros. If valid has
 * no words, no index is null. The value is the number of indices.
 *
 * VORTEX_LENGTHS: valid has words, but not as many as a mask of the indices. VORTEX_BITS_PAST.
 * VORTEX_ROOM. VORTEX_INDEX: an index that isn't null is out of bounds; the value is the place of
 * the first one in the list of indices. */
vortex_answer vortex_take_1(const uint8_t *src, size_t src_len, const uint64_t *indices,
    size_t indices_len, const uint64_t *valid, size_t valid_len, uint8_t *dst, size_t dst_len);
vortex_answer vortex_take_2(const uint16_t *src, size_t src_len, const uint64_t *indices,
    size_t indices_len, const uint64_t *valid, size_t valid_len, uint16_t *dst, size_t dst_len);
vortex_answer vortex_take_4(const uint32_t *src, size_t src_len, const uint64_t *indices,
    size_t indices_len, const uint64_t *valid, size_t valid_len, uint32_t *dst, size_t dst_len);
vortex_answer vortex_take_8(const uint64_t *src, size_t src_len, const uint64_t *indices,
    size_t indices_len, const uint64_t *valid, size_t valid_len, uint64_t *dst, size_t dst_len);
vortex_answer vortex_take_16(const vortex_record_16 *src, size_t src_len, const uint64_t *indices,
    size_t indices_len, const uint64_t *valid, size_t valid_len,
    vortex_record_16 *dst, size_t dst_len);
vortex_answer vortex_take_32(const vortex_record_32 *src, size_t src_len, const uint64_t *indices,
    size_t indices_len, const uint64_t *valid, size_t valid_len,
    vortex_record_32 *dst, size_t dst_len);

/* Does the same in one pass over the indices, which stops at the first one that is out of bounds.
 * Copies the records at the indices before it. The value is their number, which is indices_len if
 * no index is out of bounds.
 *
 * VORTEX_LENGTHS: valid has words, but not as many as a mask of the indices. VORTEX_BITS_PAST.
 * VORTEX_ROOM: dst has fewer records than there are indices. */
vortex_answer vortex_take_front_1(const uint8_t *src, size_t src_len, const uint64_t *indices,
    size_t indices_len, const uint64_t *valid, size_t valid_len, uint8_t *dst, size_t dst_len);
vortex_answer vortex_take_front_2(const uint16_t *src, size_t src_len, const uint64_t *indices,
    size_t indices_len, const uint64_t *valid, size_t valid_len, uint16_t *dst, size_t dst_len);
vortex_answer vortex_take_front_4(const uint32_t *src, size_t src_len, const uint64_t *indices,
    size_t indices_len, const uint64_t *valid, size_t valid_len, uint32_t *dst, size_t dst_len);
vortex_answer vortex_take_front_8(const uint64_t *src, size_t src_len, const uint64_t *indices,
    size_t indices_len, const uint64_t *valid, size_t valid_len, uint64_t *dst, size_t dst_len);
vortex_answer vortex_take_front_16(const vortex_record_16 *src, size_t src_len,
    const uint64_t *indices, size_t indices_len, const uint64_t *valid, size_t valid_len,
    vortex_record_16 *dst, size_t dst_len);
vortex_answer vortex_take_front_32(const vortex_record_32 *src, size_t src_len,
    const uint64_t *indices, size_t indices_len, const uint64_t *valid, size_t valid_len,
    vortex_record_32 *dst, size_t dst_len);

/* Widens src from 32 to 64 bits into dst; the rest of dst is unchanged. The value is src_len. To
 * take by indices of 32 bits, widen them block by block. Use blocks of a multiple of 64 indices, so
 * that each block's part of valid begins with a word.
 *
 * VORTEX_ROOM. */
vortex_answer vortex_widen_4(const uint32_t *src, size_t src_len, uint64_t *dst, size_t dst_len);

/* Writes the bits of src at the set bits of the mask to the front of dst, in order, and clear bits
 * to the end of their last word; the words after it are unchanged. The list src has `rows` bits
 * from bit src_at on, and the mask as many from bit mask_at on. The value is the number of selected
 * bits.
 *
 * VORTEX_LENGTHS: src or mask has fewer bits. VORTEX_ROOM: the value is the number of selected
 * bits, which need (value + 63) / 64 words. */
vortex_answer vortex_filter_bits(const uint64_t *src, size_t src_len, size_t src_at,
    const uint64_t *mask, size_t mask_len, size_t mask_at, size_t rows, uint64_t *dst,
    size_t dst_len);

/* Writes the bits of src at the indices to the front of dst, in order, and clear bits to the end
 * of their last word; the words after it are unchanged. The list src has `bits` bits
 * from bit src_at on. If bit k of valid is clear, index k is null, and gives a clear bit. If valid
 * has no words, no index is null. The value is the number of indices.
 *
 * VORTEX_LENGTHS: src has fewer bits, or valid has words, but not as many as a mask of the indices.
 * VORTEX_BITS_PAST: a bit of valid past the indices is set. VORTEX_ROOM: the bits need
 * (value + 63) / 64 words. VORTEX_INDEX: an index that isn't null is out of bounds; the value is
 * the place of the first one in the list of indices. */
vortex_answer vortex_take_bits(const uint64_t *src, size_t src_len, size_t src_at, size_t bits,
    const uint64_t *indices, size_t indices_len, const uint64_t *valid, size_t valid_len,
    uint64_t *dst, size_t dst_len);

/* Writes the positions of the set bits of a mask of `rows` bits to the front of dst, ascending; the
 * rest of dst is unchanged. The value is their number.
 *
 * VORTEX_LENGTHS: the mask doesn't have (rows + 63) / 64 words. VORTEX_BITS_PAST. VORTEX_ROOM. */
vortex_answer vortex_positions(const uint64_t *mask, size_t mask_len, size_t rows, uint64_t *dst,
    size_t dst_len);

/* Writes the maximal runs of selected rows of a mask of `rows` bits to the front of dst, ascending.
 * No run is empty, and no two touch. The rest of dst is unchanged. The value is their number.
 *
 * VORTEX_LENGTHS, VORTEX_BITS_PAST: as for positions. VORTEX_ROOM. */
vortex_answer vortex_runs(const uint64_t *mask, size_t mask_len, size_t rows, vortex_run *dst,
    size_t dst_len);

/* The value is the k-th set position, from 0, of a mask of `rows` bits.
 *
 * VORTEX_LENGTHS, VORTEX_BITS_PAST: as for positions. VORTEX_INDEX: at most k bits are set; the
 * value is how many are. */
vortex_answer vortex_rank(const uint64_t *mask, size_t mask_len, size_t rows, size_t k);

/* The value is the number of selected rows before row p of a mask of `rows` bits.
 *
 * VORTEX_LENGTHS, VORTEX_BITS_PAST: as for positions. VORTEX_INDEX: p is past the rows. */
vortex_answer vortex_count_before(const uint64_t *mask, size_t mask_len, size_t rows, size_t p);

/* Returns the version of libvortex_rows_c.a. */
uint32_t vortex_rows_version(void);

/* The statuses of vortex_program. All but the last are those of the program rows. */
enum {
    VORTEX_PROGRAM_DONE = 0,      /* all steps are valid */
    VORTEX_PROGRAM_BROKEN = 1,    /* a step is invalid */
    VORTEX_PROGRAM_MALFORMED = 2, /* the document isn't JSON, or is invalid */
    VORTEX_PROGRAM_WORDS = 3,     /* unknown subcommand or arguments */
    VORTEX_PROGRAM_MEMORY = 6,    /* out of memory, or the text would be too long */
    VORTEX_PROGRAM_TOO_LONG = 7,  /* the document has more than 16,777,216 bytes */
    VORTEX_PROGRAM_NO_WORDS = 9,  /* an argument isn't UTF-8 */
    VORTEX_PROGRAM_ROOM = 16      /* dst is too small */
};

/* Runs a subcommand, with the document in place of standard input, and writes the output to the
 * front of dst: the rows (VORTEX_PROGRAM_DONE), or the line of the invalid step
 * (VORTEX_PROGRAM_BROKEN). The value is the number of its bytes, and the rest of dst is unchanged.
 * Each argument ends with a byte 0, as in "rows\0" or "page\0" "1\0" "3\0"; the last one may end
 * with the list.
 *
 * At every other status nothing is written. With VORTEX_PROGRAM_ROOM the value is the number of
 * bytes of the output; otherwise it is 0. The call allocates by the functions of memory.c, and
 * frees all of it. */
vortex_answer vortex_program(const uint8_t *words, size_t words_len, const uint8_t *document,
    size_t document_len, uint8_t *dst, size_t dst_len);

#ifdef __cplusplus
}
#endif

#endif
