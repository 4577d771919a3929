/* Rows out of a store that is read chunk by chunk: which chunks to read, and their picked rows,
 * put where they belong. Link with libvortex_chunks_c.a.
 *
 * A column of `len` rows lies in chunks of `chunk_len` rows. The last chunk may have fewer. A
 * row has `width` bytes, from 1 to 2^20. A pick is the number of a row, or a null if its bit of
 * `valid` is clear. Without bits none is null. vortex_arrow_compose of vortex_arrow.h writes
 * such picks for steps.
 *
 * This loop reads the rows of n picks, none of them null, into `out`, which has room for n rows.
 * `load` reads chunk k of `column` into `chunk`, and returns whether it did. `chunk` has room
 * for chunk_len rows. Each chunk with a pick is read once, in ascending order, and no other
 * chunk is read.
 *
 *    int read_rows(struct column *column, uint64_t len, uint64_t chunk_len, uint64_t width,
 *        const uint64_t *picks, size_t n, uint8_t *chunk, uint8_t *out)
 *    {
 *        size_t chunks = (size_t)vortex_chunks_count(len, chunk_len).value, k;
 *        uint64_t *starts = calloc(chunks + 1, sizeof *starts);
 *        uint64_t *order = calloc(n + 1, sizeof *order);
 *        int done = starts && order && vortex_chunks_plan(picks, n, NULL, 0, len, chunk_len,
 *            starts, chunks + 1, order, n).status == VORTEX_DONE;
 *        for (k = 0; done && k < chunks; k++) {
 *            size_t count = (size_t)(starts[k + 1] - starts[k]);
 *            if (count > 0) {
 *                done = load(column, k, chunk) && vortex_chunks_scatter(chunk,
 *                    chunk_len * width, k, len, chunk_len, width, picks, n, order + starts[k],
 *                    count, out, n * width).status == VORTEX_DONE;
 *            }
 *        }
 *        free(starts);
 *        free(order);
 *        return done;
 *    }
 *
 * Proved: if each chunk of the plan is scattered, in any order, and vortex_chunks_fill_nulls was
 * called if there are nulls, then `out` has the rows at the picks, and zeros at each null.
 *
 * The caller must ensure what vortex_select.h lists: a pointer leads to as many aligned items as
 * its length says, and a list that is written overlaps no other list of the call. Until a call
 * returns no other thread writes to what it reads. Two threads may scatter two chunks of one
 * plan into one `out` at once, since these calls write no byte in common. No call allocates or
 * keeps anything.
 *
 * Each call tests its arguments. If its status is not VORTEX_DONE, it wrote nothing. Its value
 * is then 0, unless VORTEX_CHUNKS_PLACE or VORTEX_CHUNKS_STRAY says otherwise. */
#ifndef VORTEX_CHUNKS_H
#define VORTEX_CHUNKS_H

#include <stddef.h>
#include <stdint.h>

#include "vortex_select.h"

#ifdef __cplusplus
extern "C" {
#endif

/* The statuses of these calls, beside VORTEX_DONE. */
enum {
    VORTEX_CHUNKS_WIDTH = 1,  /* a row has no bytes, or more than 2^20 */
    VORTEX_CHUNKS_LEN = 2,    /* chunks have no rows */
    VORTEX_CHUNKS_STARTS = 3, /* `starts` is not one longer than there are chunks */
    VORTEX_CHUNKS_ORDER = 4,  /* `order` is not as long as `places` */
    VORTEX_CHUNKS_VALID = 5,  /* there are bits of validity, and fewer than picks */
    VORTEX_CHUNKS_PLACE = 6,  /* a pick is past the rows; the value is the first one's number */
    VORTEX_CHUNKS_CHUNK = 7,  /* the column has no chunk of this number */
    VORTEX_CHUNKS_BYTES = 8,  /* the bytes are neither the chunk's rows nor a whole chunk's */
    VORTEX_CHUNKS_OUTPUT = 9, /* `out` has no room for a row a pick */
    VORTEX_CHUNKS_STRAY = 10  /* an entry of `order` is not the number of a pick in the chunk; the
                               * value is the first such entry */
};

/* Returns how many chunks a column has. LEN. */
vortex_answer vortex_chunks_count(uint64_t len, uint64_t chunk_len);

/* Plans which chunks are to be read for these picks, and which picks lie in each chunk. `starts`
 * has one number more than there are chunks, `order` one for each pick. Chunk k is to be read if
 * starts[k] is below starts[k + 1]. The numbers of its picks, ascending, are order[starts[k]] up
 * to order[starts[k + 1]], the end excluded. Returns how many picks are not null.
 *
 * LEN, STARTS, ORDER, VALID and PLACE: the first that applies. */
vortex_answer vortex_chunks_plan(const uint64_t *places, size_t n_places, const uint8_t *valid,
    size_t n_valid, uint64_t len, uint64_t chunk_len, uint64_t *starts, size_t n_starts,
    uint64_t *order, size_t n_order);

/* Writes the picked rows of chunk k: row j of `out` for each number j of `order`, which is the
 * chunk's range of a plan. All other bytes of `out` stay as they are. `chunk` has the chunk's
 * rows, or as many bytes as a whole chunk if the last one has fewer rows.
 *
 * WIDTH, LEN, CHUNK, BYTES, OUTPUT and STRAY: the first that applies. */
vortex_answer vortex_chunks_scatter(const uint8_t *chunk, size_t n_chunk, uint64_t k, uint64_t len,
    uint64_t chunk_len, uint64_t width, const uint64_t *places, size_t n_places,
    const uint64_t *order, size_t n_order, uint8_t *out, size_t n_out);

/* Writes zeros to the row of each null among `count` picks. All other bytes of `out` stay as
 * they are.
 *
 * WIDTH, VALID and OUTPUT: the first that applies. */
vortex_answer vortex_chunks_fill_nulls(const uint8_t *valid, size_t n_valid, size_t count,
    uint64_t width, uint8_t *out, size_t n_out);

/* Finds the picks from number `from` on that lie in one chunk, which is places[from] /
 * chunk_len. Returns the number of the pick after the last of them. LEN: chunks have no rows, or
 * there is no pick `from`.
 *
 * For picks that ascend, of which none is null, this takes the place of a plan, and its cost
 * does not grow with the number of chunks. The numbers for vortex_chunks_scatter are then `from`
 * up to the value that is returned: a part of a list of all numbers from 0 on. */
vortex_answer vortex_chunks_next_run(const uint64_t *places, size_t n_places, uint64_t chunk_len,
    size_t from);

#ifdef __cplusplus
}
#endif

#endif
