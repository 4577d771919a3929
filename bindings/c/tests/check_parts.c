/* Compares the calls of include/vortex_parts.h with plain loops, over random lists. */
#include <stdio.h>
#include <stdlib.h>
#include <string.h>

#include "vortex_parts.h"

enum { PARTS = 6, ROWS = 40, PICKS = 90 };

static unsigned long passed, failed;
static uint64_t state = 88172645463325252u;

static uint64_t draw(uint64_t below)
{
    state ^= state << 13;
    state ^= state >> 7;
    state ^= state << 17;
    return state % below;
}

static void expect(int holds, const char *what)
{
    if (holds) {
        passed++;
    } else {
        failed++;
        printf("wrong: %s\n", what);
    }
}

/* The lengths of some parts, of which some have no rows, and where they begin. */
static size_t lengths[PARTS], bounds[PARTS + 1], n_parts, rows;

static void draw_parts(void)
{
    size_t k;
    n_parts = draw(PARTS + 1);
    rows = 0;
    for (k = 0; k < n_parts; k++) {
        lengths[k] = draw(3) ? draw(ROWS) : 0;
        rows += lengths[k];
    }
    expect(vortex_cut_bounds(lengths, n_parts, bounds, n_parts + 1).value == rows, "rows");
    expect(bounds[n_parts] == rows && bounds[0] == 0, "bounds");
}

static size_t within(size_t row, size_t k)
{
    return row < bounds[k] ? 0 : row - bounds[k] < lengths[k] ? row - bounds[k] : lengths[k];
}

static void check_slice(void)
{
    size_t starts[PARTS], ends[PARTS], left[PARTS], k, start = draw(rows + 2), end = draw(rows + 2);
    vortex_answer answer;
    memset(left, 7, sizeof left);
    answer = vortex_cut_slice(lengths, n_parts, start, end, starts, n_parts, ends, n_parts, left, n_parts);
    if (start > end || end > rows) {
        expect(answer.status == VORTEX_RANGE && (!n_parts || left[0] == (size_t)0x0707070707070707u), "a range");
        return;
    }
    expect(answer.status == VORTEX_DONE, "a slice");
    for (k = 0; k < n_parts; k++) {
        expect(starts[k] == within(start, k) && ends[k] == within(end, k) && left[k] == ends[k] - starts[k],
            "a part's slice");
    }
}

static void check_mask(void)
{
    uint64_t words[6];
    size_t left[PARTS], at = draw(64), k, i;
    for (k = 0; k < 6; k++) {
        words[k] = draw(UINT64_MAX);
    }
    expect(vortex_cut_mask(words, 6, at, lengths, n_parts, left, n_parts).status == VORTEX_DONE, "a mask");
    for (k = 0; k < n_parts; k++) {
        size_t count = 0;
        for (i = at + bounds[k]; i < at + bounds[k + 1]; i++) {
            count += words[i / 64] >> i % 64 & 1;
        }
        expect(left[k] == count, "a part's mask");
    }
    expect(vortex_cut_mask(words, 1, 65, lengths, n_parts, left, n_parts).status == VORTEX_LENGTHS, "no mask");
}

static void check_picks(void)
{
    uint64_t places[PICKS], parts[PICKS], own_rows[PICKS];
    size_t own[PICKS], ends[PARTS], n = draw(PICKS + 1), i, at = 0, k, beyond = n;
    vortex_answer answer;
    for (i = 0; i < n; i++) {
        places[i] = draw(8) && rows ? draw(rows) : VORTEX_NULL;
        if (!draw(200)) {
            places[i] = rows + draw(3);
            beyond = beyond < i ? beyond : i;
        }
    }
    answer = vortex_cut_picks(places, n, bounds, n_parts + 1, own, n, ends, n_parts, parts, n, own_rows, n);
    if (beyond < n) {
        expect(answer.status == VORTEX_INDEX && answer.value == beyond, "a pick past the rows");
        return;
    }
    expect(answer.status == VORTEX_DONE, "picks");
    for (k = 0; k < n_parts; k++) {
        size_t first = at;
        for (i = 0; i < n; i++) {
            if (places[i] != VORTEX_NULL && places[i] >= bounds[k] && places[i] < bounds[k + 1]) {
                expect(own[at] == places[i] - bounds[k] && parts[i] == k && own_rows[i] == at - first, "a pick");
                at++;
            }
        }
        expect(ends[k] == at, "a part's picks");
    }
    for (i = 0; i < n; i++) {
        if (places[i] == VORTEX_NULL) {
            expect(parts[i] == VORTEX_NULL && own_rows[i] == VORTEX_NULL, "a null");
        }
    }
    if (n_parts > 1 && rows) {
        bounds[0] = 1;
        answer = vortex_cut_picks(places, n, bounds, n_parts + 1, own, n, ends, n_parts, parts, n, own_rows, n);
        expect(answer.status == VORTEX_BOUNDS, "no bounds");
        bounds[0] = 0;
    }
}

static uint8_t bytes[PARTS][32 * ROWS];
static uint64_t own_parts[PICKS], own_rows[PICKS];

/* Places among the parts, of which some are nulls, and the first that is no row. */
static size_t draw_places(size_t n)
{
    size_t i, outside = n;
    for (i = 0; i < n; i++) {
        own_parts[i] = n_parts && draw(6) ? draw(n_parts) : VORTEX_NULL;
        own_rows[i] = draw(ROWS);
        if (own_parts[i] != VORTEX_NULL) {
            if (lengths[own_parts[i]] && draw(300)) {
                own_rows[i] %= lengths[own_parts[i]];
            } else if (!lengths[own_parts[i]] && draw(20)) {
                own_parts[i] = VORTEX_NULL;
            }
        }
        if (own_parts[i] != VORTEX_NULL && own_rows[i] >= lengths[own_parts[i]] && outside == n) {
            outside = i;
        }
    }
    return outside;
}

static int is_right(const uint8_t *dst, size_t n, size_t width)
{
    static const uint8_t zeros[32];
    size_t i;
    for (i = 0; i < n; i++) {
        const uint8_t *item = own_parts[i] == VORTEX_NULL ? zeros : bytes[own_parts[i]] + width * own_rows[i];
        if (memcmp(dst + width * i, item, width) != 0) {
            return 0;
        }
    }
    return 1;
}

#define INTERLEAVE(width, type)                                                                    \
    do {                                                                                           \
        vortex_list_##width lists[PARTS];                                                          \
        static type dst[PICKS];                                                                    \
        size_t n = draw(PICKS + 1), outside = draw_places(n), k;                                   \
        vortex_answer answer;                                                                      \
        for (k = 0; k < n_parts; k++) {                                                            \
            lists[k].items = (const type *)bytes[k];                                               \
            lists[k].len = lengths[k];                                                             \
        }                                                                                          \
        answer = vortex_interleave_##width(lists, n_parts, own_parts, n, own_rows, n, dst, n);     \
        if (outside < n) {                                                                         \
            expect(answer.status == VORTEX_INDEX && answer.value == outside, "a place outside");   \
        } else {                                                                                   \
            expect(answer.status == VORTEX_DONE, "interleaved");                                   \
            expect(is_right((const uint8_t *)dst, n, width), "items");                             \
        }                                                                                          \
    } while (0)

static void check_bits(void)
{
    vortex_bits lists[PARTS];
    uint64_t dst[(PICKS + 63) / 64];
    size_t n = draw(PICKS + 1), outside = draw_places(n), k, i;
    vortex_answer answer;
    for (k = 0; k < n_parts; k++) {
        lists[k].words = (const uint64_t *)bytes[k];
        lists[k].n_words = 2;
        lists[k].at = draw(64);
        lists[k].len = lengths[k];
    }
    answer = vortex_interleave_bits(lists, n_parts, own_parts, n, own_rows, n, dst, (n + 63) / 64);
    if (outside < n) {
        expect(answer.status == VORTEX_INDEX && answer.value == outside, "a bit outside");
        return;
    }
    expect(answer.status == VORTEX_DONE, "bits");
    for (i = 0; i < 64 * ((n + 63) / 64); i++) {
        unsigned wanted = 0;
        if (i < n && own_parts[i] != VORTEX_NULL) {
            size_t place = lists[own_parts[i]].at + own_rows[i];
            wanted = lists[own_parts[i]].words[place / 64] >> place % 64 & 1;
        }
        expect((dst[i / 64] >> i % 64 & 1) == wanted, "a bit");
    }
}

int main(int count, char **words)
{
    long k, tries = count > 1 ? atol(words[1]) : 20000;
    size_t i, j;
    expect(vortex_parts_version() == VORTEX_VERSION, "the library's version is the header's");
    for (i = 0; i < PARTS; i++) {
        for (j = 0; j < sizeof bytes[i]; j++) {
            bytes[i][j] = (uint8_t)draw(256);
        }
    }
    for (k = 0; k < tries; k++) {
        draw_parts();
        check_slice();
        check_mask();
        check_picks();
        INTERLEAVE(1, uint8_t);
        INTERLEAVE(2, uint16_t);
        INTERLEAVE(4, uint32_t);
        INTERLEAVE(8, uint64_t);
        INTERLEAVE(16, vortex_record_16);
        INTERLEAVE(32, vortex_record_32);
        check_bits();
    }
    printf("c: %lu passed, %lu failed\n", passed, failed);
    return failed != 0;
}
