/* Compares the calls of include/vortex_chunks.h with plain loops, over random picks, and tries each
 * fault. */
#include <stdlib.h>
#include <string.h>

#include "expect.h"
#include "vortex_chunks.h"

enum { ROWS = 60, PICKS = 80, WIDTH = 40, GUARD = 16 };

static uint64_t state = 88172645463325252u;

static uint64_t draw(uint64_t below)
{
    state ^= state << 13;
    state ^= state >> 7;
    state ^= state << 17;
    return state % below;
}

/* A column in chunks, and picks of its rows. */
static uint64_t len, chunk_len, width, chunks;
static uint8_t rows[(2 * ROWS + 1) * WIDTH];
static uint64_t places[PICKS], starts[ROWS + 1], order[PICKS];
static uint8_t valid[(PICKS + 7) / 8];
static size_t n, n_valid;

/* What the picks give, by plain loops, and the output of the calls, with bytes behind it. */
static uint8_t wanted[PICKS * WIDTH + GUARD], out[PICKS * WIDTH + GUARD];

static int is_null(size_t j)
{
    return n_valid > 0 && !(valid[j / 8] >> j % 8 & 1);
}

static void draw_column(void)
{
    static const uint64_t widths[] = {1, 2, 4, 8, 16, 3, 12, 24, WIDTH};
    len = draw(8) ? 1 + draw(ROWS) : 0;
    chunk_len = draw(6) ? 1 + draw(ROWS) : 1 + draw(4);
    width = widths[draw(9)];
    chunks = len / chunk_len + (len % chunk_len > 0);
}

static void draw_picks(int ascend)
{
    size_t j, i;
    n = draw(PICKS + 1);
    n_valid = draw(3) || ascend ? 0 : (n + 7) / 8;
    for (i = 0; i < sizeof valid; i++) {
        valid[i] = (uint8_t)draw(256);
    }
    n = len > 0 || n_valid > 0 ? n : 0;
    for (j = 0; j < n; j++) {
        places[j] = len > 0 ? draw(len) : 0;
        /* Runs of picks that follow one another are copied at once. */
        if (j > 0 && draw(2) && places[j - 1] + 1 < len) {
            places[j] = places[j - 1] + 1;
        }
        if (len == 0) {
            valid[j / 8] &= (uint8_t)~(1u << j % 8);
        }
        if (is_null(j) && draw(2)) {
            places[j] = UINT64_MAX - draw(3);
        }
    }
    for (j = 1; ascend && j < n; j++) {
        uint64_t place = places[j];
        for (i = j; i > 0 && places[i - 1] > place; i--) {
            places[i] = places[i - 1];
        }
        places[i] = place;
    }
}

static void make_wanted(void)
{
    size_t j;
    memset(wanted, 0xa5, sizeof wanted);
    memset(out, 0xa5, sizeof out);
    for (j = 0; j < n; j++) {
        if (is_null(j)) {
            memset(wanted + j * width, 0, (size_t)width);
        } else {
            memcpy(wanted + j * width, rows + places[j] * width, (size_t)width);
        }
    }
}

/* Whether the plan has for each chunk the numbers of its picks, ascending, and behind them the
 * nulls'. */
static int is_planned(void)
{
    size_t k, j, at = 0;
    for (k = 0; k < chunks; k++) {
        if (starts[k] != at) {
            return 0;
        }
        for (j = 0; j < n; j++) {
            if (!is_null(j) && places[j] / chunk_len == k && order[at++] != j) {
                return 0;
            }
        }
    }
    if (starts[chunks] != at) {
        return 0;
    }
    for (j = 0; j < n; j++) {
        if (is_null(j) && order[at++] != j) {
            return 0;
        }
    }
    return at == n;
}

static vortex_answer scatter(uint64_t k, const uint64_t *numbers, size_t count)
{
    uint64_t first = k * chunk_len, own = len - first < chunk_len ? len - first : chunk_len;
    uint64_t given = draw(2) ? own : chunk_len;
    return vortex_chunks_scatter(rows + first * width, (size_t)(given * width), k, len, chunk_len,
        width, places, n, numbers, count, out, n * (size_t)width);
}

/* Whether all bytes that are not those of these rows are as they were. */
static int are_others_kept(const uint8_t *before, const uint64_t *numbers, size_t count)
{
    size_t b, i;
    for (b = 0; b < sizeof out; b++) {
        int is_own = 0;
        for (i = 0; i < count; i++) {
            is_own = is_own || b / width == numbers[i];
        }
        if (!is_own && out[b] != before[b]) {
            return 0;
        }
    }
    return 1;
}

/* Plans, reads the chunks that are told in another order, and compares. */
static void check_plan(uint64_t seed)
{
    static uint8_t before[sizeof out];
    size_t k, turn = chunks > 0 ? (size_t)draw(chunks) : 0;
    vortex_answer answer = vortex_chunks_plan(places, n, valid, n_valid, len, chunk_len, starts,
        (size_t)chunks + 1, order, n);
    expect(answer.status == VORTEX_DONE && answer.value == starts[chunks], "a plan", seed);
    expect(vortex_chunks_count(len, chunk_len).value == chunks, "a count", seed);
    expect(is_planned(), "what is planned", seed);
    for (k = 0; k < chunks; k++) {
        size_t chunk = (k + turn) % (size_t)chunks, count;
        count = (size_t)(starts[chunk + 1] - starts[chunk]);
        memcpy(before, out, sizeof out);
        if (count > 0 || draw(2)) {
            answer = scatter(chunk, order + starts[chunk], count);
            expect(answer.status == VORTEX_DONE && answer.value == 0, "a scatter", seed);
            expect(are_others_kept(before, order + starts[chunk], count), "other rows", seed);
        }
    }
    if (n_valid > 0) {
        answer = vortex_chunks_fill_nulls(valid, n_valid, n, width, out, n * (size_t)width);
        expect(answer.status == VORTEX_DONE, "nulls", seed);
    }
    expect(memcmp(out, wanted, sizeof out) == 0, "the rows", seed);
}

/* Walks picks that ascend: each chunk with a pick comes once, ascending. */
static void check_runs(uint64_t seed)
{
    uint64_t numbers[PICKS], last = 0;
    size_t from = 0, j;
    for (j = 0; j < n; j++) {
        numbers[j] = j;
    }
    while (from < n) {
        uint64_t k = places[from] / chunk_len;
        vortex_answer answer = vortex_chunks_next_run(places, n, chunk_len, from);
        size_t end = (size_t)answer.value;
        expect(answer.status == VORTEX_DONE && end > from && end <= n, "a run", seed);
        expect(from == 0 || k > last, "a chunk once", seed);
        expect(scatter(k, numbers + from, end - from).status == VORTEX_DONE, "a scatter", seed);
        last = k;
        from = end;
    }
    expect(memcmp(out, wanted, sizeof out) == 0, "the rows of runs", seed);
}

/* A fault of a plan: eight rows in chunks of three, three picks. */
static void check_plan_faults(void)
{
    static const struct {
        uint64_t chunk_len, third;
        size_t n_valid, n_starts, n_order;
        uint64_t status, value;
    } faults[] = {
        {0, 2, 0, 4, 3, VORTEX_CHUNKS_LEN, 0},
        {3, 2, 0, 3, 3, VORTEX_CHUNKS_STARTS, 0},
        {3, 2, 0, 5, 3, VORTEX_CHUNKS_STARTS, 0},
        {3, 2, 0, 0, 3, VORTEX_CHUNKS_STARTS, 0},
        {3, 2, 0, 4, 2, VORTEX_CHUNKS_ORDER, 0},
        {3, 2, 0, 4, 4, VORTEX_CHUNKS_ORDER, 0},
        {3, 8, 0, 4, 3, VORTEX_CHUNKS_PLACE, 2},
        {3, UINT64_MAX, 1, 4, 3, VORTEX_CHUNKS_PLACE, 2},
        {UINT64_MAX, 8, 0, 2, 3, VORTEX_CHUNKS_PLACE, 2},
        {3, 7, 1, 4, 3, VORTEX_DONE, 2},
    };
    static const uint8_t bits[] = {0x05};
    size_t k;
    for (k = 0; k < sizeof faults / sizeof *faults; k++) {
        uint64_t picks[] = {0, 5, 0}, s[5] = {9, 9, 9, 9, 9}, o[4] = {9, 9, 9, 9};
        vortex_answer answer;
        picks[2] = faults[k].third;
        answer = vortex_chunks_plan(picks, 3, bits, faults[k].n_valid, 8, faults[k].chunk_len, s,
            faults[k].n_starts, o, faults[k].n_order);
        expect(answer.status == faults[k].status && answer.value == faults[k].value, "a fault", k);
        expect(answer.status == VORTEX_DONE || (s[0] == 9 && s[3] == 9 && o[0] == 9 && o[2] == 9),
            "lists that are kept", k);
    }
}

/* More picks than bits of validity. */
static void check_valid_fault(void)
{
    static const uint8_t bits[] = {0xff};
    uint64_t picks[9] = {0}, s[2] = {9, 9}, o[9] = {9};
    uint8_t bytes[9] = {1, 1, 1, 1, 1, 1, 1, 1, 1};
    expect(vortex_chunks_plan(picks, 9, bits, 1, 8, 8, s, 2, o, 9).status == VORTEX_CHUNKS_VALID,
        "too few bits", 0);
    expect(vortex_chunks_plan(picks, 8, bits, 1, 8, 8, s, 2, o, 8).status == VORTEX_DONE,
        "enough bits", 0);
    expect(vortex_chunks_fill_nulls(bits, 1, 9, 1, bytes, 9).status == VORTEX_CHUNKS_VALID,
        "too few bits for nulls", 0);
    expect(vortex_chunks_fill_nulls(bits, 1, 8, 0, bytes, 9).status == VORTEX_CHUNKS_WIDTH,
        "nulls of no bytes", 0);
    expect(vortex_chunks_fill_nulls(bits, 1, 8, 2, bytes, 15).status == VORTEX_CHUNKS_OUTPUT,
        "nulls without room", 0);
    expect(bytes[0] == 1 && bytes[8] == 1, "nulls that are kept", 0);
}

/* A fault of a scatter: chunk k of eight rows of two bytes in chunks of three. */
static void check_scatter_faults(void)
{
    static const struct {
        size_t n_chunk;
        uint64_t k, chunk_len, width, number;
        size_t n_out;
        uint64_t status, value;
    } faults[] = {
        {6, 1, 3, 0, 1, 6, VORTEX_CHUNKS_WIDTH, 0},
        {6, 1, 3, (1 << 20) + 1, 1, 6, VORTEX_CHUNKS_WIDTH, 0},
        {6, 1, 3, UINT64_MAX, 1, 6, VORTEX_CHUNKS_WIDTH, 0},
        {6, 1, 0, 2, 1, 6, VORTEX_CHUNKS_LEN, 0},
        {6, 3, 3, 2, 1, 6, VORTEX_CHUNKS_CHUNK, 0},
        {6, UINT64_MAX, 3, 2, 1, 6, VORTEX_CHUNKS_CHUNK, 0},
        {5, 1, 3, 2, 1, 6, VORTEX_CHUNKS_BYTES, 0},
        {4, 1, 3, 2, 1, 6, VORTEX_CHUNKS_BYTES, 0},
        {0, 1, 3, 2, 1, 6, VORTEX_CHUNKS_BYTES, 0},
        {8, 1, 3, 2, 1, 6, VORTEX_CHUNKS_BYTES, 0},
        {6, 1, 3, 2, 1, 5, VORTEX_CHUNKS_OUTPUT, 0},
        {6, 1, 3, 2, 2, 6, VORTEX_CHUNKS_STRAY, 1},
        {6, 1, 3, 2, 3, 6, VORTEX_CHUNKS_STRAY, 1},
        {6, 1, 3, 2, UINT64_MAX, 6, VORTEX_CHUNKS_STRAY, 1},
        {6, 1, 3, 2, 1, 6, VORTEX_DONE, 0},
        {4, 2, 3, 2, 2, 6, VORTEX_CHUNKS_STRAY, 0},
    };
    static const uint64_t picks[] = {3, 5, 7};
    size_t k;
    for (k = 0; k < sizeof faults / sizeof *faults; k++) {
        uint8_t bytes[8] = {1, 2, 3, 4, 5, 6, 7, 8}, to[6] = {9, 9, 9, 9, 9, 9};
        uint64_t numbers[] = {0, 0};
        vortex_answer answer;
        numbers[1] = faults[k].number;
        answer = vortex_chunks_scatter(bytes, faults[k].n_chunk, faults[k].k, 8,
            faults[k].chunk_len, faults[k].width, picks, 3, numbers, 2, to, faults[k].n_out);
        expect(answer.status == faults[k].status && answer.value == faults[k].value, "a fault", k);
        expect(answer.status == VORTEX_DONE ? to[0] == 1 && to[3] == 6 && to[4] == 9
                                            : to[0] == 9 && to[3] == 9, "rows that are kept", k);
    }
}

static void check_other_faults(void)
{
    static const uint64_t picks[] = {0, 1};
    vortex_answer answer = vortex_chunks_count(8, 0);
    expect(answer.status == VORTEX_CHUNKS_LEN && answer.value == 0, "no rows a chunk", 0);
    answer = vortex_chunks_count(UINT64_MAX, 1);
    expect(answer.status == VORTEX_DONE && answer.value == UINT64_MAX, "all rows", 0);
    answer = vortex_chunks_next_run(picks, 2, 0, 0);
    expect(answer.status == VORTEX_CHUNKS_LEN && answer.value == 0, "no rows a run", 0);
    answer = vortex_chunks_next_run(picks, 2, 3, 2);
    expect(answer.status == VORTEX_CHUNKS_LEN && answer.value == 0, "no pick", 0);
    answer = vortex_chunks_next_run(NULL, 0, 3, SIZE_MAX);
    expect(answer.status == VORTEX_CHUNKS_LEN && answer.value == 0, "no picks", 0);
}

int main(int count, char **words)
{
    long k, tries = count > 1 ? atol(words[1]) : 5000;
    size_t i;
    for (i = 0; i < sizeof rows; i++) {
        rows[i] = (uint8_t)draw(256);
    }
    for (k = 0; k < tries; k++) {
        draw_column();
        draw_picks(0);
        make_wanted();
        check_plan((uint64_t)k);
        draw_picks(1);
        make_wanted();
        check_runs((uint64_t)k);
    }
    check_plan_faults();
    check_valid_fault();
    check_scatter_faults();
    check_other_faults();
    return report();
}
