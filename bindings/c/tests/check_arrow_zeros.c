/* Clears what is under nulls in lists of each format, and compares each byte with what it should
 * be. Prints `c: N passed, M failed`. */
#include <stdlib.h>
#include <string.h>

#include "expect.h"
#include "vortex_arrow.h"

enum { LISTS = 4, MOST = 33 * 130 + 16 };

/* A format, and how many bytes a row has among the offsets, the values and the sizes. */
static const struct {
    uint64_t format, width;
    size_t offsets, values, sizes;
} shapes[] = {
    {VORTEX_ARROW_NULL, 0, 0, 0, 0},
    {VORTEX_ARROW_FIXED, 0, 0, 0, 0},
    {VORTEX_ARROW_FIXED, 1, 0, 1, 0},
    {VORTEX_ARROW_FIXED, 2, 0, 2, 0},
    {VORTEX_ARROW_FIXED, 3, 0, 3, 0},
    {VORTEX_ARROW_FIXED, 4, 0, 4, 0},
    {VORTEX_ARROW_FIXED, 8, 0, 8, 0},
    {VORTEX_ARROW_FIXED, 16, 0, 16, 0},
    {VORTEX_ARROW_FIXED, 33, 0, 33, 0},
    {VORTEX_ARROW_TEXT, 0, 0, 0, 0},
    {VORTEX_ARROW_LARGE_TEXT, 0, 0, 0, 0},
    {VORTEX_ARROW_STRUCT, 0, 0, 0, 0},
    {VORTEX_ARROW_LIST, 0, 0, 0, 0},
    {VORTEX_ARROW_LARGE_LIST, 0, 0, 0, 0},
    {VORTEX_ARROW_FIXED_LIST, 7, 0, 0, 0},
    {VORTEX_ARROW_VIEWS, 0, 0, 16, 0},
    {VORTEX_ARROW_LIST_VIEW, 0, 4, 0, 4},
    {VORTEX_ARROW_LARGE_LIST_VIEW, 0, 8, 0, 8},
    {VORTEX_ARROW_SPARSE_UNION, 0, 0, 0, 0},
    {VORTEX_ARROW_DENSE_UNION, 0, 0, 0, 0},
};
static const uint64_t counts[] = {0, 1, 7, 8, 9, 63, 64, 65, 127, 128, 130};

#define N_SHAPES (sizeof shapes / sizeof *shapes)
#define N_COUNTS (sizeof counts / sizeof *counts)

/* Validity, offsets, values and sizes: what they hold, and what they should hold afterwards. */
static uint8_t found[LISTS][MOST], wanted[LISTS][MOST];
static size_t lens[LISTS];

static uint64_t clear(uint64_t format, uint64_t width, uint64_t rows)
{
    return vortex_arrow_clear_nulls(format, width, rows, found[0], lens[0], found[1], lens[1],
        found[2], lens[2], found[3], lens[3]);
}

/* Fills the lists. Row k is there by kind: 0 all rows, 1 none, 2 each third, 3 those of every
 * second word, 4 all of the first word but one. Bits past the rows are set. */
static void fill(uint64_t rows, int kind)
{
    uint64_t k;
    size_t list;
    for (list = 0; list < LISTS; list++) {
        for (k = 0; k < MOST; k++) {
            found[list][k] = (uint8_t)(7 * k + 31 * list + 1) | 1;
        }
    }
    memset(found[0], 0xff, MOST);
    for (k = 0; k < rows; k++) {
        int is_there = kind == 0 || (kind == 2 && k % 3 == 0) || (kind == 3 && k / 64 % 2) ||
            (kind == 4 && k != 5);
        if (!is_there) {
            found[0][k / 8] &= (uint8_t)~(1 << k % 8);
        }
    }
    memcpy(wanted, found, sizeof found);
}

static int is_null(uint64_t k) { return lens[0] && !(found[0][k / 8] >> k % 8 & 1); }

/* What a list of values should hold: zeros at null rows. */
static void expect_rows(size_t list, uint64_t rows, size_t width)
{
    uint64_t k;
    for (k = 0; k < rows; k++) {
        if (is_null(k)) {
            memset(wanted[list] + k * width, 0, width);
        }
    }
}

/* What a list of bits should hold: clear ones at null rows, and past the rows. */
static void expect_bits(size_t list, uint64_t rows, int with_nulls)
{
    uint64_t k;
    for (k = 0; k < (rows + 7) / 8 * 8; k++) {
        if (k >= rows || (with_nulls && is_null(k))) {
            wanted[list][k / 8] &= (uint8_t)~(1 << k % 8);
        }
    }
}

static void expect_same(const char *what, uint64_t where)
{
    expect(!memcmp(found, wanted, sizeof found), what, where);
}

/* Each list of the length that it needs: the last bytes, which are past it, stay. */
static void shape(size_t at, uint64_t rows, int kind, int has_validity)
{
    fill(rows, kind);
    lens[0] = has_validity ? (rows + 7) / 8 : 0;
    lens[1] = rows * shapes[at].offsets;
    lens[2] = rows * shapes[at].values;
    lens[3] = rows * shapes[at].sizes;
    expect_rows(1, rows, shapes[at].offsets);
    expect_rows(2, rows, shapes[at].values);
    expect_rows(3, rows, shapes[at].sizes);
    if (lens[0]) {
        expect_bits(0, rows, 0);
    }
    expect(clear(shapes[at].format, shapes[at].width, rows) == VORTEX_ARROW_DONE, "a shape", at);
    expect_same("its bytes", 1000 * at + rows);
}

static void bits(uint64_t rows, int kind, int has_validity)
{
    fill(rows, kind);
    lens[0] = has_validity ? (rows + 7) / 8 : 0;
    lens[1] = lens[3] = 0;
    lens[2] = (rows + 7) / 8;
    expect_bits(2, rows, 1);
    if (lens[0]) {
        expect_bits(0, rows, 0);
    }
    expect(clear(VORTEX_ARROW_BITS, 0, rows) == VORTEX_ARROW_DONE, "bits", rows);
    expect_same("their bytes", rows);
}

static void each_shape(void)
{
    size_t at, n;
    int kind, has;
    for (n = 0; n < N_COUNTS; n++) {
        for (kind = 0; kind < 5; kind++) {
            for (has = 0; has < 2; has++) {
                for (at = 0; at < N_SHAPES; at++) {
                    shape(at, counts[n], kind, has);
                }
                bits(counts[n], kind, has);
            }
        }
    }
}

/* Lists that are too short, or numbers that no list can hold: nothing is written. */
static void refused(void)
{
    static const struct {
        uint64_t format, width, rows;
        size_t lens[LISTS];
    } all[] = {
        {VORTEX_ARROW_FIXED, 2, 65, {8, 0, 130, 0}},
        {VORTEX_ARROW_FIXED, 2, 65, {9, 0, 129, 0}},
        {VORTEX_ARROW_FIXED, 3, 65, {0, 0, 194, 0}},
        {VORTEX_ARROW_FIXED, 1, UINT64_MAX, {0, 0, 64, 0}},
        {VORTEX_ARROW_FIXED, (uint64_t)1 << 63, 2, {1, 0, 64, 0}},
        {VORTEX_ARROW_FIXED, 0, UINT64_MAX, {64, 0, 64, 0}},
        {VORTEX_ARROW_BITS, 0, 9, {0, 0, 1, 0}},
        {VORTEX_ARROW_BITS, 0, 9, {1, 0, 2, 0}},
        {VORTEX_ARROW_VIEWS, 0, 3, {1, 0, 47, 0}},
        {VORTEX_ARROW_LIST_VIEW, 0, 3, {1, 11, 0, 12}},
        {VORTEX_ARROW_LIST_VIEW, 0, 3, {1, 12, 0, 11}},
        {VORTEX_ARROW_LARGE_LIST_VIEW, 0, 3, {1, 12, 0, 24}},
        {VORTEX_ARROW_TEXT, 0, 9, {1, 0, 0, 0}},
        {14, 1, 1, {1, 8, 8, 8}},
        {UINT64_MAX, 1, 1, {1, 8, 8, 8}},
    };
    size_t k;
    for (k = 0; k < sizeof all / sizeof *all; k++) {
        fill(65, 1);
        memcpy(lens, all[k].lens, sizeof lens);
        expect(clear(all[k].format, all[k].width, all[k].rows) == VORTEX_ARROW_ROOM, "refused", k);
        expect_same("its bytes", k);
    }
}

int main(void)
{
    each_shape();
    refused();
    return report();
}
