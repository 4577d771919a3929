/* Invalid and malformed steps: the numbers and the words of each error. Prints `c: N passed, M
 * failed`. */
#include "made_arrow.h"

#include <string.h>

/* A step over 8 rows, and the error that it must give. */
typedef struct row {
    vortex_arrow_step step;
    uint64_t status, cause, found, bound, is_negative;
    const char *text;
} row;

enum { BROKEN = VORTEX_ARROW_BROKEN, LACKING = VORTEX_ARROW_LACKING };

#define LIST(bytes, size) {(const uint8_t *)(bytes), size}
#define NONE {NULL, 0}
#define STEP(kind, start, end, ptype, offset, len, declared, ...) \
    {kind, start, end, ptype, offset, len, declared, __VA_ARGS__}
#define SLICE(start, end) STEP(0, start, end, 0, 0, 0, 0, NONE, NONE, NONE, NONE)
#define FILTER(offset, len, bytes, valid) \
    STEP(1, 0, 0, 0, offset, len, 0, LIST(bits, bytes), LIST(bits, valid), NONE, NONE)
#define TAKE(ptype, offset, len, list, valid) \
    STEP(2, 0, 0, ptype, offset, len, 0, LIST(list, sizeof list), LIST(odd_bits, valid), NONE, NONE)
#define RANGES(len, declared, starts, lengths, apart) \
    STEP(3, 0, 0, 3, 0, len, declared, LIST(starts, sizeof starts), NONE, \
        LIST(lengths, sizeof lengths), LIST(apart, sizeof apart))

static const uint8_t bits[] = {0xff, 0xff}, odd_bits[] = {0xfd};
static const uint8_t u8[] = {1, 200, 7, 8}, i8[] = {0, 0xfe, 9};
static const uint16_t u16[] = {1, 65535};
static const uint32_t u32[] = {7, 8, 4000000000u};
static const int32_t i32[] = {7, INT32_MIN};
static const uint64_t u64[] = {7, UINT64_MAX};
static const int64_t i64[] = {7, INT64_MIN, 9};
static const double f64[] = {1.0};
static const float f32[] = {1.0f};
static const uint64_t starts[] = {0, 2}, lengths[] = {3, 3}, apart[] = {1, 3};
static const uint64_t far_starts[] = {8, 9}, no_lengths[] = {0, 1};
static const uint64_t top_starts[] = {UINT64_MAX, 0};

static const row rows[] = {
    {SLICE(2, 9), BROKEN, 0, 9, 8, 0, "step 1: BadRange: slice 2..9, but 8 rows"},
    {SLICE(9, 9), BROKEN, 0, 9, 8, 0, "step 1: BadRange: slice 9..9, but 8 rows"},
    {SLICE(12, 9), BROKEN, 0, 9, 8, 0, "step 1: BadRange: slice 12..9, but 8 rows"},
    {SLICE(3, 2), BROKEN, 0, 3, 2, 0, "step 1: BadRange: slice 3..2 starts after its end"},
    {SLICE(0, UINT64_MAX), BROKEN, 0, UINT64_MAX, 8, 0,
        "step 1: BadRange: slice 0..18446744073709551615, but 8 rows"},
    {FILTER(0, 3, 2, 0), BROKEN, 1, 3, 8, 0, "step 1: BadMask: mask of length 3, but 8 rows"},
    {FILTER(3, 9, 2, 0), BROKEN, 1, 9, 8, 0, "step 1: BadMask: mask of length 9, but 8 rows"},
    {FILTER(0, 0, 0, 0), BROKEN, 1, 0, 8, 0, "step 1: BadMask: mask of length 0, but 8 rows"},
    {TAKE(8, 0, 1, f64, 0), BROKEN, 3, 8, 0, 0,
        "step 1: InvalidIndices: expected integers as indices, got f16"},
    {TAKE(9, 0, 1, f32, 0), BROKEN, 3, 9, 0, 0,
        "step 1: InvalidIndices: expected integers as indices, got f32"},
    {TAKE(10, 0, 1, f64, 0), BROKEN, 3, 10, 0, 0,
        "step 1: InvalidIndices: expected integers as indices, got f64"},
    {TAKE(0, 0, 4, u8, 0), BROKEN, 5, 200, 8, 0, "step 1: OutOfBounds: index 200, but 8 rows"},
    {TAKE(0, 2, 2, u8, 0), BROKEN, 5, 8, 8, 0, "step 1: OutOfBounds: index 8, but 8 rows"},
    {TAKE(0, 0, 4, u8, 1), BROKEN, 5, 8, 8, 0,
        "step 1: OutOfBounds: index 8, but 8 rows"},
    {TAKE(4, 0, 3, i8, 0), BROKEN, 5, (uint64_t)-2, 8, 1,
        "step 1: OutOfBounds: index -2, but 8 rows"},
    {TAKE(4, 0, 3, i8, 1), BROKEN, 5, 9, 8, 0,
        "step 1: OutOfBounds: index 9, but 8 rows"},
    {TAKE(1, 0, 2, u16, 0), BROKEN, 5, 65535, 8, 0,
        "step 1: OutOfBounds: index 65535, but 8 rows"},
    {TAKE(2, 2, 1, u32, 0), BROKEN, 5, 4000000000u, 8, 0,
        "step 1: OutOfBounds: index 4000000000, but 8 rows"},
    {TAKE(6, 0, 2, i32, 0), BROKEN, 5, (uint64_t)(int64_t)INT32_MIN, 8, 1,
        "step 1: OutOfBounds: index -2147483648, but 8 rows"},
    {TAKE(3, 0, 2, u64, 0), BROKEN, 5, UINT64_MAX, 8, 0,
        "step 1: OutOfBounds: index 18446744073709551615, but 8 rows"},
    {TAKE(7, 0, 3, i64, 0), BROKEN, 5, (uint64_t)INT64_MIN, 8, 1,
        "step 1: OutOfBounds: index -9223372036854775808, but 8 rows"},
    {RANGES(2, 7, starts, lengths, apart), BROKEN, 4, 6, 7, 0,
        "step 1: BadPieces: ranges of 6 indices, but 7 declared"},
    {RANGES(2, 6, top_starts, lengths, apart), BROKEN, 4, 0, 0, 0,
        "step 1: BadPieces: expected indices below 2^64, got a range with one past that"},
    {RANGES(2, 6, starts, lengths, apart), BROKEN, 5, 8, 8, 0,
        "step 1: OutOfBounds: index 8, but 8 rows"},
    {RANGES(2, 1, far_starts, no_lengths, apart), BROKEN, 5, 9, 8, 0,
        "step 1: OutOfBounds: index 9, but 8 rows"},
    {STEP(9, 0, 0, 0, 0, 0, 0, NONE, NONE, NONE, NONE), LACKING, 0, 9, 4, 0,
        "step 1: expected a kind below 4, got 9"},
    {TAKE(11, 0, 1, f64, 0), LACKING, 1, 11, 11, 0,
        "step 1: expected a type of indices below 11, got 11"},
    {FILTER(UINT64_MAX, 2, 2, 0), LACKING, 2, 0, 0, 0,
        "step 1: expected an offset and a length below 2^63 together, got more"},
    {FILTER(0, 8, 0, 0), LACKING, 3, 0, 1, 0, "step 1: expected 1 bytes of values, got 0"},
    {FILTER(8, 9, 2, 0), LACKING, 3, 2, 3, 0, "step 1: expected 3 bytes of values, got 2"},
    {TAKE(7, 1, 3, i64, 0), LACKING, 3, 24, 32, 0,
        "step 1: expected 32 bytes of values, got 24"},
    {TAKE(0, 0, 5, u8, 0), LACKING, 3, 4, 5, 0,
        "step 1: expected 5 bytes of values, got 4"},
    {TAKE(1, 0, 3, u16, 0), LACKING, 3, 4, 6, 0,
        "step 1: expected 6 bytes of values, got 4"},
    {TAKE(2, 0, 4, u32, 0), LACKING, 3, 12, 16, 0,
        "step 1: expected 16 bytes of values, got 12"},
    {TAKE(3, 0, 3, u64, 0), LACKING, 3, 16, 24, 0,
        "step 1: expected 24 bytes of values, got 16"},
    {TAKE(4, 1, 3, i8, 0), LACKING, 3, 3, 4, 0,
        "step 1: expected 4 bytes of values, got 3"},
    {TAKE(5, 0, 3, u16, 0), LACKING, 3, 4, 6, 0,
        "step 1: expected 6 bytes of values, got 4"},
    {TAKE(6, 1, 2, i32, 0), LACKING, 3, 8, 12, 0,
        "step 1: expected 12 bytes of values, got 8"},
    {TAKE(8, 0, 3, u16, 0), LACKING, 3, 4, 6, 0,
        "step 1: expected 6 bytes of values, got 4"},
    {TAKE(9, 0, 2, f32, 0), LACKING, 3, 4, 8, 0,
        "step 1: expected 8 bytes of values, got 4"},
    {TAKE(10, 1, 1, f64, 0), LACKING, 3, 8, 16, 0,
        "step 1: expected 16 bytes of values, got 8"},
    {RANGES(3, 3, starts, lengths, apart), LACKING, 3, 16, 24, 0,
        "step 1: expected 24 bytes of values, got 16"},
    {FILTER(0, 16, 2, 1), LACKING, 4, 1, 2, 0, "step 1: expected 2 bytes of validity, got 1"},
    {RANGES(2, 2, starts, u64, f64), LACKING, 6, 8, 16, 0,
        "step 1: expected 16 bytes of multipliers, got 8"},
    {RANGES(2, 2, starts, f64, apart), LACKING, 5, 8, 16, 0,
        "step 1: expected 16 bytes of lengths, got 8"}
};

#define N_ROWS (sizeof rows / sizeof *rows)

static void expect_error(const row *r, const vortex_arrow_error *error, uint64_t k)
{
    expect(error->status == r->status && error->step == 1 && error->cause == r->cause,
        "the status, the step and the cause", k);
    expect(error->found == r->found && error->bound == r->bound, "the numbers", k);
    expect(error->is_negative == r->is_negative, "the sign", k);
    expect(!strcmp(error->text, r->text) && !strcmp(error->place, "step 1"), r->text, k);
}

/* The column, its composed steps, and the answer of the library, of one row. */
static void check_row(const row *r, uint64_t k)
{
    static const int32_t values[16];
    vortex_arrow_step steps[2] = {SLICE(1, 9), SLICE(0, 0)};
    vortex_arrow_picks_need need;
    vortex_arrow_error error;
    column c;
    steps[1] = r->step;
    make(&c, "i", "x", 10, 2);
    c.buffers[1] = values;
    expect(selected(&c, steps, 2, &error) == r->status, "the status", k);
    expect_error(r, &error, k);
    vortex_arrow_explain(10, steps, 2, vortex_arrow_count(10, steps, 2, &need), &error);
    expect_error(r, &error, k);
}

/* One row left, and answers that are about no step. */
static void few_rows(void)
{
    vortex_arrow_step steps[2] = {SLICE(1, 2), SLICE(0, 2)};
    vortex_arrow_answer done = {VORTEX_ARROW_DONE, 0, 0}, past = {VORTEX_ARROW_BROKEN, 2, 0};
    vortex_arrow_picks_need need;
    vortex_arrow_error error;
    vortex_arrow_explain(3, steps, 2, vortex_arrow_count(3, steps, 2, &need), &error);
    expect(!strcmp(error.text, "step 1: BadRange: slice 0..2, but 1 row"), "one row", 0);
    vortex_arrow_explain(1, steps, 2, vortex_arrow_count(1, steps, 2, &need), &error);
    expect(!strcmp(error.text, "step 0: BadRange: slice 1..2, but 1 row"), "the first step", 0);
    vortex_arrow_explain(3, steps, 2, done, &error);
    expect(!error.status && !error.text[0] && !error.place[0], "no fault", 0);
    vortex_arrow_explain(3, steps, 2, past, &error);
    expect(error.status == BROKEN && !strcmp(error.text, "an invalid step"), "no such step", 0);
}

int main(void)
{
    uint64_t k;
    for (k = 0; k < N_ROWS; k++) {
        check_row(&rows[k], k);
    }
    few_rows();
    return report();
}
