/* Calls the library as a C program does, mostly with arguments that it must refuse, and prints
 * `c: N passed, M failed`. */
#include <stdio.h>
#include <string.h>

#include "vortex_select.h"

static int passed, failed;

static void expect(int holds, const char *what) {
    passed += holds;
    failed += !holds;
    if (!holds) {
        printf("c: not so: %s\n", what);
    }
}

static int is(vortex_answer answer, uint64_t status, uint64_t value) {
    return answer.status == status && answer.value == value;
}

static const uint32_t four[4] = {10, 20, 30, 40};
static const uint64_t odd[1] = {10};

/* What an output holds before a call, and after one that is refused. */
static uint32_t dst[4];

static void refill(void) { memset(dst, 0xab, sizeof dst); }

static int is_untouched(void) {
    static uint32_t fresh[4];
    memset(fresh, 0xab, sizeof fresh);
    return memcmp(dst, fresh, sizeof dst) == 0;
}

static void filters(void) {
    refill();
    vortex_answer answer = vortex_filter_4(four, 4, odd, 1, 0, dst, 4);
    expect(is(answer, VORTEX_DONE, 2) && dst[0] == 20 && dst[1] == 40, "a filter");
    expect(dst[2] == 0xabababab && dst[3] == 0xabababab, "the rest of its output stays");
    refill();
    answer = vortex_filter_4(four, 4, odd, 1, 0, dst, 1);
    expect(is(answer, VORTEX_ROOM, 2) && is_untouched(), "a filter into too little room");
    answer = vortex_filter_4(four, 4, odd, 1, 0, NULL, 0);
    expect(is(answer, VORTEX_ROOM, 2), "a filter into no room");
    answer = vortex_filter_4(four, 4, NULL, 0, 0, dst, 4);
    expect(is(answer, VORTEX_LENGTHS, 0) && is_untouched(), "a mask of no words");
    answer = vortex_filter_4(four, 4, odd, 1, 61, dst, 4);
    expect(is(answer, VORTEX_LENGTHS, 0) && is_untouched(), "a mask of too few bits");
    answer = vortex_filter_4(four, 4, odd, 1, SIZE_MAX, dst, 4);
    expect(is(answer, VORTEX_LENGTHS, 0) && is_untouched(), "a mask from far away");
    answer = vortex_filter_4(NULL, 0, NULL, 0, 0, NULL, 0);
    expect(is(answer, VORTEX_DONE, 0), "a filter of nothing");
    answer = vortex_filter_4(NULL, 0, NULL, 0, 1, NULL, 0);
    expect(is(answer, VORTEX_LENGTHS, 0), "a filter of nothing past no words");
    answer = vortex_filter_4(four, 3, odd, 1, 0, dst, 4);
    expect(is(answer, VORTEX_DONE, 1) && dst[0] == 20, "bits past the items");
    const uint64_t two[2] = {(uint64_t)3 << 62, 14};
    refill();
    answer = vortex_filter_4(four, 4, two, 2, 63, dst, 2);
    expect(is(answer, VORTEX_ROOM, 3) && is_untouched(), "a mask across two words, without room");
    answer = vortex_filter_4(four, 4, two, 2, 63, dst, 3);
    expect(is(answer, VORTEX_DONE, 3), "a mask across two words");
    expect(dst[0] == 10 && dst[1] == 30 && dst[2] == 40 && dst[3] == 0xabababab, "what it keeps");
}

static void filters_in_place(void) {
    uint32_t values[4] = {10, 20, 30, 40};
    vortex_answer answer = vortex_filter_in_place_4(values, 4, odd, 1, 61);
    expect(is(answer, VORTEX_LENGTHS, 0), "in place, too few bits");
    expect(memcmp(values, four, sizeof four) == 0, "values that a refusal leaves");
    answer = vortex_filter_in_place_4(values, 3, odd, 1, 1);
    expect(is(answer, VORTEX_DONE, 2) && values[0] == 10 && values[1] == 30, "in place, at a bit");
    memcpy(values, four, sizeof four);
    answer = vortex_filter_in_place_4(values, 4, odd, 1, 0);
    expect(is(answer, VORTEX_DONE, 2) && values[0] == 20 && values[1] == 40, "in place");
    answer = vortex_filter_in_place_4(NULL, 0, NULL, 0, 0);
    expect(is(answer, VORTEX_DONE, 0), "nothing in place");
}

static void takes(void) {
    const uint64_t indices[3] = {3, 4, 0}, valid[1] = {5}, most[1] = {UINT64_MAX};
    refill();
    vortex_answer answer = vortex_take_4(four, 4, indices, 3, NULL, 0, dst, 4);
    expect(is(answer, VORTEX_INDEX, 1) && is_untouched(), "an index out of bounds");
    answer = vortex_take_4(four, 4, most, 1, NULL, 0, dst, 4);
    expect(is(answer, VORTEX_INDEX, 0) && is_untouched(), "the greatest index");
    answer = vortex_take_4(NULL, 0, most, 1, NULL, 0, dst, 4);
    expect(is(answer, VORTEX_INDEX, 0) && is_untouched(), "an index into nothing");
    answer = vortex_take_4(four, 4, indices, 3, valid, 1, dst, 2);
    expect(is(answer, VORTEX_ROOM, 3) && is_untouched(), "a take into too little room");
    answer = vortex_take_4(four, 4, indices, 3, odd, 1, dst, 4);
    expect(is(answer, VORTEX_BITS_PAST, 0) && is_untouched(), "a bit past the indices");
    const uint64_t two[2] = {5, 0};
    answer = vortex_take_4(four, 4, indices, 3, two, 2, dst, 4);
    expect(is(answer, VORTEX_LENGTHS, 0) && is_untouched(), "validity with a word too many");
    answer = vortex_take_4(four, 4, indices, 3, valid, 1, dst, 4);
    expect(is(answer, VORTEX_DONE, 3), "a take with a null");
    expect(dst[0] == 40 && dst[1] == 0 && dst[2] == 10 && dst[3] == 0xabababab, "what it gives");
    answer = vortex_take_4(NULL, 0, NULL, 0, NULL, 0, NULL, 0);
    expect(is(answer, VORTEX_DONE, 0), "a take of nothing");
}

static void fronts(void) {
    const uint64_t indices[6] = {3, 0, 1, 1, 2, 4}, valid[1] = {31}, most[1] = {UINT64_MAX};
    uint32_t out[6];
    memset(out, 0xab, sizeof out);
    vortex_answer answer = vortex_take_front_4(four, 4, indices, 6, NULL, 0, out, 5);
    expect(is(answer, VORTEX_ROOM, 6) && out[0] == 0xabababab, "a front into too little room");
    answer = vortex_take_front_4(four, 4, indices, 4, valid, 1, out, 6);
    expect(is(answer, VORTEX_BITS_PAST, 0) && out[0] == 0xabababab, "a front, a bit past");
    answer = vortex_take_front_4(four, 4, most, 1, NULL, 0, out, 6);
    expect(is(answer, VORTEX_DONE, 0) && out[0] == 0xabababab, "a front of nothing");
    answer = vortex_take_front_4(four, 4, indices, 6, NULL, 0, out, 6);
    expect(is(answer, VORTEX_DONE, 5), "a front, by where it ends");
    expect(out[0] == 40 && out[3] == 20 && out[4] == 30 && out[5] == 0xabababab, "what it has");
    answer = vortex_take_front_4(four, 4, indices, 6, valid, 1, out, 6);
    expect(is(answer, VORTEX_DONE, 6) && out[5] == 0, "a front, which ends at no null");
    answer = vortex_take_front_4(NULL, 0, NULL, 0, NULL, 0, NULL, 0);
    expect(is(answer, VORTEX_DONE, 0), "a front of no indices");
}

/* A take of so many indices of 32 bits, 64 at a time: the place of the first one out of bounds, or
 * their number. */
static size_t narrow_take(const uint32_t *indices, size_t count, const uint64_t *valid,
    uint32_t *out) {
    uint64_t wide[64];
    for (size_t start = 0; start < count; start += 64) {
        size_t some = count - start < 64 ? count - start : 64;
        vortex_answer answer = vortex_widen_4(indices + start, some, wide, 64);
        expect(is(answer, VORTEX_DONE, some), "a block of indices");
        answer = vortex_take_front_4(four, 4, wide, some, valid + start / 64, 1, out + start, some);
        if (answer.status != VORTEX_DONE || answer.value < some) {
            return start + answer.value;
        }
    }
    return count;
}

static void narrow_indices(void) {
    const uint32_t most[2] = {UINT32_MAX, 1};
    uint64_t wide[3] = {7, 7, 7};
    vortex_answer answer = vortex_widen_4(most, 2, wide, 1);
    expect(is(answer, VORTEX_ROOM, 2) && wide[0] == 7, "wide numbers without room");
    answer = vortex_widen_4(most, 2, wide, 3);
    expect(is(answer, VORTEX_DONE, 2) && wide[0] == UINT32_MAX && wide[1] == 1, "wide numbers");
    expect(wide[2] == 7, "what stands behind them");
    answer = vortex_widen_4(NULL, 0, NULL, 0);
    expect(is(answer, VORTEX_DONE, 0), "no wide numbers");
    uint32_t indices[100], out[100];
    for (uint32_t k = 0; k < 100; k++) {
        indices[k] = k % 4;
    }
    indices[70] = 9;
    const uint64_t all[2] = {UINT64_MAX, ((uint64_t)1 << 36) - 1}, some[2] = {UINT64_MAX, 3};
    expect(narrow_take(indices, 100, all, out) == 70 && out[69] == 20, "narrow indices, one past");
    expect(narrow_take(indices, 100, some, out) == 100 && out[70] == 0, "with nulls");
}

static const uint64_t ten_bits[2] = {(uint64_t)3 << 60, 5};

static void bit_filters(void) {
    uint64_t bits[2] = {7, 7};
    vortex_answer answer = vortex_filter_bits(ten_bits, 2, 60, odd, 1, 0, 4, bits, 0);
    expect(is(answer, VORTEX_ROOM, 2) && bits[0] == 7, "bits into no room");
    answer = vortex_filter_bits(ten_bits, 2, 60, odd, 1, 0, 69, bits, 2);
    expect(is(answer, VORTEX_LENGTHS, 0) && bits[0] == 7, "more bits than there are");
    answer = vortex_filter_bits(ten_bits, 2, SIZE_MAX, odd, 1, 0, 4, bits, 2);
    expect(is(answer, VORTEX_LENGTHS, 0) && bits[0] == 7, "bits from far away");
    answer = vortex_filter_bits(ten_bits, 2, 60, odd, 1, 61, 4, bits, 2);
    expect(is(answer, VORTEX_LENGTHS, 0) && bits[0] == 7, "a mask of too few bits");
    answer = vortex_filter_bits(ten_bits, 2, 60, ten_bits, 2, 60, 8, bits, 2);
    expect(is(answer, VORTEX_DONE, 4) && bits[0] == 15 && bits[1] == 7, "bits by themselves");
    answer = vortex_filter_bits(ten_bits, 2, 62, odd, 1, 0, 4, bits, 2);
    expect(is(answer, VORTEX_DONE, 2) && bits[0] == 0 && bits[1] == 7, "bits at an offset");
    answer = vortex_filter_bits(NULL, 0, 0, NULL, 0, 0, 0, NULL, 0);
    expect(is(answer, VORTEX_DONE, 0), "a filter of no bits");
}

static void bit_takes(void) {
    const uint64_t indices[4] = {4, 1, 9, 2}, there[1] = {11};
    uint64_t bits[2] = {7, 7};
    vortex_answer answer = vortex_take_bits(ten_bits, 2, 60, 8, indices, 4, NULL, 0, bits, 2);
    expect(is(answer, VORTEX_INDEX, 2) && bits[0] == 7, "an index past the bits");
    answer = vortex_take_bits(ten_bits, 2, 60, 8, indices, 4, there, 1, bits, 0);
    expect(is(answer, VORTEX_ROOM, 4) && bits[0] == 7, "taken bits into no room");
    answer = vortex_take_bits(ten_bits, 2, 60, 69, indices, 4, there, 1, bits, 2);
    expect(is(answer, VORTEX_LENGTHS, 0) && bits[0] == 7, "a source of too few bits");
    answer = vortex_take_bits(ten_bits, 2, 60, 8, indices, 3, there, 1, bits, 2);
    expect(is(answer, VORTEX_BITS_PAST, 0) && bits[0] == 7, "a bit past the indices of bits");
    answer = vortex_take_bits(ten_bits, 2, 60, 8, indices, 4, ten_bits, 2, bits, 2);
    expect(is(answer, VORTEX_LENGTHS, 0) && bits[0] == 7, "validity of bits, too long");
    answer = vortex_take_bits(ten_bits, 2, 60, 8, indices, 4, there, 1, bits, 2);
    expect(is(answer, VORTEX_DONE, 4) && bits[0] == 3 && bits[1] == 7, "bits with a null");
    answer = vortex_take_bits(NULL, 0, 0, 0, NULL, 0, NULL, 0, NULL, 0);
    expect(is(answer, VORTEX_DONE, 0), "a take of no bits");
}

static void positions(void) {
    uint64_t set[2] = {7, 7};
    vortex_answer answer = vortex_positions(odd, 1, 4, set, 1);
    expect(is(answer, VORTEX_ROOM, 2) && set[0] == 7, "positions into too little room");
    answer = vortex_positions(odd, 1, SIZE_MAX, set, 2);
    expect(is(answer, VORTEX_LENGTHS, 0) && set[0] == 7, "as many rows as there are numbers");
    answer = vortex_positions(odd, 1, 3, set, 2);
    expect(is(answer, VORTEX_BITS_PAST, 0) && set[0] == 7, "a bit past the rows");
    answer = vortex_positions(odd, 1, 4, set, 2);
    expect(is(answer, VORTEX_DONE, 2) && set[0] == 1 && set[1] == 3, "positions");
    answer = vortex_positions(NULL, 0, 0, NULL, 0);
    expect(is(answer, VORTEX_DONE, 0), "positions of nothing");
}

static void runs(void) {
    vortex_run found[3] = {{7, 7}, {7, 7}, {7, 7}};
    const uint64_t mask[2] = {(uint64_t)1 << 63 | 6, 1};
    vortex_answer answer = vortex_runs(mask, 2, 65, found, 1);
    expect(is(answer, VORTEX_ROOM, 2) && found[0].start == 7, "runs into too little room");
    answer = vortex_runs(mask, 2, 64, found, 3);
    expect(is(answer, VORTEX_LENGTHS, 0) && found[0].start == 7, "runs of a word too many");
    answer = vortex_runs(odd, 1, 3, found, 3);
    expect(is(answer, VORTEX_BITS_PAST, 0) && found[0].start == 7, "runs past the rows");
    answer = vortex_runs(mask, 2, 65, found, 3);
    expect(is(answer, VORTEX_DONE, 2) && found[0].start == 1 && found[0].end == 3, "runs");
    expect(found[1].start == 63 && found[1].end == 65 && found[2].start == 7, "across two words");
    answer = vortex_runs(NULL, 0, 0, NULL, 0);
    expect(is(answer, VORTEX_DONE, 0), "runs of nothing");
}

static void ranks(void) {
    expect(is(vortex_rank(odd, 1, 4, 1), VORTEX_DONE, 3), "a rank");
    expect(is(vortex_rank(odd, 1, 4, 2), VORTEX_INDEX, 2), "a rank past the set bits");
    expect(is(vortex_rank(odd, 1, 3, 0), VORTEX_BITS_PAST, 0), "a rank, a bit past the rows");
    expect(is(vortex_rank(NULL, 0, 0, 0), VORTEX_INDEX, 0), "a rank in nothing");
    expect(is(vortex_count_before(odd, 1, 4, 2), VORTEX_DONE, 1), "a count");
    expect(is(vortex_count_before(odd, 1, 4, 4), VORTEX_DONE, 2), "a count of all");
    expect(is(vortex_count_before(odd, 1, 4, 5), VORTEX_INDEX, 0), "a count past the rows");
    expect(is(vortex_count_before(odd, 1, SIZE_MAX, 0), VORTEX_LENGTHS, 0), "too many rows");
    expect(is(vortex_count_before(NULL, 0, 0, 0), VORTEX_DONE, 0), "a count of nothing");
}

static void version(void) {
    expect(VORTEX_VERSION == 1000, "version 0.1.0");
    expect(vortex_version() == VORTEX_VERSION, "the library's version is the header's");
}

int main(void) {
    version();
    filters();
    filters_in_place();
    takes();
    fronts();
    narrow_indices();
    bit_filters();
    bit_takes();
    positions();
    runs();
    ranks();
    printf("c: %d passed, %d failed\n", passed, failed);
    return failed != 0;
}
