/* Calls the kernels over lists that lie against pages that can't be touched, at their end or at
 * their start, and of which those that are read can't be written; compares what comes with plain
 * loops; and prints `c: N passed, M failed`. A byte past a list ends the program by a signal. The
 * calls run on a stack of 64 KiB.
 *
 * usage: guarded [rounds] */
#define _DEFAULT_SOURCE
#include <pthread.h>
#include <stdio.h>
#include <stdlib.h>
#include <string.h>
#include <sys/mman.h>

#include "vortex_select.h"

#define PAGES 4
#define PAGE 4096
#define MOST 300

#if defined(__SANITIZE_ADDRESS__)
#define STACK (1 << 20)
#elif defined(__has_feature)
#if __has_feature(address_sanitizer)
#define STACK (1 << 20)
#endif
#endif
#ifndef STACK
#define STACK (1 << 16)
#endif

static int passed, failed, rounds;
static uint64_t state = 88172645463325252u;

static uint64_t roll(void) {
    state ^= state << 13;
    state ^= state >> 7;
    return state ^= state << 17;
}

static size_t below(size_t bound) { return (size_t)(roll() >> 8) % bound; }

static void expect(int holds, const char *what, int width) {
    passed += holds;
    failed += !holds;
    if (!holds && failed < 20) {
        printf("c: not so: %s of width %d\n", what, width);
    }
}

/* Pages between two that can't be touched. */
typedef struct pages {
    uint8_t *start;
} pages;

static pages mapped(void) {
    uint8_t *all = mmap(NULL, (PAGES + 2) * PAGE, PROT_NONE, MAP_PRIVATE | MAP_ANONYMOUS, -1, 0);
    if (all == MAP_FAILED || mprotect(all + PAGE, PAGES * PAGE, PROT_READ | PROT_WRITE)) {
        perror("mmap");
        exit(2);
    }
    pages made = {all + PAGE};
    return made;
}

static void let(pages of, int how) {
    if (mprotect(of.start, PAGES * PAGE, how)) {
        perror("mprotect");
        exit(2);
    }
}

/* So many bytes of the pages, against one of their ends. */
static void *against(pages of, size_t bytes, int at_end) {
    return at_end ? of.start + PAGES * PAGE - bytes : of.start;
}

static size_t words_of(size_t bits) { return (bits + 63) / 64; }

static int bit(const uint64_t *words, size_t k) { return words[k / 64] >> (k % 64) & 1; }

static void fill(void *place, size_t bytes) {
    for (size_t k = 0; k < bytes; k++) {
        ((uint8_t *)place)[k] = (uint8_t)roll();
    }
}

/* Random bits, dense or not, and clear ones behind so many. */
static void fill_mask(uint64_t *words, size_t bits) {
    int kind = (int)below(4);
    for (size_t w = 0; w < words_of(bits); w++) {
        uint64_t word = roll();
        words[w] = kind == 0 ? word & roll() & roll() : kind == 1 ? word | roll() | roll()
            : kind == 2 ? (word & 1 ? UINT64_MAX : 0) : word;
    }
    if (bits % 64) {
        words[bits / 64] &= ((uint64_t)1 << bits % 64) - 1;
    }
}

typedef vortex_answer call_of_filter(const void *, size_t, const uint64_t *, size_t, size_t, void *,
    size_t);
typedef vortex_answer call_in_place(void *, size_t, const uint64_t *, size_t, size_t);
typedef vortex_answer call_of_take(const void *, size_t, const uint64_t *, size_t, const uint64_t *,
    size_t, void *, size_t);

/* The functions of a width, over untyped items. */
#define WIDTH(w, item)                                                                             \
    static vortex_answer filter_##w(const void *s, size_t n, const uint64_t *m, size_t k,          \
        size_t at, void *d, size_t r) {                                                            \
        return vortex_filter_##w((const item *)s, n, m, k, at, (item *)d, r);                      \
    }                                                                                              \
    static vortex_answer in_place_##w(void *s, size_t n, const uint64_t *m, size_t k, size_t at) { \
        return vortex_filter_in_place_##w((item *)s, n, m, k, at);                                 \
    }                                                                                              \
    static vortex_answer take_##w(const void *s, size_t n, const uint64_t *i, size_t k,            \
        const uint64_t *v, size_t m, void *d, size_t r) {                                          \
        return vortex_take_##w((const item *)s, n, i, k, v, m, (item *)d, r);                      \
    }                                                                                              \
    static vortex_answer front_##w(const void *s, size_t n, const uint64_t *i, size_t k,           \
        const uint64_t *v, size_t m, void *d, size_t r) {                                          \
        return vortex_take_front_##w((const item *)s, n, i, k, v, m, (item *)d, r);                \
    }

WIDTH(1, uint8_t)
WIDTH(2, uint16_t)
WIDTH(4, uint32_t)
WIDTH(8, uint64_t)
WIDTH(16, vortex_record_16)
WIDTH(32, vortex_record_32)

typedef struct width {
    int bytes;
    call_of_filter *filter;
    call_in_place *in_place;
    call_of_take *take, *front;
} width;

#define ROW(w) {w, filter_##w, in_place_##w, take_##w, front_##w}
static const width widths[6] = {ROW(1), ROW(2), ROW(4), ROW(8), ROW(16), ROW(32)};

static pages src_pages, mask_pages, index_pages, dst_pages;

static void read_only(int is) {
    int how = is ? PROT_READ : PROT_READ | PROT_WRITE;
    let(src_pages, how);
    let(mask_pages, how);
    let(index_pages, how);
}

/* The items at the set bits, in `kept`, and their number. */
static size_t plain_filter(const uint8_t *src, size_t n, int w, const uint64_t *mask, size_t at,
    uint8_t *kept) {
    size_t count = 0;
    for (size_t k = 0; k < n; k++) {
        if (bit(mask, at + k)) {
            memcpy(kept + w * count++, src + w * k, (size_t)w);
        }
    }
    return count;
}

static void filters(const width *of) {
    static uint8_t kept[32 * MOST];
    int w = of->bytes, at_end = (int)below(2);
    size_t n = below(MOST + 1), bytes = (size_t)w * n, at = below(2) ? below(130) : 0;
    size_t m = words_of(at + n);
    uint8_t *src = against(src_pages, bytes, at_end);
    uint64_t *mask = against(mask_pages, 8 * m, at_end);
    fill(src, bytes);
    fill_mask(mask, below(2) ? at + n : 64 * m);
    size_t count = plain_filter(src, n, w, mask, at, kept);
    uint8_t *dst = against(dst_pages, (size_t)w * count, at_end);
    read_only(1);
    vortex_answer answer = of->filter(src, n, mask, m, at, dst, count);
    expect(answer.status == VORTEX_DONE && answer.value == count, "a filter's answer", w);
    expect(memcmp(dst, kept, w * count) == 0, "a filter", w);
    if (count > 0) {
        answer = of->filter(src, n, mask, m, at, dst, count - 1);
        expect(answer.status == VORTEX_ROOM && answer.value == count, "a filter without room", w);
    }
    let(src_pages, PROT_READ | PROT_WRITE);
    answer = of->in_place(src, n, mask, m, at);
    expect(answer.status == VORTEX_DONE && answer.value == count, "in place, the answer", w);
    expect(memcmp(src, kept, w * count) == 0, "in place", w);
    read_only(0);
}

static void takes(const width *of) {
    int w = of->bytes, at_end = (int)below(2), has_valid = (int)below(2), has_past = below(4) == 0;
    size_t n = below(MOST + 1), k = below(MOST + 1), first = k;
    uint8_t *src = against(src_pages, (size_t)w * n, at_end);
    uint64_t *indices = against(index_pages, 8 * k, at_end);
    uint64_t *valid = against(mask_pages, 8 * words_of(k), at_end);
    uint8_t *dst = against(dst_pages, (size_t)w * k, at_end);
    fill(src, (size_t)w * n);
    fill_mask(valid, k);
    for (size_t i = 0; i < k; i++) {
        int is_past = n == 0 || (has_past && below(40) == 0);
        indices[i] = is_past ? (below(2) ? n : roll() | (uint64_t)1 << 63) : below(n);
        if (is_past && first == k && (!has_valid || bit(valid, i))) {
            first = i;
        }
    }
    memset(dst, 0xab, (size_t)w * k);
    size_t m = has_valid ? words_of(k) : 0;
    read_only(1);
    vortex_answer answer = of->take(src, n, indices, k, valid, m, dst, k);
    int is_whole = first == k;
    expect(answer.status == (is_whole ? VORTEX_DONE : VORTEX_INDEX) && answer.value == first,
        "a take's answer", w);
    answer = of->front(src, n, indices, k, valid, m, dst, k);
    expect(answer.status == VORTEX_DONE && answer.value == first, "a front's answer", w);
    static const uint8_t zeros[32];
    int is_so = 1;
    for (size_t i = 0; i < first; i++) {
        const uint8_t *item = m && !bit(valid, i) ? zeros : src + w * indices[i];
        is_so &= memcmp(dst + w * i, item, (size_t)w) == 0;
    }
    expect(is_so, "a take", w);
    read_only(0);
}

static void bits(void) {
    int at_end = (int)below(2);
    size_t n = below(MOST + 1), src_at = below(130), mask_at = below(130), k = below(MOST + 1);
    uint64_t *src = against(src_pages, 8 * words_of(src_at + n), at_end);
    uint64_t *mask = against(mask_pages, 8 * words_of(mask_at + n), at_end);
    uint64_t *indices = against(index_pages, 8 * k, at_end);
    fill(src, 8 * words_of(src_at + n));
    fill(mask, 8 * words_of(mask_at + n));
    size_t count = 0;
    for (size_t i = 0; i < n; i++) {
        count += (size_t)bit(mask, mask_at + i);
    }
    uint64_t *dst = against(dst_pages, 8 * words_of(count), at_end);
    read_only(1);
    vortex_answer answer = vortex_filter_bits(src, words_of(src_at + n), src_at, mask,
        words_of(mask_at + n), mask_at, n, dst, words_of(count));
    expect(answer.status == VORTEX_DONE && answer.value == count, "kept bits, the answer", 0);
    size_t next = 0;
    int is_so = 1;
    for (size_t i = 0; i < n; i++) {
        if (bit(mask, mask_at + i)) {
            is_so &= bit(dst, next++) == bit(src, src_at + i);
        }
    }
    expect(is_so, "kept bits", 0);
    read_only(0);
    if (n == 0) {
        return;
    }
    for (size_t i = 0; i < k; i++) {
        indices[i] = below(n);
    }
    dst = against(dst_pages, 8 * words_of(k), at_end);
    read_only(1);
    answer = vortex_take_bits(src, words_of(src_at + n), src_at, n, indices, k, NULL, 0, dst,
        words_of(k));
    is_so = answer.status == VORTEX_DONE && answer.value == k;
    for (size_t i = 0; i < k; i++) {
        is_so &= bit(dst, i) == bit(src, src_at + indices[i]);
    }
    expect(is_so, "taken bits", 0);
    read_only(0);
}

static void masks(void) {
    int at_end = (int)below(2);
    size_t n = below(MOST + 1), m = words_of(n), count = 0, starts = 0;
    uint64_t *mask = against(mask_pages, 8 * m, at_end);
    fill_mask(mask, n);
    for (size_t k = 0; k < n; k++) {
        count += (size_t)bit(mask, k);
        starts += (size_t)(bit(mask, k) && (k == 0 || !bit(mask, k - 1)));
    }
    read_only(1);
    uint64_t *set = against(dst_pages, 8 * count, at_end);
    vortex_answer answer = vortex_positions(mask, m, n, set, count);
    int is_so = answer.status == VORTEX_DONE && answer.value == count;
    for (size_t k = 0, next = 0; k < n; k++) {
        if (bit(mask, k)) {
            vortex_answer rank = vortex_rank(mask, m, n, next);
            vortex_answer before = vortex_count_before(mask, m, n, k);
            is_so &= rank.status == VORTEX_DONE && rank.value == k;
            is_so &= before.status == VORTEX_DONE && before.value == next;
            is_so &= set[next++] == k;
        }
    }
    expect(is_so, "positions, ranks and counts", 0);
    vortex_run *found = against(dst_pages, sizeof(vortex_run) * starts, at_end);
    answer = vortex_runs(mask, m, n, found, starts);
    is_so = answer.status == VORTEX_DONE && answer.value == starts;
    size_t covered = 0;
    for (size_t r = 0; r < starts; r++) {
        is_so &= found[r].start < found[r].end && (r == 0 || found[r - 1].end < found[r].start);
        covered += found[r].end - found[r].start;
        is_so &= bit(mask, found[r].start) && bit(mask, found[r].end - 1);
    }
    expect(is_so && covered == count, "runs", 0);
    read_only(0);
}

static void *all(void *nothing) {
    src_pages = mapped();
    mask_pages = mapped();
    index_pages = mapped();
    dst_pages = mapped();
    for (int round = 0; round < rounds; round++) {
        filters(&widths[round % 6]);
        takes(&widths[round % 6]);
        bits();
        masks();
    }
    return nothing;
}

int main(int count, char **words) {
    rounds = count > 1 ? atoi(words[1]) : 3000;
    pthread_attr_t how;
    pthread_t thread;
    if (pthread_attr_init(&how) || pthread_attr_setstacksize(&how, STACK)
        || pthread_create(&thread, &how, all, NULL) || pthread_join(thread, NULL)) {
        printf("c: no thread\n");
        return 2;
    }
    printf("c: %d passed, %d failed\n", passed, failed);
    return failed != 0;
}
