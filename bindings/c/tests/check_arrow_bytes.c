/* Looks at each byte of random answers: prints a hash of all buffers of each, to their allocated
 * end, so that two runs over memory with different contents can be compared; and tests that there
 * are zeros under nulls, in the bits after the last row, and in the bytes after the rows. Prints
 * `c: N passed, M failed`.
 *
 * usage: check_arrow_bytes HASHES [rounds]    (HASHES: the file that the hashes are written to) */
#include <stdio.h>
#include <stdlib.h>
#include <string.h>

#include "expect.h"
#include "random_steps.h"

typedef struct bytes {
    const uint8_t *data;
    size_t len; /* of the rows; the allocated end is the next multiple of 64 */
} bytes;

static size_t end_of(size_t len) { return len ? (len + 63) / 64 * 64 : 64; }

static uint64_t hash_of(uint64_t hash, const void *from, size_t len)
{
    size_t k;
    for (k = 0; k < len; k++) {
        hash = (hash ^ ((const uint8_t *)from)[k]) * 1099511628211u;
    }
    return hash;
}

static int are_zeros(const uint8_t *data, size_t from, size_t to)
{
    while (from < to && !data[from]) {
        from++;
    }
    return from >= to;
}

static int is_wide(const char *format)
{
    return format[0] == 'U' || format[0] == 'Z' || (format[0] == '+' && (format[1] == 'L' ||
        (format[1] == 'v' && format[2] == 'L')));
}

/* How many bytes a value of a buffer has; 0 for one that has bits, or bytes of strings. */
static size_t value_width(const char *format, int64_t k)
{
    if (k == 0) {
        return !strncmp(format, "+u", 2);
    }
    if (format[0] == '+') {
        return is_wide(format) ? 8 : 4;
    }
    if (strchr("uUzZ", format[0])) {
        return k > 1 ? 0 : is_wide(format) ? 8 : 4;
    }
    return format[0] == 'v' ? 16 : format[0] == 'b' ? 0 : format[0] != 't' ? width_of(format)
        : format[1] == 'd' ? 4 : 8;
}

/* How many values a buffer has. */
static size_t values_in(const char *format, const struct ArrowArray *array, int64_t k)
{
    int has_end = strchr("uUzZ", format[0]) || !strcmp(format, "+l") || !strcmp(format, "+L");
    return (size_t)array->length + (k == 1 && has_end);
}

static bytes bytes_in(const char *format, const struct ArrowArray *array, int64_t k)
{
    bytes b = {(const uint8_t *)array->buffers[k], 0};
    size_t width = value_width(format, k);
    if (width || (k == 1 && format[0] == 'w')) {
        b.len = width * values_in(format, array, k);
    } else if (k == 2) {
        b.len = (size_t)offset_at(array->buffers[1], array->length, is_wide(format));
    } else {
        b.len = ((size_t)array->length + 7) / 8;
    }
    return b;
}

/* Tests what is in a buffer under a null. Offsets of strings and of lists don't ascend there. */
static void expect_nothing(const char *format, const struct ArrowArray *array, int64_t k,
    size_t row, uint64_t seed)
{
    const uint8_t *data = (const uint8_t *)array->buffers[k];
    size_t width = value_width(format, k);
    if (format[0] == 'b') {
        expect(!is_set(data, row), "a bit under a null", seed);
    } else if (values_in(format, array, k) > (size_t)array->length) {
        expect(!memcmp(data + row * width, data + (row + 1) * width, width),
            "offsets of a null", seed);
    } else {
        expect(are_zeros(data, row * width, (row + 1) * width), "a value under a null", seed);
    }
}

static void check_nulls(const char *format, const struct ArrowArray *array, int64_t k,
    uint64_t seed)
{
    size_t row;
    int has_rows = k == 1 || (k == 2 && !strncmp(format, "+v", 2));
    for (row = 0; has_rows && row < (size_t)array->length; row++) {
        if (!is_valid(array, (int64_t)row)) {
            expect_nothing(format, array, k, row, seed);
        }
    }
}

/* Tests a buffer, and returns the hash with its bytes in it. */
static uint64_t check_buffer(const char *format, const struct ArrowArray *array, int64_t k,
    uint64_t hash, uint64_t seed)
{
    bytes b = bytes_in(format, array, k);
    size_t tail = (size_t)array->length % 8;
    int has_bits = !value_width(format, k) && k < 2 && format[0] != 'w';
    if (!b.data) {
        expect(k == 0 && strncmp(format, "+u", 2), "a buffer that is missing", seed);
        return hash_of(hash, "-", 1);
    }
    if (has_bits && tail) {
        expect(!(b.data[b.len - 1] >> tail), "bits after the last row", seed);
    }
    expect((uintptr_t)b.data % 64 == 0, "a buffer that isn't aligned", seed);
    expect(are_zeros(b.data, b.len, end_of(b.len)), "bytes after the rows", seed);
    if (strncmp(format, "+u", 2)) {
        check_nulls(format, array, k, seed);
    }
    return hash_of(hash, b.data, end_of(b.len));
}

/* Tests an answer, and returns the hash with it in it. What it shares with the source is left out:
 * dictionaries, the data buffers of views, and the children of list views. */
static uint64_t check_answer(const struct ArrowSchema *schema, const struct ArrowArray *array,
    uint64_t hash, uint64_t seed)
{
    const char *format = schema->format;
    int64_t k, own = format[0] == 'v' ? 2 : array->n_buffers;
    hash = hash_of(hash, &array->length, sizeof array->length);
    hash = hash_of(hash, &array->null_count, sizeof array->null_count);
    for (k = 0; k < own; k++) {
        hash = check_buffer(format, array, k, hash, seed);
    }
    for (k = 0; k < array->n_children && strncmp(format, "+v", 2); k++) {
        hash = check_answer(schema->children[k], array->children[k], hash, seed);
    }
    return hash;
}

/* Has memory that is freed hold other bytes than before. */
static void soil(uint64_t seed)
{
    size_t k;
    void *blocks[8];
    for (k = 0; k < 8; k++) {
        size_t size = (size_t)64 << (k + seed % 3);
        blocks[k] = made_block(size);
        memset(blocks[k], (int)(0x5a + seed), size);
    }
    for (k = 0; k < 8; k++) {
        free(blocks[k]);
    }
}

static void round_of(FILE *hashes, uint64_t seed)
{
    struct ArrowSchema schema;
    struct ArrowArray array, out;
    walk w;
    reseed(seed);
    random_column(&schema, &array, 3);
    random_walk(&w, (size_t)array.length);
    soil(seed);
    if (!vortex_select_arrow(&schema, &array, w.steps, w.n_steps, NULL, &out, NULL)) {
        uint64_t hash = check_answer(&schema, &out, 14695981039346656037u, seed);
        fprintf(hashes, "%llu %016llx\n", (unsigned long long)seed, (unsigned long long)hash);
        out.release(&out);
    }
    array.release(&array);
    schema.release(&schema);
}

int main(int argc, char **argv)
{
    uint64_t rounds = argc > 2 ? strtoull(argv[2], NULL, 10) : 10000, seed;
    FILE *hashes = argc > 1 ? fopen(argv[1], "w") : NULL;
    if (!hashes) {
        printf("usage: check_arrow_bytes HASHES [rounds]\n");
        return 2;
    }
    for (seed = 1; seed <= rounds; seed++) {
        round_of(hashes, seed);
    }
    expect(fclose(hashes) == 0 && live_columns() == 0, "all released", 0);
    return report();
}
