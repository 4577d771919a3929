/* Slices arrays without a copy: the numbers of a slice, its rows beside those of the array and of
 * vortex_select_arrow, who releases what, and what is reported. Prints `c: N passed, M failed`. */
#include "made_arrow.h"
#include "random_arrow.h"

static const int64_t values[] = {10, 11, 12, 13, 14, 15, 16, 17};
static const uint8_t bits[] = {0xb5};

static int64_t value_at(const struct ArrowArray *array, int64_t k)
{
    return ((const int64_t *)array->buffers[1])[array->offset + k];
}

static int has_rows(const struct ArrowArray *array, int64_t length, int64_t first)
{
    return array->length == length && value_at(array, 0) == first &&
        value_at(array, length - 1) == first + length - 1;
}

static uint64_t sliced(column *c, uint64_t start, uint64_t end, struct ArrowArray *out)
{
    vortex_arrow_error error;
    uint64_t status = vortex_arrow_slice(&c->schema, &c->array, start, end, out, &error);
    expect(error.status == status && !status == !error.text[0], "its words", status);
    expect(!status == !!out->release, "released at a fault", status);
    return status;
}

/* ---- Numbers ---- */

typedef struct numbers {
    const char *format;
    int64_t offset, length, null_count; /* of the array */
    uint64_t start, end;
    int64_t new_offset, new_length, new_null_count;
} numbers;

static void numbers_of_slices(void)
{
    static const numbers rows[] = {
        {"l", 0, 8, -1, 2, 5, 2, 3, -1},
        {"l", 0, 8, 3, 0, 8, 0, 8, -1},
        {"l", 0, 8, 0, 1, 8, 1, 7, 0},
        {"l", 3, 5, 2, 1, 4, 4, 3, -1},
        {"l", 3, 5, 0, 5, 5, 8, 0, 0},
        {"l", 0, 0, 0, 0, 0, 0, 0, 0},
        {"n", 0, 8, 8, 2, 5, 2, 3, 3},
        {"n", 2, 4, -1, 1, 4, 3, 3, 3},
        {"n", 0, 8, 0, 3, 3, 3, 0, 0},
    };
    size_t k;
    for (k = 0; k < sizeof rows / sizeof rows[0]; k++) {
        const numbers *row = &rows[k];
        struct ArrowArray out;
        column c;
        make(&c, row->format, "x", row->length, row->format[0] == 'n' ? 0 : 2);
        c.buffers[0] = bits;
        c.buffers[1] = values;
        c.array.offset = row->offset;
        c.array.null_count = row->null_count;
        expect(!sliced(&c, row->start, row->end, &out), "a slice", k);
        expect(out.offset == row->new_offset && out.length == row->new_length, "its rows", k);
        expect(out.null_count == row->new_null_count, "its nulls", k);
        expect(out.buffers == c.array.buffers, "its memory", k);
        expect(c.array.offset == row->offset && c.array.length == row->length &&
            c.array.null_count == row->null_count, "the array keeps its numbers", k);
        c.array.release(&c.array);
        out.release(&out);
    }
    released = 0;
}

/* The time doesn't depend on the rows: nothing leads to memory. */
static void unread(void)
{
    static const uint8_t none[1];
    struct ArrowArray out;
    column c;
    make(&c, "C", "x", (int64_t)1 << 50, 2);
    c.buffers[0] = c.buffers[1] = none;
    expect(!sliced(&c, 1, ((uint64_t)1 << 50) - 1, &out), "2^50 rows", 0);
    expect(out.offset == 1 && out.length == ((int64_t)1 << 50) - 2, "a slice of them", 0);
    c.array.release(&c.array);
    out.release(&out);
    released = 0;
}

/* ---- Owners ---- */

/* An array, a slice of it, and a slice of that, released in the order that is given. */
static void in_order(const int *order)
{
    static const int64_t lengths[] = {8, 5, 2}, firsts[] = {10, 12, 15};
    struct ArrowArray *arrays[3], slices[2];
    vortex_arrow_error error;
    column c;
    int k, later;
    make(&c, "l", "x", 8, 2);
    c.buffers[1] = values;
    arrays[0] = &c.array;
    arrays[1] = &slices[0];
    arrays[2] = &slices[1];
    expect(!sliced(&c, 2, 7, &slices[0]), "a slice", 0);
    expect(!vortex_arrow_slice(&c.schema, &slices[0], 3, 5, &slices[1], &error), "of a slice", 0);
    for (k = 0; k < 3; k++) {
        for (later = k; later < 3; later++) {
            int which = order[later];
            expect(has_rows(arrays[which], lengths[which], firsts[which]), "its rows", 0);
        }
        expect(!released, "the memory stays", (uint64_t)k);
        arrays[order[k]]->release(arrays[order[k]]);
        expect(!arrays[order[k]]->release, "it is released", (uint64_t)k);
    }
    expect(released == 1, "and then the memory, once", (uint64_t)released);
    released = 0;
}

/* What is below an array keeps its numbers. */
static void below_it(void)
{
    static const uint8_t zeros[8];
    struct ArrowArray out;
    column top, child, codes, words;
    make(&top, "+s", "top", 7, 1);
    make(&child, "l", "x", 7, 2);
    child.buffers[1] = values;
    child.array.offset = 1;
    make(&codes, "C", "k", 7, 2);
    codes.buffers[1] = zeros;
    make(&words, "l", "", 8, 2);
    words.buffers[1] = values;
    add_child(&top, &child);
    add_child(&top, &codes);
    set_dictionary(&codes, &words);
    expect(!sliced(&top, 2, 6, &out), "a struct", 0);
    expect(out.offset == 2 && out.length == 4, "its rows", 0);
    expect(has_rows(out.children[0], 7, 11) && out.children[0]->offset == 1, "its child", 0);
    expect(!out.children[1]->offset && out.children[1]->length == 7, "its codes", 0);
    expect(has_rows(out.children[1]->dictionary, 8, 10), "its dictionary", 0);
    top.array.release(&top.array);
    expect(has_rows(out.children[0], 7, 11), "the memory stays", 0);
    out.release(&out);
    expect(released == 4, "all are released, once each", (uint64_t)released);
    released = 0;
}

/* ---- Faults ---- */

typedef struct fault {
    uint64_t start, end;
    const char *text;
} fault;

/* A range that isn't within the rows, of which a selection says the same. */
static void bad_ranges(void)
{
    static const fault rows[] = {
        {1, 9, "step 0: BadRange: slice 1..9, but 8 rows"},
        {5, 3, "step 0: BadRange: slice 5..3 starts after its end"},
        {9, 9, "step 0: BadRange: slice 9..9, but 8 rows"},
        {9, 3, "step 0: BadRange: slice 9..3 starts after its end"},
        {0, UINT64_MAX, "step 0: BadRange: slice 0..18446744073709551615, but 8 rows"},
    };
    struct ArrowArray out;
    column c;
    size_t k;
    make(&c, "l", "x", 8, 2);
    c.buffers[1] = values;
    for (k = 0; k < sizeof rows / sizeof rows[0]; k++) {
        vortex_arrow_error error, other;
        vortex_arrow_step step = take_of(NULL, 0, NULL);
        step.kind = VORTEX_ARROW_SLICE;
        step.start = rows[k].start;
        step.end = rows[k].end;
        memset(&other, 0, sizeof other);
        expect(vortex_arrow_slice(&c.schema, &c.array, step.start, step.end, &out, &error) ==
            VORTEX_ARROW_BROKEN && error.cause == VORTEX_ARROW_BAD_RANGE, "a bad range", k);
        expect(!strcmp(error.text, rows[k].text) && !strcmp(error.place, "step 0"), "words", k);
        expect(!out.release && c.array.release == release_array_of, "nothing is shared", k);
        vortex_select_arrow(&c.schema, &c.array, &step, 1, NULL, &out, &other);
        expect(!memcmp(&error, &other, sizeof error), "as a selection", k);
        expect(vortex_arrow_slice(&c.schema, &c.array, step.start, step.end, &out, NULL) ==
            VORTEX_ARROW_BROKEN, "no error struct", k);
    }
}

/* Expects that a slice of no rows fails as a selection does, with this status and place. */
static void expect_fault(column *c, uint64_t status, const char *place)
{
    void (*release)(struct ArrowArray *) = c->array.release;
    vortex_arrow_error error, other;
    struct ArrowArray out;
    expect(vortex_arrow_slice(&c->schema, &c->array, 0, 0, &out, &error) == status, place, status);
    expect(error.status == status && !strcmp(error.place, place) && !out.release, place, 1);
    expect(c->array.release == release, "the array stays", status);
    expect(selected(c, NULL, 0, &other) == status && !strcmp(error.text, other.text), place, 2);
}

/* Structs that aren't as the format has them. */
static void bad_structs(void)
{
    static const int32_t ends[] = {0, 9};
    column c, child, other;
    struct ArrowArray out;
    make(&c, "l", "x", 8, 2);
    c.buffers[1] = values;
    c.array.release = NULL;
    expect_fault(&c, VORTEX_ARROW_SHAPE, "release");
    c.array.release = release_array_of;
    c.schema.release = NULL;
    expect_fault(&c, VORTEX_ARROW_SHAPE, "release");
    c.schema.release = release_schema_of;
    c.array.length = -1;
    expect_fault(&c, VORTEX_ARROW_SHAPE, "length");
    c.array.length = 8;
    c.array.offset = -1;
    expect_fault(&c, VORTEX_ARROW_SHAPE, "x length");
    c.array.offset = INT64_MAX - 8;
    expect_fault(&c, VORTEX_ARROW_SHAPE, "x length");
    c.array.offset = (int64_t)1 << 60;
    expect_fault(&c, VORTEX_ARROW_NO_MEANING, "x length");
    c.array.offset = 0;
    c.array.n_buffers = 3;
    expect_fault(&c, VORTEX_ARROW_SHAPE, "x buffers");
    c.array.n_buffers = 2;
    c.array.null_count = 1;
    expect_fault(&c, VORTEX_ARROW_SHAPE, "x validity");
    c.array.null_count = 0;
    c.schema.format = "+r";
    expect_fault(&c, VORTEX_ARROW_FORMAT, "x +r");
    make(&c, "+l", "x", 1, 2);
    c.buffers[1] = ends;
    make(&child, "l", "item", 8, 2);
    child.buffers[1] = values;
    add_child(&c, &child);
    expect_fault(&c, VORTEX_ARROW_NO_MEANING, "x offsets");
    c.schema.format = "+s";
    c.array.n_buffers = 1;
    child.array.release = NULL;
    expect_fault(&c, VORTEX_ARROW_SHAPE, "x children");
    child.array.release = release_array_of;
    make(&other, "l", "other", 8, 2);
    expect(!sliced(&c, 0, 1, &out), "a struct", 0);
    out.release(&out);
    c.array.children[0]->release(c.array.children[0]);
    c.array.children[0] = &other.array;
    expect(sliced(&c, 0, 1, &out) == VORTEX_ARROW_SHAPE, "another child", 0);
    expect(vortex_arrow_slice(NULL, &c.array, 0, 0, &out, NULL) == VORTEX_ARROW_SHAPE, "none", 0);
    expect(vortex_arrow_slice(&c.schema, NULL, 0, 0, &out, NULL) == VORTEX_ARROW_SHAPE, "none", 0);
    c.array.release(&c.array);
    released = 0;
}

/* Structs in structs, as many as there may be, and one more. */
static void deep(void)
{
    static column levels[VORTEX_ARROW_LEVELS + 1];
    struct ArrowArray out;
    int k;
    for (k = 0; k <= VORTEX_ARROW_LEVELS; k++) {
        make(&levels[k], "+s", "", 0, 1);
        if (k) {
            add_child(&levels[k - 1], &levels[k]);
        }
    }
    expect(sliced(&levels[0], 0, 0, &out) == VORTEX_ARROW_DEPTH, "too deep", 0);
    expect(!sliced(&levels[1], 0, 0, &out), "deep", 0);
    out.release(&out);
    levels[0].array.release(&levels[0].array);
    released = 0;
}

/* ---- Random columns ---- */

/* The rows of an array as texts, from one row up to another. */
static char *rows_of(const struct ArrowSchema *schema, const struct ArrowArray *array,
    int64_t start, int64_t end)
{
    text t = {NULL, 0, 0};
    say(&t, "%s", "");
    for (; start < end; start++) {
        say_row(&t, schema, array, start);
        say(&t, ";");
    }
    return t.data;
}

static void expect_rows(const struct ArrowSchema *schema, const struct ArrowArray *array,
    const char *rows, const char *what, uint64_t seed)
{
    char *found = rows_of(schema, array, 0, array->length);
    expect(!strcmp(found, rows), what, seed);
    free(found);
}

/* Expects the rows of a selection. */
static void expect_selected(const struct ArrowSchema *schema, struct ArrowArray *array,
    const vortex_arrow_step *steps, size_t n_steps, const char *rows, uint64_t seed)
{
    struct ArrowArray out;
    vortex_arrow_error error;
    uint64_t status = vortex_select_arrow(schema, array, steps, n_steps, NULL, &out, &error);
    expect(!status, "a selection", seed);
    if (!status) {
        expect_rows(schema, &out, rows, "the rows of a selection", seed);
        out.release(&out);
    }
}

/* Slices an array, and expects the rows that the array has and that a selection returns. */
static void slice_at(const struct ArrowSchema *schema, struct ArrowArray *array, int64_t start,
    int64_t end, struct ArrowArray *out, uint64_t seed)
{
    vortex_arrow_step step = take_of(NULL, 0, NULL);
    vortex_arrow_error error;
    char *rows = rows_of(schema, array, start, end);
    step.kind = VORTEX_ARROW_SLICE;
    step.start = (uint64_t)start;
    step.end = (uint64_t)end;
    expect(!vortex_arrow_slice(schema, array, step.start, step.end, out, &error), "slice", seed);
    expect_rows(schema, out, rows, "the rows of a slice", seed);
    expect(!vortex_arrow_check_array(schema, out, &error) || !is_strict, "a valid slice", seed);
    expect_selected(schema, array, &step, 1, rows, seed);
    expect_selected(schema, out, NULL, 0, rows, seed);
    free(rows);
}

/* Slices of slices of a random column, released in a random order. */
static void random_round(uint64_t seed)
{
    struct ArrowArray arrays[4];
    struct ArrowSchema schema;
    size_t k, left = 4;
    reseed(seed);
    is_strict = seed % 2 == 0;
    random_column(&schema, &arrays[0], 3);
    for (k = 1; k < 4; k++) {
        struct ArrowArray *of = &arrays[below(k)];
        int64_t start = (int64_t)below((size_t)of->length + 1);
        int64_t end = start + (int64_t)below((size_t)(of->length - start) + 1);
        slice_at(&schema, of, start, end, &arrays[k], seed);
    }
    for (; left; left--) {
        size_t which = below(left);
        char *rows = rows_of(&schema, &arrays[left - 1], 0, arrays[left - 1].length);
        arrays[which].release(&arrays[which]);
        if (which < left - 1) {
            arrays[which] = arrays[left - 1];
            expect_rows(&schema, &arrays[which], rows, "the others stay", seed);
        }
        free(rows);
    }
    schema.release(&schema);
    expect(live_columns() == 0, "all are released", seed);
}

int main(int argc, char **argv)
{
    static const int orders[6][3] = {{0, 1, 2}, {0, 2, 1}, {1, 0, 2}, {1, 2, 0}, {2, 0, 1},
        {2, 1, 0}};
    uint64_t seed, rounds = argc > 1 ? strtoul(argv[1], NULL, 10) / 10 : 300;
    size_t k;
    numbers_of_slices();
    unread();
    for (k = 0; k < 6; k++) {
        in_order(orders[k]);
    }
    below_it();
    bad_ranges();
    bad_structs();
    deep();
    for (seed = 1; seed <= rounds; seed++) {
        random_round(seed);
    }
    return report();
}
