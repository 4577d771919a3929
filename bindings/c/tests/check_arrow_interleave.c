/* Joins rows of several arrays: beside the rows as texts, and what is reported. Prints
 * `c: N passed, M failed`. */
#include "made_arrow.h"
#include "random_arrow.h"

#define PIECES 4

/* Pieces of one column: slices of its memory, and selections in memory of their own. */
static void cut(const struct ArrowSchema *schema, struct ArrowArray *array,
    struct ArrowArray *pieces)
{
    uint64_t indices[16], rows = (uint64_t)array->length;
    vortex_arrow_error error;
    size_t k, i, count;
    for (k = 0; k < PIECES; k++) {
        if (roll() % 2 || !rows) {
            uint64_t start = below((size_t)rows + 1);
            uint64_t end = start + below((size_t)(rows - start) + 1);
            expect(!vortex_arrow_slice(schema, array, start, end, &pieces[k], &error), "a slice", k);
        } else {
            vortex_arrow_step step;
            count = below(16);
            for (i = 0; i < count; i++) {
                indices[i] = below((size_t)rows);
            }
            step = take_of(indices, count, NULL);
            expect(!vortex_select_arrow(schema, array, &step, 1, NULL, &pieces[k], &error),
                "a selection", k);
        }
    }
}

/* Spans of pieces at random, some of no rows. */
static size_t random_spans(struct ArrowArray *pieces, vortex_arrow_span *spans)
{
    size_t k, count = below(12);
    for (k = 0; k < count; k++) {
        size_t source = below(PIECES);
        uint64_t rows = (uint64_t)pieces[source].length;
        spans[k].source = source;
        spans[k].start = below((size_t)rows + 1);
        spans[k].len = roll() % 4 ? below((size_t)(rows - spans[k].start) + 1)
            : rows - spans[k].start;
    }
    return count;
}

static void expect_rows(const struct ArrowSchema *schema, struct ArrowArray *pieces,
    const vortex_arrow_span *spans, size_t n_spans, struct ArrowArray *out, uint64_t seed)
{
    text is = {NULL, 0, 0}, was = {NULL, 0, 0};
    int64_t at = 0;
    size_t k;
    uint64_t i;
    for (k = 0; k < n_spans; k++) {
        for (i = 0; i < spans[k].len; i++, at++) {
            say_row(&was, schema, &pieces[spans[k].source], (int64_t)(spans[k].start + i));
            say(&was, ";");
            if (at < out->length) {
                say_row(&is, schema, out, at);
                say(&is, ";");
            }
        }
    }
    expect(at == out->length, "as many rows", seed);
    expect(is.len == was.len && (!is.len || !memcmp(is.data, was.data, is.len)), "the rows", seed);
    free(is.data);
    free(was.data);
}

/* Random columns of all formats. */
static void random_pieces(uint64_t seed)
{
    struct ArrowArray array, pieces[PIECES], *all[PIECES], out;
    vortex_arrow_span spans[16];
    vortex_arrow_error error;
    struct ArrowSchema schema;
    uint64_t status;
    size_t k, n;
    reseed(seed);
    random_column(&schema, &array, 3);
    cut(&schema, &array, pieces);
    for (k = 0; k < PIECES; k++) {
        all[k] = &pieces[k];
    }
    n = random_spans(pieces, spans);
    status = vortex_interleave_arrow(&schema, all, PIECES, spans, n, &out, &error);
    expect(!status && !error.status, error.text, seed);
    if (!status) {
        vortex_arrow_error faults;
        /* A dictionary is the source's, which may have any bytes under nulls. */
        expect(!vortex_arrow_check_array(&schema, &out, &faults) ||
            strstr(faults.place, "dictionary"), faults.text, seed);
        expect_rows(&schema, pieces, spans, n, &out, seed);
        out.release(&out);
    }
    for (k = 0; k < PIECES; k++) {
        pieces[k].release(&pieces[k]);
    }
    array.release(&array);
    schema.release(&schema);
}

/* ---- Faults ---- */

static const int64_t values[] = {10, 11, 12, 13, 14, 15, 16, 17};

static uint64_t joined(column *one, column *other, const vortex_arrow_span *spans, size_t n_spans,
    vortex_arrow_error *error)
{
    struct ArrowArray *both[2], out;
    uint64_t status;
    both[0] = &one->array;
    both[1] = &other->array;
    status = vortex_interleave_arrow(&one->schema, both, 2, spans, n_spans, &out, error);
    expect(error->status == status && !status == !error->text[0], "its words", status);
    expect(!status == !!out.release, "released at a fault", status);
    if (!status) {
        out.release(&out);
    }
    return status;
}

static void make_numbers(column *c, int64_t length)
{
    make(c, "l", "x", length, 2);
    c->array.null_count = 0;
    c->buffers[1] = values;
}

/* Spans that aren't within the rows. */
static void bad_spans(void)
{
    static const vortex_arrow_span rows[] = {
        {0, 0, 9}, {0, 9, 0}, {1, 3, 2}, {2, 0, 0}, {0, 1, UINT64_MAX}, {UINT64_MAX, 0, 1},
    };
    static const vortex_arrow_span good[] = {{1, 0, 4}, {0, 8, 0}, {0, 0, 8}};
    column one, other;
    vortex_arrow_error error;
    size_t k;
    make_numbers(&one, 8);
    make_numbers(&other, 4);
    for (k = 0; k < sizeof rows / sizeof rows[0]; k++) {
        expect(joined(&one, &other, &rows[k], 1, &error) == VORTEX_ARROW_BEYOND, "a span", k);
    }
    expect(!joined(&one, &other, good, 3, &error), "spans up to the ends", 0);
    expect(!joined(&one, &other, NULL, 0, &error), "no span", 0);
}

/* Arrays that don't go together, or with the schema. */
static void bad_arrays(void)
{
    static const vortex_arrow_span all[] = {{0, 0, 8}, {1, 0, 8}};
    static const uint8_t codes[8] = {0, 1, 0, 1, 0, 1, 0, 1};
    column one, other, words, others, child;
    vortex_arrow_error error;
    struct ArrowArray out;
    make_numbers(&one, 8);
    make_numbers(&other, 8);
    other.array.n_buffers = 1;
    expect(joined(&one, &other, all, 2, &error) == VORTEX_ARROW_SHAPE, "fewer buffers", 0);
    other.array.n_buffers = 2;
    other.array.release = NULL;
    expect(joined(&one, &other, all, 2, &error) == VORTEX_ARROW_SHAPE, "released", 0);
    other.array.release = release_array_of;
    other.array.length = -1;
    expect(joined(&one, &other, all, 2, &error) == VORTEX_ARROW_SHAPE, "a length", 0);
    expect(vortex_interleave_arrow(&one.schema, NULL, 0, NULL, 0, &out, &error) ==
        VORTEX_ARROW_SHAPE && !strcmp(error.place, "arrays"), "no arrays", 0);
    expect(vortex_interleave_arrow(&one.schema, NULL, 0, NULL, 0, &out, NULL) ==
        VORTEX_ARROW_SHAPE, "no error struct", 0);
    /* Dictionaries of the same bytes are equal, wherever they are; others aren't. */
    make(&one, "C", "x", 8, 2);
    make(&other, "C", "x", 8, 2);
    one.buffers[1] = other.buffers[1] = codes;
    one.array.null_count = other.array.null_count = 0;
    make_numbers(&words, 2);
    make_numbers(&others, 2);
    set_dictionary(&one, &words);
    set_dictionary(&other, &others);
    expect(!joined(&one, &other, all, 2, &error), "equal dictionaries", 0);
    others.buffers[1] = values + 1;
    expect(joined(&one, &other, all, 2, &error) == VORTEX_ARROW_UNLIKE &&
        !strcmp(error.place, "x dictionary"), "different dictionaries", 0);
    one.array.release(&one.array);
    other.array.release(&other.array);
    /* A child less is no struct of the schema. */
    make(&one, "+s", "x", 8, 1);
    make(&other, "+s", "x", 8, 1);
    make_numbers(&child, 8);
    add_child(&one, &child);
    expect(joined(&one, &other, all, 2, &error) == VORTEX_ARROW_SHAPE, "a child less", 0);
}

/* Offsets that would pass 2^31 - 1: the same long string, over and over. */
static void too_long(void)
{
    static const int32_t ends[] = {0, INT32_MAX};
    vortex_arrow_span spans[] = {{0, 0, 1}, {1, 0, 1}};
    vortex_arrow_error error;
    column one, other;
    make(&one, "+l", "x", 1, 2);
    make(&other, "+l", "x", 1, 2);
    one.buffers[1] = other.buffers[1] = ends;
    {
        column item, items;
        make(&item, "n", "item", INT32_MAX, 0);
        make(&items, "n", "item", INT32_MAX, 0);
        add_child(&one, &item);
        add_child(&other, &items);
        expect(!joined(&one, &other, spans, 1, &error), "one", 0);
        expect(joined(&one, &other, spans, 2, &error) == VORTEX_ARROW_OVERFLOW, "two", 0);
    }
}

int main(void)
{
    uint64_t seed;
    strcpy(left_out, "+ud");
    for (seed = 1; seed <= 20000; seed++) {
        random_pieces(seed);
    }
    bad_spans();
    bad_arrays();
    too_long();
    expect(!live_columns(), "all columns are released", 0);
    return report();
}
