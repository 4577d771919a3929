/* Checks dictionaries and selects by them: codes, shapes, and how many columns a call visits.
 * Prints `c: N passed, M failed`. */
#include <time.h>

#include "made_arrow.h"

static const int32_t numbers[] = {10, 20, 30};

/* Codes of each integer type: the first two are 0 and 2, and `last` follows. */
static void make_codes(column *c, const char *format, void *codes, int64_t last)
{
    static const char letters[] = "cCsSiIlL";
    size_t width = (size_t)1 << (strchr(letters, format[0]) - letters) / 2, k;
    int64_t values[3] = {0, 2, 0};
    values[2] = last;
    for (k = 0; k < 3; k++) {
        memcpy((uint8_t *)codes + k * width, &values[k], width);
    }
    make(c, format, "kind", 3, 2);
    c->buffers[1] = codes;
}

static void make_numbers(column *c)
{
    make(c, "i", NULL, 3, 2);
    c->buffers[1] = numbers;
}

/* A code that is past the values is refused where its row is selected and not null. */
static void codes_of(const char *format, int64_t last, uint64_t status)
{
    static const uint64_t both[] = {0, 2}, first[] = {1};
    static const uint8_t null_last[] = {0x03}, all[] = {0x07};
    vortex_arrow_step bad = take_of(both, 2, NULL), good = take_of(first, 1, NULL);
    vortex_arrow_error error;
    column codes, values;
    int64_t bytes[3];
    make_codes(&codes, format, bytes, last);
    make_numbers(&values);
    set_dictionary(&codes, &values);
    expect_check(&codes, status, status ? "kind dictionary codes" : "", "a code");
    expect(!status || check(&codes, &error) != status || error.cause == VORTEX_ARROW_LACKS_CODES,
        "the cause of a code", 0);
    expect(selected(&codes, &bad, 1, &error) == status, "a code that is selected", 1);
    expect(!strcmp(error.place, status ? "kind dictionary codes" : ""), "its place", 1);
    expect(!selected(&codes, &good, 1, &error), "a code that isn't selected", 2);
    codes.buffers[0] = all;
    codes.array.null_count = -1;
    expect(check(&codes, &error) == status, "a code of a valid row", 3);
    expect(selected(&codes, &bad, 1, &error) == status, "a code of a valid row", 4);
    codes.buffers[0] = null_last;
    expect(!check(&codes, &error), "a code under a null", 5);
    expect(!selected(&codes, &bad, 1, &error), "a code under a null", 6);
    codes.array.release(&codes.array);
}

static void codes(void)
{
    static const char *const formats[] = {"c", "C", "s", "S", "i", "I", "l", "L"};
    size_t k;
    for (k = 0; k < 8; k++) {
        codes_of(formats[k], 2, VORTEX_ARROW_DONE);
        codes_of(formats[k], 3, VORTEX_ARROW_NO_MEANING);
        codes_of(formats[k], 100, VORTEX_ARROW_NO_MEANING);
        codes_of(formats[k], -1, VORTEX_ARROW_NO_MEANING);
    }
}

/* Each of many codes, alone past the values, is refused unless it is null. */
static void each_code(size_t bad, size_t null, int64_t offset)
{
    enum { ROWS = 40 };
    static uint16_t many[ROWS];
    uint8_t valid[ROWS / 8];
    column codes, values;
    int is_bad = (int64_t)bad >= offset && bad != null;
    memset(many, 0, sizeof many);
    memset(valid, 0xff, sizeof valid);
    many[bad] = 3;
    valid[null / 8] &= (uint8_t)~(1 << null % 8);
    make(&codes, "S", "k", ROWS - offset, 2);
    codes.array.offset = offset;
    codes.buffers[0] = valid;
    codes.buffers[1] = many;
    make_numbers(&values);
    set_dictionary(&codes, &values);
    expect_both(&codes, is_bad ? VORTEX_ARROW_NO_MEANING : VORTEX_ARROW_DONE,
        is_bad ? "k dictionary codes" : "", "one of many codes");
    codes.array.release(&codes.array);
}

static void each_of_many(void)
{
    size_t bad, offset;
    for (bad = 0; bad < 40; bad++) {
        for (offset = 0; offset < 12; offset += 11) {
            each_code(bad, bad, (int64_t)offset);
            each_code(bad, (bad + 1) % 40, (int64_t)offset);
            each_code(bad, (bad + 39) % 40, (int64_t)offset);
        }
    }
}

/* A dictionary may have more values than a signed code can name. */
static void long_dictionary(void)
{
    static uint8_t many[300];
    static const uint8_t bytes[] = {127, 128, 255}, positive[] = {127, 100, 64};
    column codes, values;
    make(&codes, "c", "k", 3, 2);
    codes.buffers[1] = bytes;
    make(&values, "C", "", 300, 2);
    values.buffers[1] = many;
    set_dictionary(&codes, &values);
    expect_both(&codes, VORTEX_ARROW_NO_MEANING, "k dictionary codes", "a negative code");
    codes.buffers[1] = positive;
    expect_check(&codes, VORTEX_ARROW_DONE, "", "the greatest signed code");
    codes.buffers[1] = bytes;
    codes.schema.format = "C";
    expect_check(&codes, VORTEX_ARROW_DONE, "", "an unsigned code");
    codes.array.offset = 1;
    codes.array.length = 2;
    codes.array.dictionary->length = 255;
    expect_both(&codes, VORTEX_ARROW_NO_MEANING, "k dictionary codes", "a code behind an offset");
    codes.array.length = 1;
    expect_check(&codes, VORTEX_ARROW_DONE, "", "a code that isn't in the rows");
    codes.array.release(&codes.array);
}

/* A dictionary without values has no codes, but it has nulls. */
static void no_values(void)
{
    static const uint8_t byte[] = {0}, null[] = {0x00}, valid[] = {0x01};
    static const uint64_t nowhere[] = {0};
    vortex_arrow_step step = take_of(nowhere, 1, null);
    vortex_arrow_error error;
    column codes, values;
    make(&codes, "C", "k", 1, 2);
    codes.buffers[0] = null;
    codes.buffers[1] = byte;
    make(&values, "C", "", 0, 2);
    values.buffers[1] = byte;
    set_dictionary(&codes, &values);
    expect_check(&codes, VORTEX_ARROW_DONE, "", "nulls without values");
    expect(!selected(&codes, NULL, 0, &error), "nulls without values", 0);
    codes.buffers[0] = valid;
    expect_both(&codes, VORTEX_ARROW_NO_MEANING, "k dictionary codes", "a code without values");
    expect(!selected(&codes, &step, 1, &error), "a null of a column without values", 0);
    codes.buffers[0] = NULL;
    expect(!selected(&codes, &step, 1, &error), "a null of a column without validity", 0);
    codes.array.release(&codes.array);
}

/* Has the dictionary be of no format, of structs, and released. */
static void released_values(column *top, column *values)
{
    values->schema.format = "nonsense";
    expect_check(top, VORTEX_ARROW_FORMAT, "top.kind.dictionary nonsense", "a format");
    values->schema.format = NULL;
    expect_check(top, VORTEX_ARROW_SHAPE, "top.kind.dictionary children", "no format");
    values->schema.format = "+s";
    values->array.n_buffers = 1;
    values->schema.n_children = 1;
    expect_check(top, VORTEX_ARROW_SHAPE, "top.kind.dictionary children", "no children");
    values->schema.n_children = 0;
    expect_check(top, VORTEX_ARROW_DONE, "", "a dictionary of structs without fields");
    values->schema.release = NULL;
    expect_check(top, VORTEX_ARROW_SHAPE, "top.kind.dictionary children", "released");
    values->schema.release = release_schema_of;
    values->array.release = NULL;
    expect_check(top, VORTEX_ARROW_SHAPE, "top.kind.dictionary children", "released");
    expect(selected(top, NULL, 0, NULL) == VORTEX_ARROW_SHAPE, "released", 0);
}

/* Has the dictionary of a struct's child be wrong in each way, which check reports. */
static void shapes(void)
{
    static const int32_t bad_offsets[] = {0, 1, 9, 2}, good_offsets[] = {0, 1, 2, 2};
    static const uint8_t zeros[3], past[] = {0, 0, 9};
    column top, codes, values;
    make(&top, "+s", "top", 3, 1);
    make(&codes, "C", "kind", 3, 2);
    codes.buffers[1] = zeros;
    add_child(&top, &codes);
    make(&values, "u", NULL, 3, 3);
    values.buffers[1] = good_offsets;
    values.buffers[2] = "ab";
    set_dictionary(&codes, &values);
    expect_check(&top, VORTEX_ARROW_DONE, "", "a dictionary");
    values.buffers[1] = bad_offsets;
    expect_check(&top, VORTEX_ARROW_NO_MEANING, "top.kind.dictionary offsets", "offsets");
    codes.buffers[1] = past;
    expect_check(&top, VORTEX_ARROW_NO_MEANING, "top.kind.dictionary offsets", "offsets first");
    codes.buffers[1] = zeros;
    values.buffers[1] = good_offsets;
    values.array.length = -5;
    expect_check(&top, VORTEX_ARROW_SHAPE, "top.kind.dictionary length", "a negative length");
    values.array.length = 3;
    values.array.offset = INT64_MAX;
    expect_check(&top, VORTEX_ARROW_SHAPE, "top.kind.dictionary length", "an offset");
    values.array.offset = 0;
    values.array.n_buffers = 0;
    expect_check(&top, VORTEX_ARROW_SHAPE, "top.kind.dictionary buffers", "no buffers");
    values.array.n_buffers = 3;
    released_values(&top, &values);
}

/* Of two columns whose codes are past the values the first one is reported. */
static void first_of_two(void)
{
    static const uint8_t bad[] = {9};
    column top, one, two, values, others;
    make(&top, "+s", "top", 1, 1);
    make(&one, "C", "one", 1, 2);
    make(&two, "C", "two", 1, 2);
    one.buffers[1] = two.buffers[1] = bad;
    make_numbers(&values);
    make_numbers(&others);
    set_dictionary(&one, &values);
    set_dictionary(&two, &others);
    add_child(&top, &one);
    add_child(&top, &two);
    expect_both(&top, VORTEX_ARROW_NO_MEANING, "top.one dictionary codes", "two wrong columns");
    top.array.release(&top.array);
}

/* At a fault of its dictionary's shape a column can't be selected. */
static void unshared(void)
{
    static const uint8_t zeros[3];
    vortex_arrow_error error;
    column codes, values;
    make(&codes, "C", "kind", 3, 2);
    codes.buffers[1] = zeros;
    make_numbers(&values);
    set_dictionary(&codes, &values);
    values.array.length = -5;
    expect(selected(&codes, NULL, 0, &error) == VORTEX_ARROW_SHAPE, "a negative length", 0);
    expect(!strcmp(error.place, "kind dictionary"), "its place", 0);
    values.array.length = 3;
    values.array.n_children = -1;
    expect(selected(&codes, NULL, 0, NULL) == VORTEX_ARROW_SHAPE, "-1 children", 0);
    values.array.n_children = 1;
    values.array.children = NULL;
    expect(selected(&codes, NULL, 0, NULL) == VORTEX_ARROW_SHAPE, "no children", 0);
    values.array.children = values.arrays;
    expect(selected(&codes, NULL, 0, NULL) == VORTEX_ARROW_SHAPE, "a child that is null", 0);
    codes.schema.dictionary = NULL;
    expect_check(&codes, VORTEX_ARROW_SHAPE, "kind dictionary", "a dictionary without a schema");
    codes.schema.dictionary = &values.schema;
    codes.schema.format = "f";
    expect_check(&codes, VORTEX_ARROW_SHAPE, "kind dictionary", "codes that aren't integers");
}

/* Nor can a struct, of which the second child has such a dictionary. */
static void unshared_child(void)
{
    static const uint8_t zeros[1];
    vortex_arrow_error error;
    column top, numbers_before, codes, values;
    make(&top, "+s", "top", 1, 1);
    make(&numbers_before, "C", "id", 1, 2);
    make(&codes, "C", "kind", 1, 2);
    numbers_before.buffers[1] = codes.buffers[1] = zeros;
    make_numbers(&values);
    set_dictionary(&codes, &values);
    add_child(&top, &numbers_before);
    add_child(&top, &codes);
    expect(!selected(&top, NULL, 0, &error), "a dictionary", 0);
    values.array.length = -5;
    expect(selected(&top, NULL, 0, &error) == VORTEX_ARROW_SHAPE, "a negative length", 1);
    expect(!strcmp(error.place, "top.kind dictionary"), "its place", 1);
    top.array.release(&top.array);
}

/* The child of a list view is checked, and its dictionary too. */
static void below_views(void)
{
    static const int32_t offsets[] = {0, 1}, sizes[] = {2, 1};
    static uint8_t bytes[] = {0, 1, 2};
    column list, codes, values;
    vortex_arrow_error error;
    make(&list, "+vl", "tags", 2, 3);
    list.buffers[1] = offsets;
    list.buffers[2] = sizes;
    make(&codes, "C", "item", 3, 2);
    codes.buffers[1] = bytes;
    make_numbers(&values);
    add_child(&list, &codes);
    set_dictionary(&codes, &values);
    expect_check(&list, VORTEX_ARROW_DONE, "", "codes below list views");
    bytes[2] = 3;
    expect_check(&list, VORTEX_ARROW_NO_MEANING, "tags.item dictionary codes",
        "codes below list views");
    expect(!selected(&list, NULL, 0, &error), "codes that are shared", 0);
    list.array.release(&list.array);
}

static double seconds_since(clock_t start) { return (double)(clock() - start) / CLOCKS_PER_SEC; }

#define CHAIN 60

/* Each level is a struct of two fields, which are one and the same: without a bound the calls would
 * visit 2^60 columns, or 2^31 by dictionaries. The time is the processor's, also under valgrind. */
static void shared_children(int by_dictionary)
{
    static const uint8_t zeros[1];
    static column levels[CHAIN], codes[CHAIN];
    const int chain = by_dictionary ? 31 : CHAIN;
    struct ArrowSchema schema;
    struct ArrowArray out;
    clock_t start = clock();
    int k;
    for (k = chain - 1; k >= 0; k--) {
        make(&levels[k], "+s", "", 1, 1);
        make(&codes[k], "C", "", 1, 2);
        codes[k].buffers[1] = zeros;
        if (k < chain - 1) {
            set_dictionary(&codes[k], &levels[k + 1]);
            add_child(&levels[k], by_dictionary ? &codes[k] : &levels[k + 1]);
            add_child(&levels[k], by_dictionary ? &codes[k] : &levels[k + 1]);
        }
    }
    expect(check(&levels[0], NULL) == VORTEX_ARROW_DEPTH, "check of shared children", 0);
    expect(selected(&levels[0], NULL, 0, NULL) == VORTEX_ARROW_DEPTH, "select of them", 0);
    expect(vortex_arrow_copy_schema(&levels[0].schema, &schema) == VORTEX_ARROW_DEPTH &&
        !schema.release, "a copy of their schema", 0);
    expect(vortex_arrow_share(&levels[0].array, &out) == VORTEX_ARROW_DEPTH && !out.release,
        "share of them", 0);
    expect(levels[0].array.release == release_array_of, "the array stays", 0);
    expect(seconds_since(start) < 10, "shared children in time", 0);
}

/* A struct with so many fields, all of which are one and the same. */
static uint64_t wide(int64_t fields, uint64_t *shared, uint64_t *copied)
{
    static const uint8_t zero[1];
    column top, field;
    struct ArrowSchema **schemas = (struct ArrowSchema **)malloc((size_t)fields * sizeof(void *));
    struct ArrowArray **arrays = (struct ArrowArray **)malloc((size_t)fields * sizeof(void *)), out;
    struct ArrowSchema copy;
    uint64_t status;
    int64_t k;
    make(&top, "+s", "", 1, 1);
    make(&field, "C", "", 1, 2);
    field.buffers[1] = zero;
    for (k = 0; k < fields; k++) {
        schemas[k] = &field.schema;
        arrays[k] = &field.array;
    }
    top.schema.children = schemas;
    top.array.children = arrays;
    top.schema.n_children = top.array.n_children = fields;
    status = check(&top, NULL);
    *copied = vortex_arrow_copy_schema(&top.schema, &copy);
    if (!*copied) {
        copy.release(&copy);
    }
    *shared = vortex_arrow_share(&top.array, &out);
    if (!*shared) {
        out.release(&out);
        top.array.release(&top.array);
    }
    free(schemas);
    free(arrays);
    return status;
}

/* A call visits VORTEX_ARROW_NODES columns, and not one more. */
static void many_columns(void)
{
    uint64_t shared, copied;
    expect(!wide(VORTEX_ARROW_NODES - 1, &shared, &copied), "so many columns", 0);
    expect(!shared && !copied, "so many columns", 1);
    expect(wide(VORTEX_ARROW_NODES, &shared, &copied) == VORTEX_ARROW_DEPTH, "too many", 0);
    expect(shared == VORTEX_ARROW_DEPTH && copied == VORTEX_ARROW_DEPTH, "too many", 1);
}

int main(void)
{
    codes();
    each_of_many();
    long_dictionary();
    no_values();
    shapes();
    first_of_two();
    unshared();
    unshared_child();
    below_views();
    shared_children(0);
    shared_children(1);
    many_columns();
    return report();
}
