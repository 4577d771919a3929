/* Hands in structs that are wrong, and looks at what is reported; and at the flags, names, metadata
 * and counts of answers. Prints `c: N passed, M failed`. */
#include "made_arrow.h"
#include "vortex_select.h"

static const uint8_t ones[] = {0xff, 0xff}, zeros[] = {0, 0};
static const int32_t words[] = {0, 1, 2, 3, 4, 5, 6, 7};

/* ---- Null pointers and counts ---- */

static void null_structs(void)
{
    column c;
    struct ArrowSchema schema;
    struct ArrowArray out;
    vortex_arrow_error error;
    make(&c, "i", "x", 1, 2);
    c.buffers[1] = words;
    expect(vortex_arrow_check_array(NULL, &c.array, &error) == VORTEX_ARROW_SHAPE, "no schema", 0);
    expect(vortex_arrow_check_array(&c.schema, NULL, NULL) == VORTEX_ARROW_SHAPE, "no array", 0);
    expect(vortex_select_arrow(NULL, &c.array, NULL, 0, &schema, &out, &error) ==
        VORTEX_ARROW_SHAPE && !strcmp(error.place, "release"), "select of no schema", 0);
    expect(vortex_select_arrow(&c.schema, NULL, NULL, 0, &schema, &out, &error) ==
        VORTEX_ARROW_SHAPE && !out.release && !schema.release, "select of no array", 0);
    expect(vortex_arrow_copy_schema(NULL, &schema) == VORTEX_ARROW_SHAPE && !schema.release,
        "a copy of no schema", 0);
    expect(vortex_arrow_share(NULL, &out) == VORTEX_ARROW_SHAPE && !out.release, "share none", 0);
    expect(!selected(&c, NULL, 0, NULL), "no error struct", 0);
    expect(!vortex_select_arrow(&c.schema, &c.array, NULL, 0, NULL, &out, &error) &&
        !error.status && !error.text[0], "no fault is reported", 0);
    out.release(&out);
}

static void released_structs(void)
{
    column c;
    struct ArrowSchema schema;
    struct ArrowArray out;
    vortex_arrow_error error;
    make(&c, "i", "x", 1, 2);
    c.buffers[1] = words;
    c.array.release = NULL;
    expect(selected(&c, NULL, 0, &error) == VORTEX_ARROW_SHAPE && !strcmp(error.place, "release"),
        "a released array", 0);
    expect(check(&c, NULL) == VORTEX_ARROW_SHAPE, "check of a released array", 0);
    expect(vortex_arrow_share(&c.array, &out) == VORTEX_ARROW_SHAPE && !out.release,
        "share of a released array", 0);
    c.array.release = release_array_of;
    c.schema.release = NULL;
    expect(selected(&c, NULL, 0, &error) == VORTEX_ARROW_SHAPE && !strcmp(error.place, "release"),
        "a released schema", 0);
    expect(check(&c, NULL) == VORTEX_ARROW_SHAPE, "check of a released schema", 0);
    expect(vortex_arrow_copy_schema(&c.schema, &schema) == VORTEX_ARROW_SHAPE && !schema.release,
        "a copy of a released schema", 0);
    c.schema.release = release_schema_of;
    c.array.length = -1;
    expect_check(&c, VORTEX_ARROW_SHAPE, "x length", "a negative length");
    expect(selected(&c, NULL, 0, &error) == VORTEX_ARROW_SHAPE && !strcmp(error.place, "length"),
        "select of a negative length", 0);
}

/* A child that is released, as an array or as a schema. */
static void released_children(column *top, column *child)
{
    struct ArrowSchema schema;
    struct ArrowArray out;
    child->array.release = NULL;
    expect_both(top, VORTEX_ARROW_SHAPE, "top children", "a released child");
    expect(vortex_arrow_share(&top->array, &out) == VORTEX_ARROW_SHAPE, "its share", 3);
    expect(vortex_arrow_copy_schema(&top->schema, &schema) == VORTEX_ARROW_DONE, "its copy", 4);
    schema.release(&schema);
    child->schema.release = NULL;
    expect(vortex_arrow_copy_schema(&top->schema, &schema) == VORTEX_ARROW_SHAPE, "its copy", 5);
}

static void null_parts(void)
{
    column top, c;
    struct ArrowSchema schema;
    struct ArrowArray out;
    make(&top, "+s", "top", 1, 1);
    make(&c, "i", "x", 1, 2);
    c.buffers[1] = words;
    add_child(&top, &c);
    top.schemas[0] = NULL;
    expect_check(&top, VORTEX_ARROW_SHAPE, "top children", "a child without a schema");
    expect(vortex_arrow_copy_schema(&top.schema, &schema) == VORTEX_ARROW_SHAPE, "its copy", 0);
    top.schemas[0] = &c.schema;
    top.arrays[0] = NULL;
    expect_both(&top, VORTEX_ARROW_SHAPE, "top children", "a child without an array");
    expect(vortex_arrow_share(&top.array, &out) == VORTEX_ARROW_SHAPE, "its share", 0);
    top.arrays[0] = &c.array;
    top.schema.children = NULL;
    expect_check(&top, VORTEX_ARROW_SHAPE, "top children", "no list of schemas");
    expect(vortex_arrow_copy_schema(&top.schema, &schema) == VORTEX_ARROW_SHAPE, "its copy", 1);
    top.schema.children = top.schemas;
    top.array.children = NULL;
    expect_both(&top, VORTEX_ARROW_SHAPE, "top children", "no list of arrays");
    expect(vortex_arrow_share(&top.array, &out) == VORTEX_ARROW_SHAPE, "its share", 1);
    top.array.children = top.arrays;
    top.schema.n_children = top.array.n_children = -1;
    expect_check(&top, VORTEX_ARROW_SHAPE, "top children", "-1 children");
    expect(vortex_arrow_copy_schema(&top.schema, &schema) == VORTEX_ARROW_SHAPE, "its copy", 2);
    expect(vortex_arrow_share(&top.array, &out) == VORTEX_ARROW_SHAPE, "its share", 2);
    top.schema.n_children = top.array.n_children = 1;
    c.schema.format = NULL;
    expect_check(&top, VORTEX_ARROW_SHAPE, "top children", "no format");
    expect(vortex_arrow_copy_schema(&top.schema, &schema) == VORTEX_ARROW_SHAPE && !schema.release,
        "its copy", 3);
    c.schema.format = "i";
    released_children(&top, &c);
}

static void counts(void)
{
    column c, child;
    make(&c, "i", "x", 1, 2);
    c.buffers[1] = words;
    c.array.n_buffers = 1;
    expect_both(&c, VORTEX_ARROW_SHAPE, "x buffers", "too few buffers");
    c.array.n_buffers = 3;
    expect_both(&c, VORTEX_ARROW_SHAPE, "x buffers", "too many buffers");
    c.array.n_buffers = 2;
    c.array.buffers = NULL;
    expect_both(&c, VORTEX_ARROW_SHAPE, "x buffers", "no list of buffers");
    c.array.buffers = c.buffers;
    c.array.null_count = 1;
    expect_both(&c, VORTEX_ARROW_SHAPE, "x validity", "nulls without validity");
    c.buffers[0] = zeros;
    expect_both(&c, VORTEX_ARROW_DONE, "", "nulls with validity");
    c.buffers[0] = NULL;
    c.array.null_count = 0;
    c.array.offset = -1;
    expect_both(&c, VORTEX_ARROW_SHAPE, "x length", "a negative offset");
    c.array.offset = INT64_MAX - 1;
    expect_both(&c, VORTEX_ARROW_SHAPE, "x length", "an offset that passes all numbers");
    c.array.offset = 0;
    c.buffers[1] = NULL;
    expect_both(&c, VORTEX_ARROW_NO_MEANING, "x values", "no values");
    make(&child, "i", "y", 1, 2);
    child.buffers[1] = words;
    c.buffers[1] = words;
    add_child(&c, &child);
    expect_both(&c, VORTEX_ARROW_SHAPE, "x children", "a child of integers");
    make(&c, "n", "nulls", 3, 0);
    c.array.buffers = NULL;
    expect_both(&c, VORTEX_ARROW_DONE, "", "nulls without a list of buffers");
    c.array.n_buffers = -1;
    expect_both(&c, VORTEX_ARROW_SHAPE, "nulls buffers", "-1 buffers");
    make(&c, "vu", "v", 1, (int64_t)INT32_MAX + 1);
    expect_both(&c, VORTEX_ARROW_SHAPE, "v buffers", "too many data buffers");
}

static void formats(void)
{
    static const char *const unknown[] = {"", "x", "+r", "ii", "+us:0,", "+us:,0", "+us:128",
        "+us:1,1", "+us:-1", "w:", "w:x", "d:1", "d:1,2,3", "d:1,2,64,", "ts", "tsx:", "txs:",
        "+w:", "+w:1x", "c C", "+ud:0,0", "w:-1", "w:2147483648", "w:99999999999999999999",
        "+w:2147483648", "d:9,--1", "d:9,2,", "d:9,2,64,1", "+us:0,,1", "+us:00,0", "+ud:1,", "w:1 "};
    column c, child;
    size_t k;
    for (k = 0; k < sizeof unknown / sizeof unknown[0]; k++) {
        make(&c, unknown[k], "", 0, 2);
        expect_both(&c, VORTEX_ARROW_FORMAT, unknown[k], "an unknown format");
    }
    make(&child, "n", "", 0, 0);
    make(&c, "+us:5,7", "u", 0, 1);
    add_child(&c, &child);
    expect_both(&c, VORTEX_ARROW_SHAPE, "u children", "more type ids than children");
    make(&c, "+s", "s", 0, 1);
    add_child(&c, &child);
    child.schema.format = "+us:";
    child.array.n_buffers = 1;
    child.schema.name = "u";
    expect_both(&c, VORTEX_ARROW_NO_MEANING, "s.u children", "a union without children");
    child.schema.format = "+ud:";
    child.array.n_buffers = 2;
    expect_both(&c, VORTEX_ARROW_NO_MEANING, "s.u children", "a dense union without children");
    child.schema.format = "+ud:3";
    expect_both(&c, VORTEX_ARROW_SHAPE, "s.u children", "a type id without a child");
}

/* Widths up to 2^31 - 1, of no rows: values of such a width, and lists of as many items. */
static void wide(void)
{
    static const char *const formats[] = {"w:2147483647", "w:0000000000002147483647"};
    static const char *const lists[] = {"+w:2147483647", "+w:0000000000002147483647"};
    column c, item;
    size_t k;
    for (k = 0; k < 2; k++) {
        make(&c, formats[k], "c", 0, 2);
        c.buffers[1] = words;
        expect_both(&c, VORTEX_ARROW_DONE, "", "no values of 2^31 - 1 bytes");
        make(&c, lists[k], "c", 0, 1);
        make(&item, "n", "item", 0, 0);
        add_child(&c, &item);
        expect_both(&c, VORTEX_ARROW_DONE, "", "no lists of 2^31 - 1 items");
        c.array.length = 1;
        expect_both(&c, VORTEX_ARROW_NO_MEANING, "c length", "a list of too many items");
        item.array.length = INT32_MAX - 1;
        expect_both(&c, VORTEX_ARROW_NO_MEANING, "c length", "a list of an item too many");
    }
}

/* ---- Lengths ---- */

/* 2^60 rows are refused before an offset is read: those of 2^60 rows are far past the buffer. */
static void many_rows(void)
{
    static const char *const formats[] = {"u", "U", "i", "n"};
    column c, top;
    size_t k;
    for (k = 0; k < 4; k++) {
        vortex_arrow_error error;
        make(&top, "+s", "t", 0, 1);
        make(&c, formats[k], "c", (int64_t)1 << 60, k < 2 ? 3 : k < 3 ? 2 : 0);
        c.buffers[1] = c.buffers[2] = words;
        add_child(&top, &c);
        expect_both(&top, VORTEX_ARROW_NO_MEANING, "t.c length", "2^60 rows");
        expect(check(&top, &error) && error.cause == VORTEX_ARROW_LACKS_ROWS, "its cause", 0);
        c.array.length--;
        c.array.offset = 1;
        expect_both(&top, VORTEX_ARROW_NO_MEANING, "t.c length", "2^60 rows by an offset");
        expect_check(&c, VORTEX_ARROW_NO_MEANING, "c length", "2^60 rows at the top");
    }
    c.array.offset = 0;
    expect_both(&top, VORTEX_ARROW_DONE, "", "2^60 - 1 nulls");
    make(&c, "w:999999999", "c", (int64_t)1 << 50, 2);
    c.buffers[1] = words;
    expect_check(&c, VORTEX_ARROW_NO_MEANING, "c values", "values that pass 2^63 bytes");
}

/* The rows of nulls take no memory, so there may be as many as the picks can name. */
static void many_nulls(void)
{
    struct ArrowArray out;
    vortex_arrow_error error;
    uint64_t status;
    column c;
    make(&c, "n", "c", (int64_t)1 << 55, 0);
    status = vortex_select_arrow(&c.schema, &c.array, NULL, 0, NULL, &out, &error);
    expect(status == VORTEX_ARROW_NO_MEMORY && !out.release, "2^55 rows", status);
    c.array.length = (int64_t)1 << 60;
    status = vortex_select_arrow(&c.schema, &c.array, NULL, 0, NULL, &out, &error);
    expect(status == VORTEX_ARROW_NO_MEANING && !out.release, "2^60 rows", status);
}

static void string_offsets(void)
{
    static const int32_t offsets[] = {0, 1, 3}, descending[] = {2, 1, 2}, negative[] = {-1, 1, -1};
    void *no_bytes = malloc(1);
    column c;
    vortex_arrow_error error;
    make(&c, "u", "s", 2, 3);
    c.buffers[1] = offsets;
    c.buffers[2] = "abc";
    expect_both(&c, VORTEX_ARROW_DONE, "", "strings");
    c.buffers[2] = NULL;
    expect_both(&c, VORTEX_ARROW_NO_MEANING, "s offsets", "no bytes");
    expect(check(&c, &error) && error.cause == VORTEX_ARROW_LACKS_ITEMS, "the cause", 0);
    c.buffers[2] = "abc";
    c.buffers[1] = descending;
    expect_both(&c, VORTEX_ARROW_NO_MEANING, "s offsets", "offsets that descend");
    c.buffers[1] = negative;
    expect_both(&c, VORTEX_ARROW_NO_MEANING, "s offsets", "negative offsets");
    c.buffers[1] = NULL;
    expect_both(&c, VORTEX_ARROW_NO_MEANING, "s offsets", "no offsets");
    c.array.length = 0;
    expect_both(&c, VORTEX_ARROW_DONE, "", "no rows need no offsets");
    c.buffers[1] = no_bytes;
    expect_both(&c, VORTEX_ARROW_DONE, "", "no rows have no offsets");
    free(no_bytes);
}

/* An offset that is one past the bytes of the strings: the last one says how many there are. */
static void past_the_bytes(void)
{
    static const int32_t offsets[] = {0, 4, 3};
    static const uint64_t first[] = {0};
    vortex_arrow_step step = take_of(first, 1, NULL);
    vortex_arrow_error error;
    column c;
    make(&c, "z", "s", 2, 3);
    c.buffers[1] = offsets;
    c.buffers[2] = "abc";
    expect(selected(&c, &step, 1, &error) == VORTEX_ARROW_NO_MEANING, "one past the bytes", 0);
    expect(error.cause == VORTEX_ARROW_LACKS_ITEMS && !strcmp(error.place, "s offsets"),
        "its cause", 0);
}

static void list_lengths(void)
{
    static const int32_t offsets[] = {0, 1, 4};
    static const uint64_t first[] = {0};
    vortex_arrow_step step = take_of(first, 1, NULL);
    vortex_arrow_error error;
    column list, item;
    make(&list, "+l", "l", 2, 2);
    list.buffers[1] = offsets;
    make(&item, "n", "item", 4, 0);
    add_child(&list, &item);
    expect_both(&list, VORTEX_ARROW_DONE, "", "lists");
    item.array.length = 3;
    expect_both(&list, VORTEX_ARROW_NO_MEANING, "l offsets", "items past the child");
    expect(selected(&list, &step, 1, &error) == VORTEX_ARROW_NO_MEANING &&
        error.cause == VORTEX_ARROW_LACKS_ITEMS, "the last offset is looked at in any case", 0);
    make(&list, "+w:2", "w", 2, 1);
    add_child(&list, &item);
    expect_both(&list, VORTEX_ARROW_NO_MEANING, "w length", "items of one size past the child");
    item.array.length = 4;
    expect_both(&list, VORTEX_ARROW_DONE, "", "items of one size");
    list.array.offset = 1;
    expect_both(&list, VORTEX_ARROW_NO_MEANING, "w length", "an offset past the child");
}

/* Widths are decimal numbers, of one digit or more. */
static void widths(void)
{
    static const char *const formats[] = {"w:9", "w:10", "w:190", "w:010"};
    static const char *const lists[] = {"+w:9", "+w:10", "+w:190", "+w:010"};
    static const int64_t wide[] = {9, 10, 190, 10};
    static uint8_t bytes[380];
    column c, item;
    struct ArrowArray out;
    size_t k;
    for (k = 0; k < 380; k++) {
        bytes[k] = (uint8_t)(k * 7 % 251);
    }
    for (k = 0; k < 4; k++) {
        make(&c, formats[k], "c", 2, 2);
        c.buffers[1] = bytes;
        expect(!vortex_select_arrow(&c.schema, &c.array, NULL, 0, NULL, &out, NULL), "bytes", k);
        expect(!memcmp(out.buffers[1], bytes, 2 * (size_t)wide[k]), "values of a width", k);
        out.release(&out);
        make(&c, lists[k], "c", 2, 1);
        make(&item, "n", "item", 2 * wide[k], 0);
        add_child(&c, &item);
        expect(!vortex_select_arrow(&c.schema, &c.array, NULL, 0, NULL, &out, NULL), "lists", k);
        expect(out.children[0]->length == 2 * wide[k], "items of a width", k);
        out.release(&out);
        item.array.length--;
        expect_both(&c, VORTEX_ARROW_NO_MEANING, "c length", "an item too few");
    }
}

/* ---- Views ---- */

static void views(void)
{
    static const uint8_t view[16] = {13, 0, 0, 0, 'a', 'b', 'c', 'd'};
    int64_t lengths[1] = {13};
    column c;
    make(&c, "vu", "v", 1, 4);
    c.buffers[1] = view;
    c.buffers[2] = "abcdefghijklm";
    c.buffers[3] = lengths;
    expect_check(&c, VORTEX_ARROW_DONE, "", "views");
    lengths[0] = 12;
    expect_both(&c, VORTEX_ARROW_NO_MEANING, "v views", "a view past its buffer");
    lengths[0] = -1;
    expect_both(&c, VORTEX_ARROW_SHAPE, "v buffers", "a negative length of a buffer");
    c.buffers[3] = NULL;
    expect_both(&c, VORTEX_ARROW_SHAPE, "v buffers", "no lengths of buffers");
    lengths[0] = 13;
    c.buffers[3] = lengths;
    c.buffers[2] = NULL;
    expect_both(&c, VORTEX_ARROW_NO_MEANING, "v views", "no data buffer");
    c.buffers[1] = NULL;
    expect_both(&c, VORTEX_ARROW_NO_MEANING, "v views", "no views");
    c.array.n_buffers = 2;
    expect_both(&c, VORTEX_ARROW_SHAPE, "v buffers", "no buffer of lengths");
}

/* ---- Names and depths ---- */

static void names(void)
{
    static char longest[200];
    column top, middle, c;
    vortex_arrow_error error;
    char wanted[200];
    memset(longest, 'n', sizeof longest - 1);
    make(&top, "+s", NULL, 1, 1);
    make(&middle, "+s", "mid", 1, 1);
    make(&c, "i", longest, 1, 1);
    add_child(&top, &middle);
    add_child(&middle, &c);
    expect(check(&top, &error) == VORTEX_ARROW_SHAPE, "a long name", 0);
    memset(wanted, 'n', sizeof wanted);
    memcpy(wanted, "mid.", 4);
    wanted[sizeof error.place - 1] = 0;
    expect(!strcmp(error.place, wanted), "a place that is cut", 0);
    expect(strlen(error.text) < sizeof error.text && !strncmp(error.text, wanted, 119), "text", 0);
    longest[117] = 0;
    check(&top, &error);
    expect(strlen(error.place) == 119 && error.place[118] == 'n', "a name that is cut", 0);
    longest[115 - 4] = 0;
    check(&top, &error);
    expect(strlen(error.place) == 119 && !strcmp(error.place + 115, " buf"), "a part is cut", 0);
    expect(!strncmp(error.text + 119, ": expected", 10), "words after a part that is cut", 0);
    longest[119 - 4] = 0;
    check(&top, &error);
    expect(strlen(error.place) == 119, "a name that fills the place", 0);
    c.schema.name = "";
    check(&top, &error);
    expect(!strcmp(error.place, "mid buffers"), "a name that is empty", 0);
    middle.schema.name = NULL;
    check(&top, &error);
    expect(!strcmp(error.place, "buffers"), "no names", 0);
    expect(!strcmp(error.text, "buffers: expected what the format has, got another or a released "
        "struct"), "the words", 0);
}

/* The signs of a format in a name stay as they are. */
static void signs_in_names(void)
{
    vortex_arrow_error error;
    column c;
    make(&c, "i", "100%d %s%%", 1, 1);
    expect(check(&c, &error) == VORTEX_ARROW_SHAPE, "a name with signs", 0);
    expect(!strcmp(error.place, "100%d %s%% buffers"), "its place", 0);
    expect(!strncmp(error.text, "100%d %s%% buffers: ", 20), "its text", 0);
}

/* As many columns one in another; dictionaries count. */
static void deep(int levels, int by_dictionary, uint64_t status)
{
    static column all[80];
    static const uint8_t zero[1];
    struct ArrowSchema schema;
    struct ArrowArray out;
    uint64_t shared;
    int k;
    for (k = levels - 1; k >= 0; k--) {
        make(&all[k], by_dictionary ? "C" : "+s", "", 1, by_dictionary ? 2 : 1);
        all[k].buffers[1] = zero;
        if (k < levels - 1 && by_dictionary) {
            set_dictionary(&all[k], &all[k + 1]);
        } else if (k < levels - 1) {
            add_child(&all[k], &all[k + 1]);
        }
    }
    expect(check(&all[0], NULL) == status, "check of levels", (uint64_t)levels);
    expect(vortex_arrow_copy_schema(&all[0].schema, &schema) == status, "copy of levels", 0);
    if (!status) {
        schema.release(&schema);
    }
    expect(selected(&all[0], NULL, 0, NULL) == status, "select of levels", (uint64_t)levels);
    shared = vortex_arrow_share(&all[0].array, &out);
    expect(shared == status, "share of levels", (uint64_t)levels);
    if (!shared) {
        out.release(&out);
    }
    all[0].array.release(&all[0].array);
}

static void depths(void)
{
    int by;
    for (by = 0; by < 2; by++) {
        deep(1, by, VORTEX_ARROW_DONE);
        deep(63, by, VORTEX_ARROW_DONE);
        deep(64, by, VORTEX_ARROW_DONE);
        deep(65, by, VORTEX_ARROW_DEPTH);
        deep(80, by, VORTEX_ARROW_DEPTH);
    }
}

/* ---- Answers ---- */

/* Metadata of two pairs, in the order of the machine's bytes; `cut` is put in place of a length. */
static size_t make_metadata(char *to, int32_t pairs, int32_t cut)
{
    static const char *const strings[] = {"key", "value", "", "more"};
    size_t size = sizeof pairs, k;
    memcpy(to, &pairs, sizeof pairs);
    for (k = 0; k < 4; k++) {
        int32_t len = (int32_t)strlen(strings[k]);
        int32_t said = k == 2 && cut ? cut : len;
        memcpy(to + size, &said, sizeof said);
        memcpy(to + size + sizeof said, strings[k], (size_t)len);
        size += sizeof said + (size_t)len;
    }
    return size;
}

static void flags_and_metadata(void)
{
    static const uint64_t indices[] = {0};
    static char metadata[64];
    size_t size = make_metadata(metadata, 2, 0);
    vortex_arrow_step step = take_of(indices, 1, ones);
    struct ArrowSchema schema;
    struct ArrowArray out;
    column c;
    make(&c, "i", "x", 1, 2);
    c.buffers[1] = words;
    c.schema.metadata = metadata;
    c.schema.flags = ARROW_FLAG_DICTIONARY_ORDERED | ARROW_FLAG_MAP_KEYS_SORTED;
    expect(!vortex_select_arrow(&c.schema, &c.array, NULL, 0, &schema, &out, NULL), "flags", 0);
    expect(schema.flags == c.schema.flags, "flags stay", 0);
    expect(schema.metadata != metadata && !memcmp(schema.metadata, metadata, size), "pairs", 0);
    expect(!strcmp(schema.name, "x") && schema.name != c.schema.name, "the name", 0);
    expect(!strcmp(schema.format, "i") && !schema.children && !schema.dictionary, "no children", 0);
    out.release(&out);
    schema.release(&schema);
    schema.release = c.schema.release;
    expect(!vortex_select_arrow(&c.schema, &c.array, &step, 1, &schema, &out, NULL), "a take", 0);
    expect(schema.flags == (c.schema.flags | ARROW_FLAG_NULLABLE), "a take adds one flag", 0);
    out.release(&out);
    schema.release(&schema);
    expect(!vortex_select_arrow(&c.schema, &c.array, &step, 1, NULL, &out, NULL), "no schema", 0);
    out.release(&out);
    c.schema.name = NULL;
    make_metadata(metadata, -1, 0);
    expect(selected(&c, NULL, 0, NULL) == VORTEX_ARROW_SHAPE, "-1 pairs", 0);
    make_metadata(metadata, 2, -1);
    expect(selected(&c, NULL, 0, NULL) == VORTEX_ARROW_SHAPE, "a length of -1", 0);
    make_metadata(metadata, INT32_MIN, 0);
    expect(selected(&c, NULL, 0, NULL) == VORTEX_ARROW_SHAPE, "fewer pairs than can be", 0);
    make_metadata(metadata, 0, 0);
    expect(!selected(&c, NULL, 0, NULL), "no pairs", 0);
}

/* A schema is released once, however often its release is called; so is an array. */
static void released_twice(void)
{
    struct ArrowSchema copy, again;
    struct ArrowArray out, moved;
    column c;
    make(&c, "i", "x", 1, 2);
    c.buffers[1] = words;
    expect(!vortex_arrow_copy_schema(&c.schema, &copy), "a copy", 0);
    again = copy;
    copy.release(&copy);
    expect(!copy.release, "it is released", 0);
    again.release(&copy);
    expect(!copy.release, "it is released once", 0);
    expect(!vortex_select_arrow(&c.schema, &c.array, NULL, 0, NULL, &out, NULL), "select", 0);
    moved = out;
    out.release(&out);
    moved.release(&out);
    expect(!out.release, "an array is released once", 0);
}

static int64_t null_count_of(column *c, const vortex_arrow_step *steps, size_t n_steps,
    int *has_valid)
{
    struct ArrowArray out;
    int64_t count = -2;
    if (!vortex_select_arrow(&c->schema, &c->array, steps, n_steps, NULL, &out, NULL)) {
        count = out.null_count;
        *has_valid = out.n_buffers && out.buffers[0];
        out.release(&out);
    }
    return count;
}

static void null_counts(void)
{
    static const uint64_t indices[] = {0};
    vortex_arrow_step step = take_of(indices, 1, ones), whole = take_of(indices, 1, NULL);
    int has_valid;
    column c;
    make(&c, "i", "x", 2, 2);
    c.buffers[1] = words;
    expect(null_count_of(&c, NULL, 0, &has_valid) == 0 && !has_valid, "no nulls", 0);
    expect(null_count_of(&c, &whole, 1, &has_valid) == 0 && !has_valid, "no nulls of a take", 0);
    expect(null_count_of(&c, &step, 1, &has_valid) == -1 && has_valid, "maybe nulls", 0);
    c.buffers[0] = ones;
    expect(null_count_of(&c, NULL, 0, &has_valid) == -1 && has_valid, "maybe nulls", 1);
    make(&c, "n", "x", 5, 0);
    expect(null_count_of(&c, NULL, 0, &has_valid) == 5, "all nulls", 0);
    expect(null_count_of(&c, &step, 1, &has_valid) == 1, "all nulls of a take", 0);
}

/* ---- Steps ---- */

/* Steps in a list of not a byte more, of which the last is no take. */
static void exact_steps(void)
{
    static const uint64_t indices[] = {1, 0};
    vortex_arrow_step *steps = (vortex_arrow_step *)malloc(2 * sizeof *steps);
    vortex_arrow_error error;
    column c;
    make(&c, "i", "x", 2, 2);
    c.buffers[1] = words;
    steps[0] = take_of(indices, 2, NULL);
    memset(&steps[1], 0, sizeof steps[1]);
    steps[1].end = 2;
    expect(!selected(&c, steps, 2, &error), "steps", 0);
    steps[1].end = 3;
    expect(selected(&c, steps, 2, &error) == VORTEX_ARROW_BROKEN && error.step == 1 &&
        error.cause == VORTEX_ARROW_BAD_RANGE, "a slice past the rows", 0);
    expect(!strcmp(error.text, "step 1: BadRange: slice 0..3, but 2 rows"), "its words", 0);
    steps[1].kind = 9;
    expect(selected(&c, steps, 2, &error) == VORTEX_ARROW_LACKING && error.step == 1, "kind", 0);
    expect(!strcmp(error.text, "step 1: expected a kind below 4, got 9"), "its words", 1);
    steps[0].len = 3;
    expect(selected(&c, steps, 1, &error) == VORTEX_ARROW_LACKING && error.step == 0, "short", 0);
    free(steps);
}

/* A take of more rows than a byte's worth of bits, and a table's worth of bytes. */
static void long_takes(void)
{
    enum { COUNT = 1000 };
    static uint64_t indices[COUNT];
    static int64_t values[300];
    static uint8_t valid[COUNT / 8];
    struct ArrowArray out;
    vortex_arrow_step step;
    column c;
    int k, same = 1;
    for (k = 0; k < 300; k++) {
        values[k] = 1000003 * (int64_t)k + 1;
    }
    for (k = 0; k < COUNT; k++) {
        indices[k] = (uint64_t)(7 * k) % 300;
        valid[k / 8] |= (uint8_t)((k % 3 != 0) << k % 8);
    }
    make(&c, "l", "x", 300, 2);
    c.buffers[1] = values;
    step = take_of(indices, COUNT, valid);
    expect(!vortex_select_arrow(&c.schema, &c.array, &step, 1, NULL, &out, NULL), "a take", 0);
    expect(out.length == COUNT, "a long take", 0);
    for (k = 0; k < COUNT; k++) {
        int64_t wanted = k % 3 ? values[7 * k % 300] : 0;
        same &= ((const int64_t *)out.buffers[1])[k] == wanted;
        same &= (((const uint8_t *)out.buffers[0])[k / 8] >> k % 8 & 1) == (k % 3 != 0);
    }
    expect(same, "the rows of a long take", 0);
    out.release(&out);
}

int main(void)
{
    null_structs();
    released_structs();
    null_parts();
    counts();
    formats();
    wide();
    many_rows();
    many_nulls();
    string_offsets();
    past_the_bytes();
    list_lengths();
    widths();
    views();
    names();
    signs_in_names();
    depths();
    flags_and_metadata();
    released_twice();
    null_counts();
    exact_steps();
    long_takes();
    expect(vortex_arrow_version() == VORTEX_VERSION, "the version is the kernels' too", 0);
    expect(vortex_arrow_library_version() == VORTEX_VERSION, "and the library's", 0);
    return report();
}
