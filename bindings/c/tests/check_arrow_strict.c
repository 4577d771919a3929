/* Checks columns that violate a rule of Arrow's format which selection doesn't need, and columns that
 * nearly do. Expected results are by the text of the format. Prints `c: N passed, M failed`. */
#include "made_arrow.h"

static const int32_t words[] = {0, 1, 2, 3, 4, 5, 6, 7, 8, 9, 10, 11};

/* Expects that a column obeys the rules, or violates one at this place. */
static void expect_rule(column *c, uint64_t lack, const char *place, const char *what)
{
    vortex_arrow_error error;
    uint64_t status = check(c, &error);
    expect(status == (lack ? VORTEX_ARROW_NO_MEANING : VORTEX_ARROW_DONE), what, 1);
    expect(error.cause == lack, what, 2);
    expect(!strcmp(error.place, lack ? place : ""), what, 3);
}

/* ---- Null counts ---- */

static void null_counts(void)
{
    /* Row 3, row 6 and the rows from 9 on are null. */
    static const uint8_t valid[] = {0xb7, 0x01};
    static const struct { int64_t offset, length, count; int is_broken; } rows[] = {
        {0, 9, 2, 0}, {0, 9, 1, 1}, {0, 9, 3, 1}, {0, 9, 0, 1}, {0, 9, -1, 0}, {0, 9, -2, 1},
        {3, 5, 2, 0}, {3, 5, 1, 1}, {4, 2, 0, 0}, {4, 2, 1, 1}, {7, 2, 0, 0}, {7, 3, 1, 0},
        {7, 3, 0, 1}, {9, 3, 3, 0}, {9, 3, 2, 1}, {3, 0, 0, 0}, {3, 0, 1, 1},
        {0, 9, INT64_MIN, 1}, {0, 9, INT64_MAX, 1},
    };
    column c;
    size_t k;
    make(&c, "i", "x", 0, 2);
    c.buffers[0] = valid;
    c.buffers[1] = words;
    for (k = 0; k < sizeof rows / sizeof rows[0]; k++) {
        c.array.offset = rows[k].offset;
        c.array.length = rows[k].length;
        c.array.null_count = rows[k].count;
        expect_rule(&c, rows[k].is_broken ? VORTEX_ARROW_LACKS_NULL_COUNT : 0, "x null count",
            "a null count");
    }
}

static void null_counts_without_validity(void)
{
    static const uint8_t ids[3];
    static const struct { const char *format; int64_t count; int is_broken; } rows[] = {
        {"i", 0, 0}, {"i", -1, 0}, {"i", -2, 1}, {"n", 3, 0}, {"n", -1, 0}, {"n", 0, 1},
        {"n", 2, 1}, {"+us:0", 0, 0}, {"+us:0", -1, 0}, {"+us:0", 1, 1},
    };
    column c, child;
    size_t k;
    for (k = 0; k < sizeof rows / sizeof rows[0]; k++) {
        int is_union = rows[k].format[0] == '+', is_null = rows[k].format[0] == 'n';
        make(&c, rows[k].format, "x", 3, is_null ? 0 : is_union ? 1 : 2);
        make(&child, "n", "child", 3, 0);
        c.buffers[is_union ? 0 : 1] = is_union ? (const void *)ids : (const void *)words;
        if (is_union) {
            add_child(&c, &child);
        }
        c.array.null_count = rows[k].count;
        expect_rule(&c, rows[k].is_broken ? VORTEX_ARROW_LACKS_NULL_COUNT : 0, "x null count",
            "a null count without validity");
    }
}

/* ---- Codes ---- */

/* The codes are 9 -1 0 1 2 9, of a dictionary of three values. */
static void codes_of_slices(void)
{
    static const int16_t codes[] = {9, -1, 0, 1, 2, 9};
    static const struct { int64_t offset, length, values; uint8_t valid; int is_broken; } rows[] = {
        {2, 3, 3, 0xff, 0}, {2, 4, 3, 0xff, 1}, {1, 4, 3, 0xff, 1}, {0, 6, 3, 0x1c, 0},
        {0, 6, 3, 0x1d, 1}, {0, 6, 3, 0x3c, 1}, {2, 3, 2, 0xff, 1}, {2, 3, 2, 0xef, 0},
        {2, 2, 2, 0xff, 0}, {2, 0, 0, 0xff, 0}, {2, 1, 0, 0xff, 1}, {1, 1, 0, 0xfd, 0},
    };
    column c, values;
    size_t k;
    for (k = 0; k < sizeof rows / sizeof rows[0]; k++) {
        make(&c, "s", "x", rows[k].length, 2);
        c.array.offset = rows[k].offset;
        c.buffers[0] = &rows[k].valid;
        c.buffers[1] = codes;
        make(&values, "i", "", rows[k].values, 2);
        values.buffers[1] = words;
        set_dictionary(&c, &values);
        expect_rule(&c, rows[k].is_broken ? VORTEX_ARROW_LACKS_CODES : 0, "x dictionary codes",
            "the codes of a slice");
    }
}

/* ---- Maps ---- */

typedef struct map {
    column top, entries, keys, values;
    uint8_t valid[2];
} map;

/* Maps of the entries 1 to 3. The second map is null, and has an entry. Entry k is row k + 2
 * of the keys, and bit k + 5. */
static void make_map(map *m)
{
    static const int32_t offsets[] = {0, 1, 2, 3, 4};
    static const uint8_t second[] = {0xfb};
    make(&m->top, "+m", "m", 3, 2);
    m->top.array.offset = 1;
    m->top.buffers[0] = second;
    m->top.buffers[1] = offsets;
    make(&m->entries, "+s", "entries", 5, 1);
    m->entries.array.offset = 2;
    make(&m->keys, "i", "key", 7, 2);
    m->keys.array.offset = 3;
    m->keys.buffers[1] = words;
    make(&m->values, "i", "value", 7, 2);
    m->values.buffers[1] = words;
    add_child(&m->top, &m->entries);
    add_child(&m->entries, &m->keys);
    add_child(&m->entries, &m->values);
}

/* Nulls of entries, keys and values. Bits of entries begin at 2, those of keys at 5. */
static void nulls_of_maps(void)
{
    static const struct { int where; size_t entry; int is_broken; } rows[] = {
        {0, 0, 0}, {0, 1, 1}, {0, 2, 1}, {0, 3, 1}, {0, 4, 0},
        {1, 0, 0}, {1, 1, 1}, {1, 2, 1}, {1, 3, 1}, {1, 4, 0},
        {2, 0, 0}, {2, 1, 0}, {2, 2, 0}, {2, 3, 0}, {2, 4, 0},
    };
    size_t k;
    for (k = 0; k < sizeof rows / sizeof rows[0]; k++) {
        map m;
        column *const columns[] = {&m.entries, &m.keys, &m.values};
        size_t bit = rows[k].entry + (rows[k].where == 1 ? 5 : 2);
        make_map(&m);
        memset(m.valid, 0xff, 2);
        m.valid[bit / 8] = (uint8_t)~(1 << bit % 8);
        columns[rows[k].where]->buffers[0] = m.valid;
        expect_rule(&m.top, rows[k].is_broken ? VORTEX_ARROW_LACKS_MAP : 0, "m entries",
            "a null of a map");
    }
}

static void shapes_of_maps(void)
{
    column third, item;
    map m;
    make_map(&m);
    expect_rule(&m.top, 0, "", "a map");
    make(&third, "i", "third", 7, 2);
    third.buffers[1] = words;
    add_child(&m.entries, &third);
    expect_rule(&m.top, VORTEX_ARROW_LACKS_MAP, "m entries", "entries of three fields");
    m.entries.schema.n_children = m.entries.array.n_children = 1;
    expect_rule(&m.top, VORTEX_ARROW_LACKS_MAP, "m entries", "entries of one field");
    m.top.schema.format = "+l";
    expect_rule(&m.top, 0, "", "a list of one field");
    m.top.schema.format = "+m";
    make(&item, "i", "item", 5, 2);
    item.buffers[1] = words;
    m.top.schemas[0] = &item.schema;
    m.top.arrays[0] = &item.array;
    expect_rule(&m.top, VORTEX_ARROW_LACKS_MAP, "m entries", "entries that are numbers");
    make_map(&m);
    m.keys.schema.format = "n";
    m.keys.array.n_buffers = 0;
    expect_rule(&m.top, VORTEX_ARROW_LACKS_MAP, "m entries", "keys that are nulls alone");
    m.top.array.length = 0;
    expect_rule(&m.top, 0, "", "no maps");
    m.top.buffers[1] = NULL;
    m.top.array.offset = 0;
    expect_rule(&m.top, 0, "", "no maps have no offsets");
}

/* ---- Views ---- */

typedef struct view {
    int32_t length;
    uint8_t bytes[4];
    int32_t buffer, start;
} view;

/* The view is the second of three, between two that are empty. */
static void string_views(void)
{
    static const char data[] = "prefix of a long string";
    static const struct { view is; uint8_t valid; int is_broken; } rows[] = {
        {{4, {'a', 'b', 'c', 'd'}, 0, 0}, 0xff, 0}, {{3, {'a', 'b', 'c', 'd'}, 0, 0}, 0xff, 1},
        {{3, {'a', 'b', 'c', 0}, 0, 0}, 0xff, 0}, {{3, {'a', 'b', 'c', 'd'}, 0, 0}, 0xfd, 1},
        {{4, {'a', 'b', 'c', 'd'}, 1, 0}, 0xff, 1}, {{4, {1, 2, 3, 4}, 0, 1 << 24}, 0xff, 1},
        {{11, {1, 2, 3, 4}, 7, 1 << 24}, 0xff, 1}, {{12, {1, 2, 3, 4}, 7, 1 << 24}, 0xff, 0},
        {{0, {0, 0, 0, 1}, 0, 0}, 0xff, 1}, {{13, {'p', 'r', 'e', 'f'}, 0, 0}, 0xff, 0},
        {{13, {'p', 'r', 'e', 'F'}, 0, 0}, 0xff, 1}, {{13, {'P', 'r', 'e', 'f'}, 0, 0}, 0xfd, 1},
        {{13, {'f', 'i', 'x', ' '}, 0, 3}, 0xff, 0}, {{20, {'f', 'i', 'x', ' '}, 0, 3}, 0xff, 0},
        {{21, {'f', 'i', 'x', ' '}, 0, 3}, 0xfd, 1}, {{13, {'p', 'r', 'e', 'f'}, 1, 0}, 0xfd, 1},
        {{13, {'p', 'r', 'e', 'f'}, -1, 0}, 0xfd, 1}, {{13, {'p', 'r', 'e', 'f'}, 0, -1}, 0xfd, 1},
        {{-1, {'p', 'r', 'e', 'f'}, 0, 0}, 0xfd, 1}, {{INT32_MIN, {0, 0, 0, 0}, 0, 0}, 0xfd, 1},
    };
    static const int64_t lengths[] = {sizeof data - 1};
    size_t k, at;
    for (k = 0; k < sizeof rows / sizeof rows[0]; k++) {
        for (at = 0; at < 3; at++) { /* the view is in the rows, before them, after them */
            view views[3];
            column c;
            memset(views, 0, sizeof views);
            views[1] = rows[k].is;
            make(&c, "vu", "v", at == 0 ? 3 : 1, 4);
            c.array.offset = at == 1 ? 2 : 0;
            c.buffers[0] = &rows[k].valid;
            c.buffers[1] = views;
            c.buffers[2] = data;
            c.buffers[3] = lengths;
            expect_rule(&c, rows[k].is_broken && !at ? VORTEX_ARROW_LACKS_VIEWS : 0, "v views",
                "a view");
        }
    }
}

/* The view of a valid row outside of its buffer is found by the test that comes first. */
static void views_of_valid_rows(void)
{
    static const int64_t lengths[] = {13};
    static const view past = {13, {'a', 'b', 'c', 'd'}, 0, 1};
    column c;
    make(&c, "vz", "v", 1, 4);
    c.buffers[1] = &past;
    c.buffers[2] = "abcdabcdabcdabcd";
    c.buffers[3] = lengths;
    expect_rule(&c, VORTEX_ARROW_LACKS_ITEMS, "v views", "a view past its buffer");
}

/* The second of three lists, of a child of ten items. */
static void list_views(void)
{
    static const struct { int64_t start, size; int is_broken; } rows[] = {
        {0, 10, 0}, {1, 10, 1}, {10, 0, 0}, {11, 0, 1}, {9, 1, 0}, {-1, 0, 1}, {0, -1, 1},
        {0, 11, 1}, {-1, 1, 1}, {INT32_MAX, INT32_MAX, 1}, {INT32_MIN, 0, 1},
    };
    static const uint8_t first[] = {0xfd};
    size_t k, at, is_wide;
    for (k = 0; k < 3 * sizeof rows / sizeof rows[0]; k++) {
        for (is_wide = 0; is_wide < 2; is_wide++) {
            int32_t starts[3] = {0, 0, 0}, sizes[3] = {0, 0, 0};
            int64_t wide_starts[3] = {0, 0, 0}, wide_sizes[3] = {0, 0, 0};
            column c, item;
            at = k % 3;
            wide_starts[1] = rows[k / 3].start;
            wide_sizes[1] = rows[k / 3].size;
            starts[1] = (int32_t)rows[k / 3].start;
            sizes[1] = (int32_t)rows[k / 3].size;
            make(&c, is_wide ? "+vL" : "+vl", "l", at == 0 ? 3 : 1, 3);
            c.array.offset = at == 1 ? 2 : 0;
            c.buffers[0] = first;
            c.buffers[1] = is_wide ? (const void *)wide_starts : (const void *)starts;
            c.buffers[2] = is_wide ? (const void *)wide_sizes : (const void *)sizes;
            make(&item, "i", "item", 10, 2);
            item.buffers[1] = words;
            add_child(&c, &item);
            expect_rule(&c, rows[k / 3].is_broken && !at ? VORTEX_ARROW_LACKS_LIST_VIEWS : 0,
                "l offsets", "a list view under a null");
        }
    }
}

/* ---- Dense unions ---- */

static void dense_unions(void)
{
    static const struct {
        uint8_t ids[5];
        int32_t offsets[5];
        int64_t offset, length;
        int is_broken;
    } rows[] = {
        {{0, 7, 0, 7, 0}, {0, 0, 1, 1, 2}, 0, 5, 0}, {{0, 7, 0, 7, 0}, {0, 0, 1, 1, 0}, 0, 5, 1},
        {{0, 7, 0, 7, 0}, {0, 5, 0, 5, 0}, 0, 5, 0}, {{0, 7, 0, 7, 0}, {5, 0, 6, 1, 6}, 0, 5, 0},
        {{0, 7, 0, 7, 0}, {0, 1, 0, 0, 0}, 0, 5, 1}, {{0, 7, 0, 7, 0}, {9, 1, 0, 2, 1}, 1, 4, 0},
        {{0, 7, 0, 7, 0}, {9, 1, 0, 2, 1}, 0, 5, 1}, {{0, 7, 0, 7, 0}, {0, 1, 2, 3, 1}, 0, 4, 0},
        {{0, 0, 0, 0, 0}, {3, 4, 9, 5, 6}, 0, 5, 1}, {{0, 0, 0, 0, 0}, {3, 4, 9, 5, 6}, 3, 2, 0},
        {{7, 7, 7, 7, 7}, {0, 1, 2, 1, 3}, 0, 5, 1}, {{0, 7, 7, 7, 0}, {9, 0, 0, 0, 8}, 0, 5, 1},
    };
    column c, a, b;
    size_t k;
    for (k = 0; k < sizeof rows / sizeof rows[0]; k++) {
        make(&c, "+ud:7,0", "u", rows[k].length, 2);
        c.array.offset = rows[k].offset;
        c.buffers[0] = rows[k].ids;
        c.buffers[1] = rows[k].offsets;
        make(&a, "n", "a", 10, 0);
        make(&b, "i", "b", 10, 2);
        b.buffers[1] = words;
        add_child(&c, &a);
        add_child(&c, &b);
        expect_rule(&c, rows[k].is_broken ? VORTEX_ARROW_LACKS_DENSE : 0, "u offsets",
            "offsets of a dense union");
    }
}

/* ---- Places, order, and tables by hand ---- */

static void places(void)
{
    static const uint8_t none[1];
    column top, c, values;
    make(&top, "+s", "top", 1, 1);
    make(&c, "C", "x", 1, 2);
    c.buffers[1] = none;
    make(&values, "i", "", 1, 2);
    values.buffers[0] = none;
    values.buffers[1] = words;
    values.array.null_count = 0;
    set_dictionary(&c, &values);
    add_child(&top, &c);
    expect_rule(&top, VORTEX_ARROW_LACKS_NULL_COUNT, "top.x.dictionary null count",
        "the null count of a dictionary");
    values.array.null_count = 1;
    expect_rule(&top, 0, "", "its null count is right");
    top.buffers[0] = none;
    top.array.null_count = 0;
    c.array.null_count = 5;
    c.buffers[0] = none;
    expect_rule(&top, VORTEX_ARROW_LACKS_NULL_COUNT, "top null count", "the first node");
    top.array.null_count = 1;
    expect_rule(&top, VORTEX_ARROW_LACKS_NULL_COUNT, "top.x null count", "the second node");
}

static void is_answer(vortex_arrow_answer answer, uint64_t node, uint64_t what, const char *test)
{
    expect(answer.status == (what ? VORTEX_ARROW_NO_MEANING : VORTEX_ARROW_DONE), test, 1);
    expect(answer.node_or_step == node, test, 2);
    expect(answer.what == what, test, 3);
}

/* Tables that mean no column are read within their lists. */
static void short_tables(void)
{
    vortex_arrow_node nodes[2];
    vortex_arrow_extra extras[2] = {{UINT64_MAX, 0, 0, 0}, {UINT64_MAX, 0, 0, 0}};
    uint8_t *byte = (uint8_t *)malloc(1);
    memset(nodes, 0, sizeof nodes);
    *byte = 0;
    is_answer(vortex_arrow_check_strict(nodes, 0, extras, 0), 0, 0, "no nodes");
    is_answer(vortex_arrow_check_strict(nodes, 2, extras, 2), 0, 0, "two nodes");
    is_answer(vortex_arrow_check_strict(nodes, 2, extras, 1), 1, 17, "a node without an extra");
    nodes[1].format = VORTEX_ARROW_FIXED;
    nodes[1].width = 4;
    nodes[1].len = 1;
    nodes[1].values.data = byte;
    nodes[1].values.len = 1;
    extras[1].codes = 1;
    extras[1].values = 1;
    is_answer(vortex_arrow_check_strict(nodes, 2, extras, 2), 1, 16, "too few codes");
    is_answer(vortex_arrow_check_codes(&nodes[1], &extras[1]), 0, 16, "too few codes of a node");
    nodes[1].width = 1;
    is_answer(vortex_arrow_check_codes(&nodes[1], &extras[1]), 0, 0, "a code");
    nodes[1].width = 3;
    is_answer(vortex_arrow_check_codes(&nodes[1], &extras[1]), 0, 16, "codes of three bytes");
    extras[1].codes = 0;
    nodes[1].len = nodes[1].offset = UINT64_MAX;
    is_answer(vortex_arrow_check_strict(nodes, 2, extras, 2), 0, 0, "values that no rule is about");
    extras[1].null_count = 0;
    is_answer(vortex_arrow_check_strict(nodes, 2, extras, 2), 1, 17, "rows past all numbers");
    extras[1].null_count = UINT64_MAX;
    extras[1].map = 1;
    is_answer(vortex_arrow_check_strict(nodes, 2, extras, 2), 1, 18, "a map without entries");
    extras[1].map = 0;
    nodes[1].format = VORTEX_ARROW_VIEWS;
    is_answer(vortex_arrow_check_strict(nodes, 2, extras, 2), 1, 19, "too few views");
    nodes[1].len = nodes[1].offset = 0;
    nodes[1].children = 1;
    is_answer(vortex_arrow_check_strict(nodes, 2, extras, 2), 1, 19, "views without their buffer");
    nodes[1].children = 0;
    is_answer(vortex_arrow_check_strict(nodes, 2, extras, 2), 0, 0, "no views");
    nodes[1].format = VORTEX_ARROW_LIST_VIEW;
    is_answer(vortex_arrow_check_strict(nodes, 2, extras, 2), 1, 20, "list views without a child");
    nodes[1].format = VORTEX_ARROW_DENSE_UNION;
    nodes[1].len = 1;
    is_answer(vortex_arrow_check_strict(nodes, 2, extras, 2), 1, 21, "too few offsets");
    free(byte);
}

int main(void)
{
    null_counts();
    null_counts_without_validity();
    codes_of_slices();
    nulls_of_maps();
    shapes_of_maps();
    string_views();
    views_of_valid_rows();
    list_views();
    dense_unions();
    places();
    short_tables();
    return report();
}
