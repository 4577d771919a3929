/* Rows of a format string, or of an array's numbers, and what is expected. The expected values are
 * read off Arrow's two tables: the format strings of the C Data Interface, and the buffers of each
 * layout. Prints `c: N passed, M failed`. */
#include "made_arrow.h"
#include "internal.h"

#define MANY UINT64_MAX

static int layout_at(const char *text, vortex_arrow_layout *layout)
{
    uint64_t status = vortex_arrow_layout_of((const uint8_t *)text, strlen(text), layout);
    expect(!status || status == VORTEX_ARROW_FORMAT, "a status", status);
    return !status;
}

/* ---- Layouts ---- */

static void known(void)
{
    static const struct {
        const char *text;
        vortex_arrow_layout layout; /* format, width, buffers, the number of the buffer of validity,
                                     * offsets, values and sizes, children, is_map, codes */
    } rows[] = {{"n", {0, 0, 0, 0, 0, 0, 0, 0, 0, 0}}, {"b", {1, 0, 2, 1, 0, 2, 0, 0, 0, 0}},
        {"c", {2, 1, 2, 1, 0, 2, 0, 0, 0, 2}}, {"C", {2, 1, 2, 1, 0, 2, 0, 0, 0, 1}},
        {"s", {2, 2, 2, 1, 0, 2, 0, 0, 0, 2}}, {"S", {2, 2, 2, 1, 0, 2, 0, 0, 0, 1}},
        {"i", {2, 4, 2, 1, 0, 2, 0, 0, 0, 2}}, {"I", {2, 4, 2, 1, 0, 2, 0, 0, 0, 1}},
        {"l", {2, 8, 2, 1, 0, 2, 0, 0, 0, 2}}, {"L", {2, 8, 2, 1, 0, 2, 0, 0, 0, 1}},
        {"z", {3, 0, 3, 1, 2, 3, 0, 0, 0, 0}}, {"u", {3, 0, 3, 1, 2, 3, 0, 0, 0, 0}},
        {"Z", {4, 0, 3, 1, 2, 3, 0, 0, 0, 0}}, {"U", {4, 0, 3, 1, 2, 3, 0, 0, 0, 0}},
        {"vz", {9, 0, 3, 1, 0, 2, 0, 0, 0, 0}}, {"vu", {9, 0, 3, 1, 0, 2, 0, 0, 0, 0}},
        {"+l", {6, 0, 2, 1, 2, 0, 0, 1, 0, 0}}, {"+L", {7, 0, 2, 1, 2, 0, 0, 1, 0, 0}},
        {"+vl", {10, 0, 3, 1, 2, 0, 3, 1, 0, 0}}, {"+vL", {11, 0, 3, 1, 2, 0, 3, 1, 0, 0}},
        {"+w:123", {8, 123, 1, 1, 0, 0, 0, 1, 0, 0}}, {"+w:0", {8, 0, 1, 1, 0, 0, 0, 1, 0, 0}},
        {"+w:2147483647", {8, 2147483647, 1, 1, 0, 0, 0, 1, 0, 0}},
        {"+s", {5, 0, 1, 1, 0, 0, 0, MANY, 0, 0}}, {"+m", {6, 0, 2, 1, 2, 0, 0, 1, 1, 0}},
        {"+us:4,5", {12, 0, 1, 0, 0, 1, 0, 2, 0, 0}}, {"+us:0", {12, 0, 1, 0, 0, 1, 0, 1, 0, 0}},
        {"+us:127,0", {12, 0, 1, 0, 0, 1, 0, 2, 0, 0}}, {"+us:", {12, 0, 1, 0, 0, 1, 0, 0, 0, 0}},
        {"+ud:4,5,6", {13, 0, 2, 0, 2, 1, 0, 3, 0, 0}}, {"+ud:", {13, 0, 2, 0, 2, 1, 0, 0, 0, 0}}};
    vortex_arrow_layout layout;
    size_t k;
    for (k = 0; k < sizeof rows / sizeof rows[0]; k++) {
        expect(layout_at(rows[k].text, &layout) &&
            !memcmp(&layout, &rows[k].layout, sizeof layout), rows[k].text, k);
    }
}

/* Values of a fixed width that aren't the codes of a dictionary. */
static void fixed(void)
{
    static const struct {
        const char *text;
        uint64_t width;
    } rows[] = {{"e", 2}, {"f", 4}, {"g", 8}, {"d:19,10", 16}, {"d:19,-10", 16}, {"d:9,2,32", 4},
        {"d:18,2,64", 8}, {"d:19,10,128", 16}, {"d:76,10,256", 32}, {"w:42", 42}, {"w:0", 0},
        {"w:01", 1}, {"w:2147483647", 2147483647}, {"w:0000002147483647", 2147483647}, {"tdD", 4},
        {"tdm", 8}, {"tts", 4}, {"ttm", 4}, {"ttu", 8}, {"ttn", 8}, {"tss:", 8}, {"tsm:UTC", 8},
        {"tsu:Europe/Paris", 8}, {"tsn:+05:30", 8}, {"tDs", 8}, {"tDm", 8}, {"tDu", 8},
        {"tDn", 8}, {"tiM", 4}, {"tiD", 8}, {"tin", 16}};
    vortex_arrow_layout layout, want = {2, 0, 2, 1, 0, 2, 0, 0, 0, 0};
    size_t k;
    for (k = 0; k < sizeof rows / sizeof rows[0]; k++) {
        want.width = rows[k].width;
        expect(layout_at(rows[k].text, &layout) && !memcmp(&layout, &want, sizeof layout),
            rows[k].text, k);
    }
}

/* Texts that are no format string. The layout stays as it is. */
static void unknown(void)
{
    static const char *const rows[] = {"", " ", "x", "N", "B", "h", "cc", "c ", " c", "c C", "v",
        "vx", "uv", "w", "w:", "w: 1", "w:-1", "w:+1", "w:1 ", "w:1,", "w:x", "w:0x1",
        "w:2147483648", "w:4294967297", "w:18446744073709551617", "W:1", "+w", "+w:", "+w:x",
        "+w:-1", "+w:2147483648", "d", "d:", "d:19", "d:19,", "d:,10", "d:19,10,", "d:19,10,65",
        "d:19,10,16", "d:19,10,128,", "d:19,10,128,1", "d:19,--1", "d:-19,10", "d:19, 10",
        "d:19,-", "t", "td", "tdd", "tt", "tth", "tD", "ti", "tii", "ts", "tss", "tsx:", "ts:",
        "+", "+x", "+lx", "+v", "+vs", "+us", "+us:1,1", "+us:128", "+us:1,", "+us:,", "+us:,1",
        "+us:1,,2", "+us:-1", "+us: 1", "+us:1 ", "+us:a", "+us:00,0", "+us:256", "+ud",
        "+ud:0,1,0", "+ud:300", "+ux:0", "l+"};
    vortex_arrow_layout layout, kept;
    size_t k;
    memset(&layout, 7, sizeof layout);
    kept = layout;
    for (k = 0; k < sizeof rows / sizeof rows[0]; k++) {
        expect(!layout_at(rows[k], &layout) && !memcmp(&layout, &kept, sizeof layout), rows[k], k);
    }
}

/* A text of a million digits. */
static void long_texts(void)
{
    enum { DIGITS = 1000000 };
    char *text = (char *)malloc(DIGITS + 3);
    vortex_arrow_layout layout;
    memset(text, '9', DIGITS + 2);
    text[DIGITS + 2] = 0;
    expect(!layout_at(text, &layout), "a million nines", 0);
    memcpy(text, "w:", 2);
    expect(!layout_at(text, &layout), "a width of a million nines", 0);
    memset(text + 2, '0', DIGITS);
    expect(layout_at(text, &layout) && !layout.width, "a million zeros", 0);
    text[DIGITS + 1] = '7';
    expect(layout_at(text, &layout) && layout.width == 7, "zeros before a seven", 0);
    free(text);
}

static void ids(void)
{
    static const struct {
        const char *text;
        size_t count;
        uint8_t ids[4];
    } rows[] = {{"+us:4,127,0", 3, {4, 127, 0, 9}}, {"+ud:7", 1, {7, 9, 9, 9}},
        {"+us:", 0, {9, 9, 9, 9}}, {"+us:1,2,3,4,5", 0, {9, 9, 9, 9}},
        {"+us:1,1", 0, {9, 9, 9, 9}}, {"+s", 0, {9, 9, 9, 9}}};
    size_t k;
    for (k = 0; k < sizeof rows / sizeof rows[0]; k++) {
        const uint8_t *text = (const uint8_t *)rows[k].text;
        uint8_t found[4] = {9, 9, 9, 9};
        expect(vortex_arrow_type_ids(text, strlen(rows[k].text), found, 4) == rows[k].count &&
            !memcmp(found, rows[k].ids, 4), rows[k].text, k);
    }
}

/* ---- Lengths ---- */

/* Sets how many buffers and children nine rows from row 8 on have. */
static vortex_arrow_shape nine_rows(uint64_t buffers, uint64_t children)
{
    vortex_arrow_shape shape = {9, 8, 0, 0, 0, 0, 1, 1, 1, 0, 0};
    shape.buffers = buffers;
    shape.children = shape.schema_children = children;
    return shape;
}

static void lengths(void)
{
    static const struct {
        const char *text;
        uint64_t buffers, children;
        vortex_arrow_lengths want; /* children; bytes of validity, offsets, values and sizes */
    } rows[] = {{"n", 0, 0, {0, 0, 0, 0, 0}}, {"b", 2, 0, {0, 3, 0, 3, 0}},
        {"l", 2, 0, {0, 3, 0, 136, 0}}, {"w:5", 2, 0, {0, 3, 0, 85, 0}},
        {"u", 3, 0, {0, 3, 72, 0, 0}}, {"Z", 3, 0, {0, 3, 144, 0, 0}},
        {"vu", 5, 0, {2, 3, 0, 272, 16}}, {"+s", 1, 7, {7, 3, 0, 0, 0}},
        {"+l", 2, 1, {1, 3, 72, 0, 0}}, {"+L", 2, 1, {1, 3, 144, 0, 0}},
        {"+w:3", 1, 1, {1, 3, 0, 0, 0}}, {"+vl", 3, 1, {1, 3, 68, 0, 68}},
        {"+vL", 3, 1, {1, 3, 136, 0, 136}}, {"+us:1,2", 1, 2, {2, 0, 0, 17, 0}},
        {"+ud:1,2", 2, 2, {2, 0, 68, 17, 0}}};
    size_t k;
    for (k = 0; k < sizeof rows / sizeof rows[0]; k++) {
        vortex_arrow_shape shape = nine_rows(rows[k].buffers, rows[k].children);
        vortex_arrow_layout layout;
        vortex_arrow_lengths found;
        expect(layout_at(rows[k].text, &layout) && !vortex_arrow_measure(&layout, &shape, &found) &&
            !memcmp(&found, &rows[k].want, sizeof found), rows[k].text, k);
    }
}

/* Bytes of offsets and values of no rows, and of 2^60 - 1 rows. More than 2^63 - 1 count as 0. */
static void extremes(void)
{
    static const struct {
        const char *text;
        uint64_t len, buffers, children, offsets, values;
    } rows[] = {{"u", 0, 3, 0, 0, 0}, {"u", 1, 3, 0, (uint64_t)1 << 62, 0}, {"U", 1, 3, 0, 0, 0},
        {"l", 1, 2, 0, 0, ((uint64_t)1 << 63) - 8}, {"w:9", 1, 2, 0, 0, 0},
        {"w:2147483647", 1, 2, 0, 0, 0}, {"vu", 1, 3, 0, 0, 0},
        {"+vL", 1, 3, 1, ((uint64_t)1 << 63) - 8, 0}};
    size_t k;
    for (k = 0; k < sizeof rows / sizeof rows[0]; k++) {
        vortex_arrow_shape shape = nine_rows(rows[k].buffers, rows[k].children);
        vortex_arrow_layout layout;
        vortex_arrow_lengths found;
        shape.offset = 0;
        shape.len = rows[k].len ? ((uint64_t)1 << 60) - 1 : 0;
        expect(layout_at(rows[k].text, &layout) && !vortex_arrow_measure(&layout, &shape, &found) &&
            found.offsets == rows[k].offsets && found.values == rows[k].values, rows[k].text, k);
    }
}

/* The number of the first thing that doesn't fit, or 0. */
static void misfits(void)
{
#define TOP ((uint64_t)1 << 63)
#define ROWS ((uint64_t)1 << 60)
    static const struct {
        const char *text;
        vortex_arrow_shape shape;
        uint64_t want;
    } rows[] = {
        {"l", {9, 8, 0, 2, 0, 0, 1, 1, 1, 0, 0}, 0},
        {"l", {MANY, 8, 0, 2, 0, 0, 1, 1, 1, 0, 0}, 1},
        {"l", {9, MANY, 0, 2, 0, 0, 1, 1, 1, 0, 0}, 1},
        {"l", {9, TOP - 10, 0, 2, 0, 0, 1, 1, 1, 0, 0}, 1},
        {"l", {9, TOP - 11, 0, 2, 0, 0, 1, 1, 1, 0, 0}, 6},
        {"l", {9, ROWS - 9, 0, 2, 0, 0, 1, 1, 1, 0, 0}, 6},
        {"l", {9, ROWS - 10, 0, 2, 0, 0, 1, 1, 1, 0, 0}, 0},
        {"l", {9, 8, 0, 1, 0, 0, 1, 1, 1, 0, 0}, 2},
        {"l", {9, 8, 0, 3, 0, 0, 1, 1, 1, 0, 0}, 2},
        {"l", {9, 8, 0, MANY, 0, 0, 1, 1, 1, 0, 0}, 2},
        {"l", {9, 8, 0, 2, 0, 0, 0, 1, 1, 0, 0}, 2},
        {"n", {9, 8, 0, 0, 0, 0, 0, 1, 1, 0, 0}, 0},
        {"vu", {9, 8, 0, 2, 0, 0, 1, 1, 1, 0, 0}, 2},
        {"vu", {9, 8, 0, 3, 0, 0, 1, 1, 1, 0, 0}, 0},
        {"vu", {9, 8, 0, INT32_MAX, 0, 0, 1, 1, 1, 0, 0}, 0},
        {"vu", {9, 8, 0, 2147483648, 0, 0, 1, 1, 1, 0, 0}, 2},
        {"vu", {9, 8, 0, MANY, 0, 0, 1, 1, 1, 0, 0}, 2},
        {"l", {9, 8, 0, 2, 1, 1, 1, 1, 1, 0, 0}, 3},
        {"+l", {9, 8, 0, 2, 0, 0, 1, 1, 1, 0, 0}, 3},
        {"+l", {9, 8, 0, 2, 1, 0, 1, 1, 1, 0, 0}, 3},
        {"+l", {9, 8, 0, 2, 0, 1, 1, 1, 1, 0, 0}, 3},
        {"+l", {9, 8, 0, 2, 1, 1, 1, 1, 1, 0, 0}, 0},
        {"+l", {9, 8, 0, 2, 1, 1, 1, 0, 1, 0, 0}, 3},
        {"+s", {9, 8, 0, 1, 0, 0, 1, 0, 1, 0, 0}, 0},
        {"+s", {9, 8, 0, 1, MANY, MANY, 1, 1, 1, 0, 0}, 3},
        {"+us:", {9, 8, 0, 1, 0, 0, 1, 1, 1, 0, 0}, 0},
        {"+us:3", {9, 8, 0, 1, 0, 0, 1, 1, 1, 0, 0}, 3},
        {"l", {9, 8, 1, 2, 0, 0, 1, 1, 0, 0, 0}, 4},
        {"l", {9, 8, 0, 2, 0, 0, 1, 1, 0, 0, 0}, 0},
        {"l", {9, 8, MANY, 2, 0, 0, 1, 1, 0, 0, 0}, 0},
        {"+us:", {9, 8, 1, 1, 0, 0, 1, 1, 0, 0, 0}, 0},
        {"l", {9, 8, 0, 2, 0, 0, 1, 1, 1, 1, 0}, 5},
        {"l", {9, 8, 0, 2, 0, 0, 1, 1, 1, 0, 1}, 5},
        {"l", {9, 8, 0, 2, 0, 0, 1, 1, 1, 1, 1}, 0},
        {"g", {9, 8, 0, 2, 0, 0, 1, 1, 1, 1, 1}, 5},
        {"w:8", {9, 8, 0, 2, 0, 0, 1, 1, 1, 1, 1}, 5},
    };
    size_t k;
    for (k = 0; k < sizeof rows / sizeof rows[0]; k++) {
        vortex_arrow_layout layout;
        vortex_arrow_lengths found = {1, 2, 3, 4, 5}, kept = found;
        uint64_t misfit;
        expect(layout_at(rows[k].text, &layout), "a known format", k);
        misfit = vortex_arrow_measure(&layout, &rows[k].shape, &found);
        expect(misfit == rows[k].want, rows[k].text, k);
        expect(!misfit || !memcmp(&found, &kept, sizeof found), "nothing is written", k);
    }
}

/* ---- Ends ---- */

/* A node of three rows from row 2 on. */
static vortex_arrow_node node_of(uint64_t format, uint64_t width, const uint8_t *bytes, size_t len)
{
    vortex_arrow_node node;
    memset(&node, 0, sizeof node);
    node.format = format;
    node.width = width;
    node.len = 3;
    node.offset = 2;
    node.offsets.data = node.sizes.data = bytes;
    node.offsets.len = node.sizes.len = len;
    return node;
}

static void ends(void)
{
    static const uint8_t up[8] = {0, 0, 0, 0, 7, 1, 0, 0};
    static const uint8_t down[8] = {1, 0, 0, 0, 255, 255, 255, 255};
    static const struct {
        uint64_t format, width;
        const uint8_t *bytes;
        size_t len;
        uint64_t text, data; /* bytes of strings, and of the first data buffer of views */
        uint64_t rows, is_past; /* whether lists end after so many rows of their child */
    } rows[] = {{3, 0, up, 8, 263, (uint64_t)263 << 32, 0, 0}, {3, 0, up, 7, 0, MANY, 0, 0},
        {3, 0, down, 8, 0, MANY, 0, 0},
        {4, 0, up, 8, (uint64_t)263 << 32, (uint64_t)263 << 32, 0, 0},
        {4, 0, down, 8, 0, MANY, 0, 0}, {4, 0, up, 0, 0, MANY, 0, 0},
        {6, 0, up, 8, 0, (uint64_t)263 << 32, 262, 1},
        {6, 0, up, 8, 0, (uint64_t)263 << 32, 263, 0}, {6, 0, down, 8, 0, MANY, 0, 0},
        {8, 4, up, 0, 0, MANY, 19, 1}, {8, 4, up, 0, 0, MANY, 20, 0},
        {8, 0, up, 0, 0, MANY, 0, 0}, {8, TOP, up, 0, 0, MANY, TOP, 1},
        {10, 0, up, 8, 0, (uint64_t)263 << 32, 0, 0}};
    size_t k;
    for (k = 0; k < sizeof rows / sizeof rows[0]; k++) {
        vortex_arrow_node node =
            node_of(rows[k].format, rows[k].width, rows[k].bytes, rows[k].len);
        expect(vortex_arrow_text_len(&node) == rows[k].text, "bytes of strings", k);
        expect(vortex_arrow_data_length(&node, 0) == rows[k].data, "bytes of a data buffer", k);
        expect(vortex_arrow_data_length(&node, 1) == MANY, "a data buffer without a length", k);
        expect(vortex_arrow_ends_past(&node, rows[k].rows) == rows[k].is_past, "lists", k);
    }
}

int main(void)
{
    known();
    fixed();
    unknown();
    long_texts();
    ids();
    lengths();
    extremes();
    misfits();
    ends();
    return report();
}
