/* Selects values of each width, clears them under nulls, and counts the items of long lists. Prints
 * `c: N passed, M failed`. */
#include "made_arrow.h"

/* ---- Widths ---- */

/* Rows 2, null and 0 of three, of a format whose values have so many bytes. */
static void width_of_format(const char *format, size_t width)
{
    static const uint64_t indices[] = {2, 0, 0};
    static const uint8_t valid[] = {0x05};
    static const uint8_t zeros[64];
    uint8_t *values = (uint8_t *)malloc(3 * width + 1), *found;
    vortex_arrow_step step = take_of(indices, 3, valid);
    struct ArrowArray out;
    column c;
    size_t k;
    for (k = 0; k < 3 * width; k++) {
        values[k] = (uint8_t)(17 * k + 1);
    }
    make(&c, format, "x", 3, 2);
    c.buffers[1] = values;
    expect(!check(&c, NULL), format, 0);
    expect(!vortex_select_arrow(&c.schema, &c.array, &step, 1, NULL, &out, NULL), format, 1);
    found = (uint8_t *)(uintptr_t)out.buffers[1];
    expect(!memcmp(found, values + 2 * width, width), format, 2);
    expect(!memcmp(found + width, zeros, width), format, 3);
    expect(!memcmp(found + 2 * width, values, width), format, 4);
    out.release(&out);
    free(values);
}

static void widths(void)
{
    static const struct {
        const char *format;
        size_t width;
    } all[] = {{"c", 1}, {"C", 1}, {"s", 2}, {"S", 2}, {"e", 2}, {"i", 4}, {"I", 4}, {"f", 4},
        {"l", 8}, {"L", 8}, {"g", 8}, {"tdD", 4}, {"tdm", 8}, {"tts", 4}, {"ttm", 4}, {"ttu", 8},
        {"ttn", 8}, {"tss:", 8}, {"tsm:UTC", 8}, {"tsu:", 8}, {"tsn:", 8}, {"tDs", 8}, {"tDm", 8},
        {"tDu", 8}, {"tDn", 8}, {"tiM", 4}, {"tiD", 8}, {"tin", 16}, {"w:3", 3}, {"w:0", 0},
        {"w:37", 37}, {"d:9,2", 16}, {"d:9,-2", 16}, {"d:9,2,32", 4}, {"d:9,2,64", 8},
        {"d:9,2,128", 16}, {"d:9,2,256", 32}};
    size_t k;
    for (k = 0; k < sizeof all / sizeof all[0]; k++) {
        width_of_format(all[k].format, all[k].width);
    }
}

/* ---- Nulls ---- */

/* Values of each width with a validity whose bytes are full, empty and mixed, of so many rows. */
static void clear_rows(const char *format, size_t width, size_t rows, int kind)
{
    static const uint8_t zeros[16];
    uint8_t *values = (uint8_t *)malloc(rows * width + 1), *valid = (uint8_t *)calloc(1, rows);
    struct ArrowArray out;
    column c;
    size_t k;
    int same = 1;
    memset(values, 0xee, rows * width);
    for (k = 0; k < rows; k++) {
        int is_there = kind == 0 ? 0 : kind == 1 ? 1 : kind == 2 ? k % 3 == 0 : k / 64 % 2 == 0;
        valid[k / 8] |= (uint8_t)(is_there << k % 8);
    }
    make(&c, format, "x", (int64_t)rows, 2);
    c.buffers[0] = valid;
    c.buffers[1] = values;
    expect(!vortex_select_arrow(&c.schema, &c.array, NULL, 0, NULL, &out, NULL), format, rows);
    for (k = 0; k < rows; k++) {
        const uint8_t *found = (const uint8_t *)out.buffers[1] + k * width;
        int is_there = valid[k / 8] >> k % 8 & 1;
        same &= !memcmp(found, is_there ? values : zeros, width);
    }
    expect(same, format, rows);
    out.release(&out);
    free(values);
    free(valid);
}

static void clears(void)
{
    static const char *const formats[] = {"c", "s", "i", "l", "w:16", "w:3"};
    static const size_t sizes[] = {1, 2, 4, 8, 16, 3};
    static const size_t rows[] = {1, 7, 8, 9, 63, 64, 65, 128, 200, 511, 512};
    size_t k, r;
    int kind;
    for (k = 0; k < 6; k++) {
        for (r = 0; r < 11; r++) {
            for (kind = 0; kind < 4; kind++) {
                clear_rows(formats[k], sizes[k], rows[r], kind);
            }
        }
    }
}

/* A view that is null is all zeros, whatever the source has there. */
static void clear_views(void)
{
    static const uint8_t valid[] = {0x05}, zeros[16];
    static const int64_t lengths[] = {20};
    uint8_t views[3][16] = {{2, 0, 0, 0, 'a', 'b'}, {13, 0, 0, 0}, {1, 0, 0, 0, 'c'}};
    struct ArrowArray out;
    column c;
    make(&c, "vu", "v", 3, 4);
    c.buffers[0] = valid;
    c.buffers[1] = views;
    c.buffers[2] = "\0\0\0\0efghijklmnopqrst";
    c.buffers[3] = lengths;
    expect(!vortex_select_arrow(&c.schema, &c.array, NULL, 0, NULL, &out, NULL), "views", 0);
    expect(!memcmp((const uint8_t *)out.buffers[1] + 16, zeros, 16), "a null's view", 0);
    expect(!memcmp(out.buffers[1], views[0], 16), "the view before it", 0);
    expect(!memcmp((const uint8_t *)out.buffers[1] + 32, views[2], 16), "the view after it", 0);
    out.release(&out);
    c.array.release(&c.array);
}

/* So are a null's bit, and the offset and the size of a list view. */
static void clear_bits_and_lists(void)
{
    static const uint8_t valid[] = {0x05}, bits[] = {0x07};
    static const int32_t offsets[] = {1, 3, 2}, sizes[] = {1, 2, 3};
    struct ArrowArray out;
    column c, child;
    make(&c, "b", "b", 3, 2);
    c.buffers[0] = valid;
    c.buffers[1] = bits;
    expect(!vortex_select_arrow(&c.schema, &c.array, NULL, 0, NULL, &out, NULL), "bits", 0);
    expect(*(const uint8_t *)out.buffers[1] == 0x05, "a null's bit", 0);
    out.release(&out);
    make(&c, "+vl", "l", 3, 3);
    c.buffers[0] = valid;
    c.buffers[1] = offsets;
    c.buffers[2] = sizes;
    make(&child, "n", "item", 5, 0);
    add_child(&c, &child);
    expect(!vortex_select_arrow(&c.schema, &c.array, NULL, 0, NULL, &out, NULL), "lists", 0);
    expect(!((const int32_t *)out.buffers[1])[1], "the offset of a null", 0);
    expect(!((const int32_t *)out.buffers[2])[1], "the size of a null", 0);
    expect(((const int32_t *)out.buffers[1])[2] == 2, "the offset of a list", 0);
    expect(((const int32_t *)out.buffers[2])[2] == 3, "the size of a list", 0);
    out.release(&out);
    c.array.release(&c.array);
}

/* ---- Long lists ---- */

static const int32_t long_offsets[] = {0, 0, INT32_MAX, INT32_MAX};

/* Three lists, of which the middle one has 2^31 - 1 items. An item takes no memory itself, but the
 * library takes 8 bytes for each. */
static void make_long(column *list, column *item)
{
    make(list, "+l", "l", 3, 2);
    list->buffers[1] = long_offsets;
    make(item, "+s", "item", INT32_MAX, 1);
    add_child(list, item);
}

/* Takes a row of a column three times, whose list is long or empty. */
static void thrice(column *c, uint64_t row, const uint8_t *valid, const char *place)
{
    uint64_t indices[3] = {0, 0, 0};
    vortex_arrow_step step = take_of(indices, 3, valid);
    vortex_arrow_error error;
    uint64_t wanted = place ? VORTEX_ARROW_OVERFLOW : VORTEX_ARROW_DONE;
    indices[0] = indices[1] = indices[2] = row;
    expect(selected(c, &step, 1, &error) == wanted, "long lists", row);
    expect(!place || !strcmp(error.place, place), "their place", row);
}

static void long_lists(void)
{
    static const uint8_t none[] = {0}, others[] = {0x05}, all[] = {0x07};
    column list, item;
    make_long(&list, &item);
    thrice(&list, 0, NULL, NULL);
    thrice(&list, 1, NULL, "l");
    thrice(&list, 2, NULL, NULL);
    thrice(&list, 1, none, NULL);
    thrice(&list, 1, others, "l");
    list.buffers[0] = all;
    thrice(&list, 1, NULL, "l");
    list.buffers[0] = others;
    list.array.null_count = 1;
    thrice(&list, 1, NULL, NULL);
    list.buffers[0] = NULL;
    list.array.null_count = 0;
    list.array.offset = 1;
    list.array.length = 2;
    thrice(&list, 0, NULL, "l");
    thrice(&list, 1, NULL, NULL);
}

/* The rows of lists below structs and sparse unions are those of these, from their offsets on. */
static void long_lists_below(const char *format)
{
    static const uint8_t ids[4];
    column top, middle, list, item;
    make_long(&list, &item);
    make(&middle, "+s", "mid", 3, 1);
    add_child(&middle, &list);
    make(&top, format, "top", 3, 1);
    top.buffers[0] = format[1] == 'u' ? ids : NULL;
    add_child(&top, &middle);
    thrice(&top, 0, NULL, NULL);
    thrice(&top, 1, NULL, "top.mid.l");
    top.array.offset = 1;
    top.array.length = 2;
    thrice(&top, 0, NULL, "top.mid.l");
    thrice(&top, 1, NULL, NULL);
    top.array.offset = 0;
    top.array.length = 2;
    middle.array.offset = 1;
    middle.array.length = 2;
    thrice(&top, 0, NULL, "top.mid.l");
    thrice(&top, 1, NULL, NULL);
    top.array.offset = 1;
    top.array.length = 1;
    thrice(&top, 0, NULL, NULL); /* 1 + 1 + 0 */
}

/* Lists in lists have rows of their own, which aren't counted beforehand. */
static void lists_in_lists(void)
{
    static const int32_t outer_offsets[] = {0, 0, 0, 0};
    column outer, list, item;
    make_long(&list, &item);
    make(&outer, "+l", "outer", 3, 2);
    outer.buffers[1] = outer_offsets;
    add_child(&outer, &list);
    thrice(&outer, 0, NULL, NULL);
    thrice(&outer, 1, NULL, NULL);
}

int main(void)
{
    widths();
    clears();
    clear_views();
    clear_bits_and_lists();
    long_lists();
    long_lists_below("+s");
    long_lists_below("+us:0");
    lists_in_lists();
    return report();
}
