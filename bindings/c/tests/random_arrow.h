/* Makes columns in Arrow's memory of random formats, and says their rows as texts. Each buffer is a
 * block of its own of not a byte more than the format asks for, so that a checker of memory sees
 * what is read beyond. */
#ifndef RANDOM_ARROW_H
#define RANDOM_ARROW_H

#include <stdarg.h>

#include "vortex_arrow.h"

static uint64_t state = 1;
static int live; /* structs that were made and not released */
static char left_out[40]; /* words by which the formats begin that the library doesn't know */

static void reseed(uint64_t seed) { state = seed * 0x9e3779b97f4a7c15u | 1; }

static uint64_t roll(void)
{
    state ^= state << 13;
    state ^= state >> 7;
    return state ^= state << 17;
}

static size_t below(size_t bound) { return (size_t)(roll() >> 8) % bound; }

static int is_set(const uint8_t *bits, size_t k) { return bits[k / 8] >> k % 8 & 1; }

/* Whether a format is one of those that are left out. */
static int is_left_out(const char *format)
{
    const char *word = left_out;
    while (*word) {
        size_t len = strcspn(word, " ");
        if (!strncmp(format, word, len)) {
            return 1;
        }
        word += len + (word[len] != 0);
    }
    return 0;
}

static int live_columns(void) { return __atomic_load_n(&live, __ATOMIC_SEQ_CST); }

static void *made_block(size_t size)
{
    void *block = malloc(size ? size : 1);
    if (!block) {
        perror("malloc");
        exit(2);
    }
    return block;
}

/* ---- Structs ---- */

static void release_made_schema(struct ArrowSchema *schema)
{
    int64_t k;
    for (k = 0; k < schema->n_children; k++) {
        if (schema->children[k]->release) {
            schema->children[k]->release(schema->children[k]);
        }
        free(schema->children[k]);
    }
    if (schema->dictionary) {
        schema->dictionary->release(schema->dictionary);
        free(schema->dictionary);
    }
    free(schema->children);
    free(schema->private_data);
    schema->release = NULL;
    __atomic_sub_fetch(&live, 1, __ATOMIC_SEQ_CST);
}

static void release_made_array(struct ArrowArray *array)
{
    int64_t k;
    for (k = 0; k < array->n_children; k++) {
        if (array->children[k]->release) {
            array->children[k]->release(array->children[k]);
        }
        free(array->children[k]);
    }
    if (array->dictionary) {
        if (array->dictionary->release) {
            array->dictionary->release(array->dictionary);
        }
        free(array->dictionary);
    }
    for (k = 0; k < array->n_buffers; k++) {
        free((void *)array->buffers[k]);
    }
    free(array->buffers);
    free(array->children);
    array->release = NULL;
    __atomic_sub_fetch(&live, 1, __ATOMIC_SEQ_CST);
}

static void flat_schema(struct ArrowSchema *schema, const char *format)
{
    char *copy = (char *)made_block(strlen(format) + 1);
    memset(schema, 0, sizeof *schema);
    strcpy(copy, format);
    schema->format = copy;
    schema->name = "";
    schema->flags = ARROW_FLAG_NULLABLE;
    schema->private_data = copy;
    schema->release = release_made_schema;
    __atomic_add_fetch(&live, 1, __ATOMIC_SEQ_CST);
}

static void children_of(struct ArrowSchema *schema, struct ArrowArray *array, int64_t n)
{
    int64_t k;
    schema->n_children = array->n_children = n;
    schema->children = (struct ArrowSchema **)made_block((size_t)n * sizeof(void *));
    array->children = (struct ArrowArray **)made_block((size_t)n * sizeof(void *));
    for (k = 0; k < n; k++) {
        schema->children[k] = (struct ArrowSchema *)made_block(sizeof(struct ArrowSchema));
        array->children[k] = (struct ArrowArray *)made_block(sizeof(struct ArrowArray));
    }
}

/* ---- Buffers ---- */

static void *random_bytes(size_t size)
{
    uint8_t *bytes = (uint8_t *)made_block(size);
    size_t k;
    for (k = 0; k < size; k++) {
        bytes[k] = (uint8_t)roll();
    }
    return bytes;
}

/* Offsets of so many rows, ascending from any of the first; the last one is the answer. */
static int64_t random_offsets(const void **buffer, size_t rows, int is_wide)
{
    int64_t at = (int64_t)below(4);
    size_t k;
    void *offsets = made_block((rows + 1) * (is_wide ? 8 : 4));
    for (k = 0; k <= rows; k++) {
        if (is_wide) {
            ((int64_t *)offsets)[k] = at;
        } else {
            ((int32_t *)offsets)[k] = (int32_t)at;
        }
        at += k < rows ? (int64_t)below(4) : 0;
    }
    *buffer = offsets;
    return at;
}

static void start_array(struct ArrowArray *array, int64_t n_buffers, int64_t length)
{
    size_t end;
    memset(array, 0, sizeof *array);
    array->length = length;
    array->offset = below(3) ? 0 : (int64_t)below(9);
    array->null_count = -1;
    array->n_buffers = n_buffers;
    array->buffers = (const void **)made_block((size_t)n_buffers * sizeof(void *));
    array->release = release_made_array;
    end = (size_t)(array->length + array->offset);
    if (n_buffers) {
        memset(array->buffers, 0, (size_t)n_buffers * sizeof(void *));
        array->buffers[0] = below(3) ? random_bytes((end + 7) / 8) : NULL;
        array->null_count = array->buffers[0] ? -1 : 0;
    }
    __atomic_add_fetch(&live, 1, __ATOMIC_SEQ_CST);
}

static int is_valid(const struct ArrowArray *array, int64_t at)
{
    const uint8_t *valid = array->n_buffers ? (const uint8_t *)array->buffers[0] : NULL;
    return !valid || is_set(valid, (size_t)at);
}

/* Whether columns obey vortex_arrow_check_strict: rows under nulls too, and dense unions ascend. */
static int is_strict;

/* Whether a row is in the array, and no null: any bytes may stand at another. */
static int is_read(const struct ArrowArray *array, size_t k)
{
    return (int64_t)k >= array->offset && (is_strict || is_valid(array, (int64_t)k));
}

static void put_number(void *numbers, size_t k, int64_t number, int is_wide)
{
    if (is_wide) {
        ((int64_t *)numbers)[k] = number;
    } else {
        ((int32_t *)numbers)[k] = (int32_t)number;
    }
}

/* A view of no bytes, of some in itself, or of some in one of the buffers. */
static void random_view(uint8_t *view, const struct ArrowArray *array)
{
    static const int32_t sizes[] = {0, 1, 4, 5, 11, 12, 13, 14, 30};
    const int64_t count = array->n_buffers - 3;
    const int64_t *lengths = (const int64_t *)array->buffers[count + 2];
    int32_t size = sizes[below(9)], which = count ? (int32_t)below((size_t)count) : 0, at;
    if (size > 12 && (!count || lengths[which] < size)) {
        size = 12;
    }
    memset(view, 0, 16);
    memcpy(view, &size, 4);
    if (size <= 12) {
        for (at = 0; at < size; at++) {
            view[4 + at] = (uint8_t)roll();
        }
        return;
    }
    at = (int32_t)below((size_t)(lengths[which] - size) + 1);
    memcpy(view + 4, (const uint8_t *)array->buffers[2 + which] + at, 4);
    memcpy(view + 8, &which, 4);
    memcpy(view + 12, &at, 4);
}

/* Views, the buffers that they lead to, and how long these are. */
static void random_views(struct ArrowArray *array)
{
    size_t end = (size_t)(array->length + array->offset), k;
    int64_t count = array->n_buffers - 3, b, *lengths = (int64_t *)made_block((size_t)count * 8);
    uint8_t *views = (uint8_t *)random_bytes(16 * end);
    array->buffers[1] = views;
    array->buffers[count + 2] = lengths;
    for (b = 0; b < count; b++) {
        lengths[b] = (int64_t)below(60);
        array->buffers[b + 2] = random_bytes((size_t)lengths[b]);
    }
    for (k = 0; k < end; k++) {
        if (is_read(array, k)) {
            random_view(views + 16 * k, array);
        }
    }
}

static size_t width_of(const char *format)
{
    static const char *const letters[] = {"cC", "sSe", "", "iIf", "", "", "", "lLg"};
    size_t k;
    if (format[0] == 'w') {
        return strtoul(format + 2, NULL, 10);
    }
    if (format[0] == 'd') {
        return 16;
    }
    for (k = 0; k < 8; k++) {
        if (strchr(letters[k], format[0])) {
            return k + 1;
        }
    }
    return 8;
}

/* A column of so many rows of a format that has no children. */
static void flat_array(struct ArrowArray *array, const char *format, int64_t length)
{
    int is_text = strchr("uUzZ", format[0]) != NULL;
    int64_t views = format[0] == 'v' ? 3 + (int64_t)below(4) : 0;
    size_t end;
    start_array(array, format[0] == 'n' ? 0 : is_text ? 3 : views ? views : 2, length);
    end = (size_t)(array->length + array->offset);
    if (views) {
        random_views(array);
    } else if (is_text) {
        int is_wide = format[0] == 'U' || format[0] == 'Z';
        int64_t last = random_offsets(&array->buffers[1], end, is_wide);
        array->buffers[2] = random_bytes((size_t)last);
    } else if (format[0] == 'b') {
        array->buffers[1] = random_bytes((end + 7) / 8);
    } else if (format[0] != 'n') {
        array->buffers[1] = random_bytes(end * width_of(format));
    }
}

/* ---- Columns ---- */

static void random_rows(struct ArrowSchema *schema, struct ArrowArray *array, int depth,
    int64_t length);

/* Codes of any integer type. Those of nulls, and before the offset, are any bytes. */
static void dictionary_rows(struct ArrowSchema *schema, struct ArrowArray *array, int depth,
    int64_t length)
{
    static const char *const formats[] = {"c", "C", "s", "S", "i", "I", "l", "L"};
    const char *format = formats[below(8)];
    size_t width = width_of(format), k, end;
    uint8_t *codes;
    flat_schema(schema, format);
    flat_array(array, format, length);
    schema->dictionary = (struct ArrowSchema *)made_block(sizeof(struct ArrowSchema));
    array->dictionary = (struct ArrowArray *)made_block(sizeof(struct ArrowArray));
    random_rows(schema->dictionary, array->dictionary, depth - 1, 5);
    codes = (uint8_t *)(uintptr_t)array->buffers[1];
    end = (size_t)(array->length + array->offset);
    for (k = 0; k < end; k++) {
        if (is_read(array, k)) {
            memset(codes + k * width, 0, width);
            codes[k * width] = (uint8_t)below(5);
        }
    }
}

static void struct_rows(struct ArrowSchema *schema, struct ArrowArray *array, int depth,
    int64_t length)
{
    int64_t k, end;
    flat_schema(schema, "+s");
    start_array(array, 1, length);
    end = array->length + array->offset;
    children_of(schema, array, (int64_t)below(4));
    for (k = 0; k < array->n_children; k++) {
        random_rows(schema->children[k], array->children[k], depth - 1, end + (int64_t)below(3));
    }
}

static void list_rows(struct ArrowSchema *schema, struct ArrowArray *array, const char *format,
    int depth, int64_t length)
{
    int64_t end;
    flat_schema(schema, format);
    start_array(array, format[1] == 'w' ? 1 : 2, length);
    end = array->length + array->offset;
    children_of(schema, array, 1);
    end = format[1] == 'w' ? 2 * end
        : random_offsets(&array->buffers[1], (size_t)end, format[1] == 'L');
    random_rows(schema->children[0], array->children[0], depth - 1, end + (int64_t)below(2));
}

/* Lists that stand anywhere in the child, before one another and in one another. */
static void list_view_rows(struct ArrowSchema *schema, struct ArrowArray *array,
    const char *format, int depth, int64_t length)
{
    int is_wide = format[2] == 'L';
    size_t items = below(20), end, k;
    void *offsets, *sizes;
    flat_schema(schema, format);
    start_array(array, 3, length);
    end = (size_t)(array->length + array->offset);
    array->buffers[1] = offsets = random_bytes(end * (is_wide ? 8 : 4));
    array->buffers[2] = sizes = random_bytes(end * (is_wide ? 8 : 4));
    for (k = 0; k < end; k++) {
        if (is_read(array, k)) {
            size_t start = below(items + 1), most = items - start < 4 ? items - start : 4;
            put_number(offsets, k, (int64_t)start, is_wide);
            put_number(sizes, k, (int64_t)below(most + 1), is_wide);
        }
    }
    children_of(schema, array, 1);
    random_rows(schema->children[0], array->children[0], depth - 1, (int64_t)items);
}

/* Unions: each row's child and, of dense ones, the place there. */
static void union_rows(struct ArrowSchema *schema, struct ArrowArray *array, int is_dense,
    int depth, int64_t length)
{
    static const char *const lists[] = {"0", "7", "0,1", "127,3", "0,1,2", "5,0,90"};
    static const uint8_t ids[][3] = {{0}, {7}, {0, 1}, {127, 3}, {0, 1, 2}, {5, 0, 90}};
    size_t which = below(6), end, k;
    char format[20];
    uint8_t *rows;
    int32_t *places = NULL, last[3] = {0, 0, 0};
    snprintf(format, sizeof format, "+u%c:%s", is_dense ? 'd' : 's', lists[which]);
    flat_schema(schema, format);
    start_array(array, 1 + is_dense, length);
    free((void *)(uintptr_t)array->buffers[0]);
    array->null_count = 0;
    end = (size_t)(array->length + array->offset);
    array->buffers[0] = rows = (uint8_t *)random_bytes(end);
    if (is_dense) {
        array->buffers[1] = places = (int32_t *)random_bytes(4 * end);
    }
    children_of(schema, array, (int64_t)which / 2 + 1);
    for (k = 0; k <= which / 2; k++) {
        random_rows(schema->children[k], array->children[k], depth - 1,
            (int64_t)below(4) + (is_dense ? 1 : (int64_t)end));
    }
    for (k = (size_t)array->offset; k < end; k++) {
        size_t child = below(which / 2 + 1);
        rows[k] = ids[which][child];
        if (is_dense) {
            size_t left = (size_t)(array->children[child]->length - last[child]);
            places[k] = last[child] + (int32_t)below(left);
            last[child] = is_strict ? places[k] : 0;
        }
    }
}

/* A column of a format, of which lists and unions have their beginning alone. */
static void rows_of_format(struct ArrowSchema *schema, struct ArrowArray *array, const char *format,
    int depth, int64_t length)
{
    if (!strcmp(format, "C") && depth > 0) {
        dictionary_rows(schema, array, depth, length);
    } else if (!strcmp(format, "+s")) {
        struct_rows(schema, array, depth, length);
    } else if (!strncmp(format, "+u", 2)) {
        union_rows(schema, array, format[2] == 'd', depth, length);
    } else if (!strncmp(format, "+v", 2)) {
        list_view_rows(schema, array, format, depth, length);
    } else if (format[0] == '+') {
        list_rows(schema, array, format, depth, length);
    } else {
        flat_schema(schema, format);
        flat_array(array, format[0] == 't' ? format[1] == 'd' ? "i" : "l" : format, length);
    }
}

static void random_rows(struct ArrowSchema *schema, struct ArrowArray *array, int depth,
    int64_t length)
{
    static const char *const flat[] = {"n", "b", "c", "S", "e", "i", "l", "g", "u", "U", "z", "Z",
        "vu", "vz", "w:0", "w:3", "d:20,3", "tdD", "tsu:UTC"};
    static const char *const nested[] = {"+s", "+s", "+w:2", "+l", "+L", "+vl", "+vL", "+us", "+ud",
        "C"};
    size_t kind = depth > 0 ? below(13) : 10;
    const char *format = kind < 10 ? nested[kind] : flat[below(sizeof flat / sizeof flat[0])];
    rows_of_format(schema, array, is_left_out(format) ? "i" : format, depth, length);
}

static void random_column(struct ArrowSchema *schema, struct ArrowArray *array, int depth)
{
    random_rows(schema, array, depth, (int64_t)below(20));
}

/* ---- Rows as texts ---- */

typedef struct text {
    char *data;
    size_t len, room;
} text;

static void say(text *t, const char *format, ...)
{
    va_list arguments;
    int size;
    if (t->room - t->len < 80 || !t->data) {
        t->room = 2 * t->room + 4096;
        t->data = (char *)realloc(t->data, t->room);
        if (!t->data) {
            exit(2);
        }
    }
    for (;;) {
        va_start(arguments, format);
        size = vsnprintf(t->data + t->len, t->room - t->len, format, arguments);
        va_end(arguments);
        if ((size_t)size < t->room - t->len) {
            break;
        }
        t->room = 2 * t->room + (size_t)size;
        t->data = (char *)realloc(t->data, t->room);
    }
    t->len += (size_t)size;
}

static void say_bytes(text *t, const void *from, size_t size)
{
    size_t k;
    for (k = 0; k < size; k++) {
        say(t, "%02x", ((const uint8_t *)from)[k]);
    }
}

static int64_t offset_at(const void *offsets, int64_t k, int is_wide)
{
    return is_wide ? ((const int64_t *)offsets)[k] : ((const int32_t *)offsets)[k];
}

/* The code of a row, whose integer type the format names. */
static int64_t code_at(const char *format, const void *codes, int64_t k)
{
    size_t width = width_of(format);
    uint64_t code = 0;
    memcpy(&code, (const uint8_t *)codes + k * (int64_t)width, width);
    if (strchr("csi", format[0]) && code >> (8 * width - 1)) {
        code |= UINT64_MAX << (8 * width);
    }
    return (int64_t)code;
}

static void say_row(text *t, const struct ArrowSchema *schema, const struct ArrowArray *array,
    int64_t row);

static void say_text(text *t, const char *format, const struct ArrowArray *array, int64_t at)
{
    int is_wide = format[0] == 'U' || format[0] == 'Z';
    int64_t start = offset_at(array->buffers[1], at, is_wide);
    int64_t size = offset_at(array->buffers[1], at + 1, is_wide) - start;
    say(t, "\"");
    if (size) {
        say_bytes(t, (const uint8_t *)array->buffers[2] + start, (size_t)size);
    }
}

static void say_view(text *t, const struct ArrowArray *array, int64_t at)
{
    const uint8_t *view = (const uint8_t *)array->buffers[1] + 16 * at;
    int32_t words[4];
    memcpy(words, view, sizeof words);
    say(t, "\"");
    say_bytes(t, words[0] <= 12 ? view + 4
        : (const uint8_t *)array->buffers[2 + words[2]] + words[3], (size_t)words[0]);
}

static void say_items(text *t, const struct ArrowSchema *schema, const struct ArrowArray *array,
    int64_t at)
{
    const char *format = schema->format;
    int is_wide = format[1] == 'L' || format[2] == 'L';
    int64_t start = format[1] == 'w' ? 2 * at : offset_at(array->buffers[1], at, is_wide);
    int64_t end = format[1] == 'w' ? 2 * at + 2
        : format[1] == 'v' ? start + offset_at(array->buffers[2], at, is_wide)
        : offset_at(array->buffers[1], at + 1, is_wide);
    say(t, "[");
    for (; start < end; start++) {
        say_row(t, schema->children[0], array->children[0], start);
        say(t, ",");
    }
    say(t, "]");
}

/* The number of a union's child by its id, or -1. */
static int64_t child_of(const char *format, uint8_t id)
{
    const char *ids = format + 4;
    int64_t child = 0;
    while (ids && *ids) {
        if (strtoul(ids, NULL, 10) == id) {
            return child;
        }
        ids = strchr(ids, ',');
        ids += ids != NULL;
        child++;
    }
    return -1;
}

static void say_chosen(text *t, const struct ArrowSchema *schema, const struct ArrowArray *array,
    int64_t at)
{
    int64_t child = child_of(schema->format, ((const uint8_t *)array->buffers[0])[at]);
    if (child < 0) {
        say(t, "none");
        return;
    }
    say(t, "%d:", (int)child);
    say_row(t, schema->children[child], array->children[child],
        schema->format[2] == 'd' ? ((const int32_t *)array->buffers[1])[at] : at);
}

static void say_row(text *t, const struct ArrowSchema *schema, const struct ArrowArray *array,
    int64_t row)
{
    const char *format = schema->format;
    int64_t k, at = row + array->offset;
    if (!strncmp(format, "+u", 2)) {
        say_chosen(t, schema, array, at);
    } else if (format[0] == 'n' || !is_valid(array, at)) {
        say(t, "-");
    } else if (schema->dictionary) {
        say_row(t, schema->dictionary, array->dictionary, code_at(format, array->buffers[1], at));
    } else if (format[0] == 'b') {
        say(t, "%d", is_set((const uint8_t *)array->buffers[1], (size_t)at));
    } else if (format[0] == 'v') {
        say_view(t, array, at);
    } else if (strchr("uUzZ", format[0])) {
        say_text(t, format, array, at);
    } else if (!strcmp(format, "+s")) {
        say(t, "{");
        for (k = 0; k < array->n_children; k++) {
            say_row(t, schema->children[k], array->children[k], at);
            say(t, ",");
        }
        say(t, "}");
    } else if (format[0] == '+') {
        say_items(t, schema, array, at);
    } else {
        size_t width = !strcmp(format, "tdD") ? 4 : width_of(format[0] == 't' ? "l" : format);
        if (width) {
            say_bytes(t, (const uint8_t *)array->buffers[1] + at * (int64_t)width, width);
        }
    }
}

#endif
