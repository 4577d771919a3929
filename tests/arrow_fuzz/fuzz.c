/* Checks arrays, and selects from them, whose lengths, offsets, counts and formats are wild. Their
 * buffers have exactly the bytes that the shim takes them to have, or none if that is much: so to
 * read past a buffer is a fault of the shim or the library. An answer is read whole, and so is a
 * source that passes the check, with its dictionaries.
 *
 * Build: tests/arrow_fuzz/build. */
#include <stdio.h>
#include <stdlib.h>
#include <string.h>

#include "../../bindings/c/tests/random_arrow.h"

#define MOST_BYTES 65536

typedef struct input {
    const uint8_t *data;
    size_t len;
} input;

static uint8_t next(input *in)
{
    uint8_t byte = in->len ? *in->data : 0;
    in->data += in->len != 0;
    in->len -= in->len != 0;
    return byte;
}

/* Mostly a small number, else one that no list has: numbers between cost more than they show. */
static int64_t number(input *in)
{
    static const int64_t wild[] = {INT64_MAX, INT64_MAX - 1, INT64_MIN, -1, (int64_t)1 << 62,
        (int64_t)1 << 60, ((int64_t)1 << 60) - 1, (int64_t)1 << 50};
    uint8_t byte = next(in);
    return byte < 240 ? byte % 40 : wild[byte % 8];
}

/* A buffer of just so many values, of the input's bytes; or none. */
static void *buffer(input *in, uint64_t count, uint64_t width)
{
    uint8_t *bytes;
    size_t k, size;
    if (count > MOST_BYTES || width > MOST_BYTES || count * width > MOST_BYTES || next(in) == 255) {
        return NULL;
    }
    size = count * width;
    bytes = (uint8_t *)made_block(size);
    for (k = 0; k < size; k++) {
        bytes[k] = next(in);
    }
    return bytes;
}

/* Offsets, of which most ascend in small steps; *last is the end that they tell. */
static void *offsets(input *in, uint64_t end, int is_wide, int64_t *last)
{
    uint8_t *bytes;
    int64_t at = next(in) % 4;
    uint64_t k;
    *last = 0;
    if (end > MOST_BYTES / 8) {
        return NULL;
    }
    bytes = (uint8_t *)made_block(end ? (end + 1) * (is_wide ? 8 : 4) : 0);
    for (k = 0; end && k <= end; k++) {
        uint8_t byte = next(in);
        int64_t value = byte < 250 ? at : number(in);
        int32_t narrow = (int32_t)value;
        memcpy(bytes + k * (is_wide ? 8 : 4), is_wide ? (void *)&value : (void *)&narrow,
            is_wide ? 8 : 4);
        at += byte % 4;
        *last = is_wide ? value : narrow;
    }
    return bytes;
}

static const char *format_of(input *in, char *room)
{
    static const char *const known[] = {"n", "b", "c", "S", "i", "g", "u", "U", "z", "Z", "w:3",
        "w:0", "d:9,2", "tdD", "tin", "tsu:", "+s", "+l", "+L", "+m", "+w:2", "+w:0",
        "+w:999999999", "vu", "vz", "+vl", "+vL", "+us:0,1", "+ud:0,1", "+us:5", "+ud:3,0,2", "+r",
        "C", "I", "+s", "+l", "u"};
    uint8_t byte = next(in);
    size_t k;
    if (byte < 250) {
        return known[byte % (sizeof known / sizeof known[0])];
    }
    for (k = 0; k < 15; k++) {
        room[k] = (char)next(in);
    }
    room[15] = 0;
    return room;
}

/* The buffers that views lead to, and their lengths, which are true where there is a buffer. */
static void data_of_views(input *in, struct ArrowArray *array)
{
    int64_t k, count = array->n_buffers - 3, *lengths;
    if (count < 0) {
        return;
    }
    lengths = (int64_t *)made_block((size_t)count * 8);
    for (k = 0; k < count; k++) {
        lengths[k] = number(in);
        array->buffers[k + 2] = buffer(in, (uint64_t)lengths[k], 1);
    }
    array->buffers[count + 2] = lengths;
}

/* How many bytes a value of a buffer has. */
static uint64_t width_in(const char *format, int64_t k)
{
    if (format[0] == '+') {
        return k == 0 && format[1] == 'u' ? 1 : format[1] == 'v' && format[2] == 'L' ? 8 : 4;
    }
    return format[0] && strchr("wdcCsSeiIflLg", format[0]) ? width_of(format) : 16;
}

static int64_t buffers_of(input *in, const char *format)
{
    int is_cut = !strcmp(format, "+l") || !strcmp(format, "+L") || !strcmp(format, "+m");
    if (format[0] == '+') {
        return format[1] == 'v' ? 3 : is_cut || format[2] == 'd' ? 2 : 1;
    }
    return format[0] == 'n' ? 0 : format[0] == 'v' ? 3 + next(in) % 4
        : format[0] && strchr("uUzZ", format[0]) ? 3 : 2;
}

static void column(input *in, struct ArrowSchema *schema, struct ArrowArray *array, int depth)
{
    char room[16];
    const char *format = format_of(in, room);
    int is_text = format[0] && strchr("uUzZ", format[0]) && !format[1];
    int is_list = !strcmp(format, "+l") || !strcmp(format, "+L") || !strcmp(format, "+m");
    int is_views = !strcmp(format, "vu") || !strcmp(format, "vz");
    int is_wide = format[0] == 'U' || format[0] == 'Z' || format[1] == 'L';
    uint64_t end;
    int64_t last = 0, k, children = 0, wanted = buffers_of(in, format);
    flat_schema(schema, format);
    memset(array, 0, sizeof *array);
    __atomic_add_fetch(&live, 1, __ATOMIC_SEQ_CST);
    array->release = release_made_array;
    array->length = number(in);
    array->offset = next(in) % 4 ? 0 : number(in);
    array->null_count = next(in) % 4 ? -1 : number(in);
    array->n_buffers = next(in) < 250 ? wanted : next(in) % 5;
    end = (uint64_t)array->length + (uint64_t)array->offset;
    end = array->length < 0 || array->offset < 0 || (int64_t)end < 0 ? UINT64_MAX : end;
    array->buffers = (const void **)made_block((size_t)array->n_buffers * sizeof(void *));
    for (k = 0; k < array->n_buffers && (!is_views || k < 2); k++) {
        uint64_t bits = end / 8 + (end % 8 != 0);
        array->buffers[k] = k == 0 && format[0] == '+' && format[1] == 'u' ? buffer(in, end, 1)
            : k == 0 ? next(in) % 2 ? NULL : buffer(in, bits, 1)
            : k == 1 && (is_text || is_list) ? offsets(in, end, is_wide, &last)
            : k == 2 && is_text ? buffer(in, last < 0 ? 0 : (uint64_t)last, 1)
            : format[0] == 'b' ? buffer(in, bits, 1) : buffer(in, end, width_in(format, k));
    }
    if (is_views) {
        data_of_views(in, array);
    }
    if (format[0] == '+' && depth < 70) {
        children = format[1] == 's' || format[1] == 'u' || next(in) > 250 ? next(in) % 4 : 1;
        children_of(schema, array, children);
        for (k = 0; k < children; k++) {
            column(in, schema->children[k], array->children[k], depth + 1);
        }
    } else if (next(in) > 230 && depth < 70) {
        schema->dictionary = (struct ArrowSchema *)made_block(sizeof *schema);
        array->dictionary = (struct ArrowArray *)made_block(sizeof *array);
        column(in, schema->dictionary, array->dictionary, depth + 1);
    }
}

static void step_of(input *in, vortex_arrow_step *step)
{
    static const uint64_t widths[] = {1, 2, 4, 8, 1, 2, 4, 8, 2, 4, 8};
    uint64_t end, width;
    memset(step, 0, sizeof *step);
    step->kind = next(in) % 4;
    step->start = (uint64_t)number(in);
    step->end = (uint64_t)number(in);
    step->ptype = next(in) % 12;
    step->offset = next(in) % 4 ? 0 : (uint64_t)number(in);
    step->len = (uint64_t)number(in);
    step->declared = (uint64_t)number(in);
    end = step->offset + step->len;
    width = step->kind == VORTEX_ARROW_TAKE && step->ptype < 11 ? widths[step->ptype] : 8;
    step->values.data = (uint8_t *)buffer(in, end, width);
    step->values.len = step->values.data ? end * width : 0;
    if (next(in) % 2) {
        step->valid.data = (uint8_t *)buffer(in, end / 8 + 1, 1);
        step->valid.len = step->valid.data ? end / 8 + 1 : 0;
    }
    step->lengths.data = (uint8_t *)buffer(in, end, 8);
    step->lengths.len = step->lengths.data ? end * 8 : 0;
    step->multipliers.data = (uint8_t *)buffer(in, end, 8);
    step->multipliers.len = step->multipliers.data ? end * 8 : 0;
}

/* Whether what a row of ours leads to is in the children. */
static int is_within(const struct ArrowSchema *schema, const struct ArrowArray *array, int64_t k)
{
    const char *format = schema->format;
    int is_wide = format[1] && format[2] == 'L';
    int64_t child = 0, place = 0, size = 1;
    if (!strncmp(format, "+v", 2) && is_valid(array, k)) {
        place = offset_at(array->buffers[1], k, is_wide);
        size = offset_at(array->buffers[2], k, is_wide);
    } else if (!strncmp(format, "+u", 2)) {
        child = child_of(format, ((const uint8_t *)array->buffers[0])[k]);
        place = format[2] == 'd' ? ((const int32_t *)array->buffers[1])[k] : k;
    } else {
        return 1;
    }
    return child >= 0 && child < array->n_children && place >= 0 && size >= 0 &&
        place <= array->children[child]->length && size <= array->children[child]->length - place;
}

/* Reads a row, or looks at what it leads to. */
static void touch_row(text *t, const struct ArrowSchema *schema, const struct ArrowArray *array,
    int64_t k)
{
    if (schema->dictionary) {
        int64_t code = is_valid(array, k) ? code_at(schema->format, array->buffers[1], k) : 0;
        if (code < 0 || (code >= array->dictionary->length && is_valid(array, k))) {
            abort();
        }
    } else if (!is_within(schema, array, k)) {
        abort();
    } else if (strcmp(schema->format, "n") && schema->format[0] != '+') {
        say_row(t, schema, array, k - array->offset);
    }
}

/* How far what is below an array may be read: nowhere, but for what the answer shares with the
 * source, or everywhere. */
enum { NOTHING, OWN, ALL };

/* Reads an array to its last byte. What is shared with a source may not be valid, unless that
 * passed the check. */
static uint64_t touch(const struct ArrowSchema *schema, const struct ArrowArray *array, int what)
{
    text t = {NULL, 0, 0};
    uint64_t sum = (uint64_t)array->length;
    int is_short = array->length < 5000 && array->offset < 5000;
    int below = what == OWN && !strncmp(schema->format, "+v", 2) ? NOTHING : what;
    int64_t k;
    for (k = 0; what != NOTHING && is_short && k < array->length; k++) {
        touch_row(&t, schema, array, array->offset + k);
    }
    sum += t.len;
    free(t.data);
    for (k = 0; k < array->n_children; k++) {
        sum += touch(schema->children[k], array->children[k], below);
    }
    if (schema->dictionary && what == ALL) {
        sum += touch(schema->dictionary, array->dictionary, what);
    }
    return sum;
}

static volatile uint64_t seen; /* so that no reading is left out */

/* Selects from an array, and reads the answer. */
static void select_from(input *in, const struct ArrowSchema *schema, struct ArrowArray *array,
    const vortex_arrow_step *steps, size_t n_steps, int what)
{
    struct ArrowSchema out_schema;
    struct ArrowArray out, again;
    vortex_arrow_error error;
    if (vortex_select_arrow(schema, array, steps, n_steps, &out_schema, &out, &error)) {
        if (out.release || out_schema.release || !error.text[0]) {
            abort();
        }
        return;
    }
    seen = seen + touch(&out_schema, &out, what);
    if (!vortex_arrow_share(&out, &again)) {
        out.release(&out);
        seen = seen + touch(&out_schema, &again, what);
        out = again;
    }
    out_schema.release(&out_schema);
    if (next(in) % 2) {
        array->release(array);
    }
    out.release(&out);
}

static void free_step(const vortex_arrow_step *step)
{
    free((void *)(uintptr_t)step->values.data);
    free((void *)(uintptr_t)step->valid.data);
    free((void *)(uintptr_t)step->lengths.data);
    free((void *)(uintptr_t)step->multipliers.data);
}

/* Checks an array, and reads it whole if it is valid. */
static int is_valid_column(const struct ArrowSchema *schema, struct ArrowArray *array)
{
    vortex_arrow_error error;
    if (!vortex_arrow_check_array(schema, array, &error)) {
        seen = seen + touch(schema, array, ALL);
    } else if (!error.text[0]) {
        abort();
    }
    return !error.status;
}

/* Slices an array, and reads the slice if the array is valid. Strings of an invalid one may have an
 * offset past their bytes, which may be the last one of a slice. */
static void slice_from(input *in, const struct ArrowSchema *schema, struct ArrowArray *array,
    int is_valid)
{
    uint64_t start = next(in) % 8, end = next(in) % 16;
    struct ArrowArray out;
    vortex_arrow_error error;
    if (vortex_arrow_slice(schema, array, start, end, &out, &error)) {
        if (out.release || !error.text[0]) {
            abort();
        }
        return;
    }
    if (is_valid) {
        seen = seen + touch(schema, &out, ALL);
        if (vortex_arrow_check_array(schema, &out, &error) == VORTEX_ARROW_NO_MEANING) {
            abort();
        }
    }
    out.release(&out);
}

int LLVMFuzzerTestOneInput(const uint8_t *data, size_t len);

int LLVMFuzzerTestOneInput(const uint8_t *data, size_t len)
{
    input in = {data, len};
    struct ArrowSchema schema;
    struct ArrowArray array;
    vortex_arrow_step steps[3];
    size_t k, n_steps = next(&in) % 4;
    int is_valid;
    for (k = 0; k < n_steps; k++) {
        step_of(&in, &steps[k]);
    }
    column(&in, &schema, &array, 1);
    is_valid = is_valid_column(&schema, &array);
    slice_from(&in, &schema, &array, is_valid);
    select_from(&in, &schema, &array, steps, n_steps, is_valid ? ALL : OWN);
    if (array.release) {
        array.release(&array);
    }
    schema.release(&schema);
    for (k = 0; k < n_steps; k++) {
        free_step(&steps[k]);
    }
    if (live_columns()) {
        abort();
    }
    return 0;
}
