/* Makes columns by hand, over memory that the caller keeps. */
#ifndef MADE_ARROW_H
#define MADE_ARROW_H

#include <stdlib.h>
#include <string.h>

#include "expect.h"
#include "vortex_arrow.h"

static int released; /* arrays and schemas that were released */

static void release_schema_of(struct ArrowSchema *schema)
{
    schema->release = NULL;
    released++;
}

/* Releases what it has below it too, which selecting may have replaced. */
static void release_array_of(struct ArrowArray *array)
{
    int64_t k;
    for (k = 0; k < array->n_children; k++) {
        if (array->children[k] && array->children[k]->release) {
            array->children[k]->release(array->children[k]);
        }
    }
    if (array->dictionary && array->dictionary->release) {
        array->dictionary->release(array->dictionary);
    }
    array->release = NULL;
    released++;
}

typedef struct column {
    struct ArrowSchema schema, *schemas[4];
    struct ArrowArray array, *arrays[4];
    const void *buffers[6];
} column;

/* A column of so many rows, with an unknown null count. Its buffers are set by the caller. */
static void make(column *c, const char *format, const char *name, int64_t length, int64_t n_buffers)
{
    memset(c, 0, sizeof *c);
    c->schema.format = format;
    c->schema.name = name;
    c->schema.flags = ARROW_FLAG_NULLABLE;
    c->schema.children = c->schemas;
    c->schema.release = release_schema_of;
    c->array.length = length;
    c->array.null_count = -1;
    c->array.n_buffers = n_buffers;
    c->array.buffers = c->buffers;
    c->array.children = c->arrays;
    c->array.release = release_array_of;
}

static void add_child(column *parent, column *child)
{
    int64_t k = parent->schema.n_children++;
    parent->array.n_children = parent->schema.n_children;
    parent->schemas[k] = &child->schema;
    parent->arrays[k] = &child->array;
}

static void set_dictionary(column *codes, column *values)
{
    codes->schema.dictionary = &values->schema;
    codes->array.dictionary = &values->array;
}

/* A take of rows by 64-bit indices, of which those with a clear bit are null. */
static vortex_arrow_step take_of(const uint64_t *indices, size_t len, const uint8_t *valid)
{
    vortex_arrow_step step;
    memset(&step, 0, sizeof step);
    step.kind = VORTEX_ARROW_TAKE;
    step.ptype = VORTEX_ARROW_U64;
    step.len = len;
    step.values.data = (const uint8_t *)indices;
    step.values.len = 8 * len;
    step.valid.data = valid;
    step.valid.len = valid ? (len + 7) / 8 : 0;
    return step;
}

static uint64_t check(column *c, vortex_arrow_error *error)
{
    return vortex_arrow_check_array(&c->schema, &c->array, error);
}

/* Selects rows, and releases them. */
static uint64_t selected(column *c, const vortex_arrow_step *steps, size_t n_steps,
    vortex_arrow_error *error)
{
    struct ArrowSchema schema;
    struct ArrowArray out;
    uint64_t status = vortex_select_arrow(&c->schema, &c->array, steps, n_steps, &schema, &out,
        error);
    expect(!status == !!out.release && !status == !!schema.release, "released at a fault", status);
    if (!status) {
        out.release(&out);
        schema.release(&schema);
    }
    return status;
}

/* Expects that a column is refused by both calls, with this status and place. */
static void expect_both(column *c, uint64_t status, const char *place, const char *what)
{
    vortex_arrow_error error;
    expect(check(c, &error) == status && error.status == status, what, 1);
    expect(!strcmp(error.place, place), what, 2);
    expect(selected(c, NULL, 0, &error) == status && error.status == status, what, 3);
    expect(!strcmp(error.place, place), what, 4);
}

/* Expects what vortex_arrow_check_array reports. */
static void expect_check(column *c, uint64_t status, const char *place, const char *what)
{
    vortex_arrow_error error;
    expect(check(c, &error) == status && error.status == status, what, 1);
    expect(!strcmp(error.place, place), what, 2);
    if (strcmp(error.place, place)) {
        printf("c: the place is \"%s\", not \"%s\"\n", error.place, place);
    }
}

#endif
