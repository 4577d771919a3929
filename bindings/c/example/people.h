/* A table of people for people.c: its rows, steps over them, and its names in print. */
#ifndef PEOPLE_H
#define PEOPLE_H

#include <stdio.h>
#include <string.h>

#include <vortex_arrow.h>

enum { NAME, AGE, IS_IN, FIELDS };

/* The rows that the steps so far left, and the error of the first step that failed. */
typedef struct table {
    struct ArrowSchema schema;
    struct ArrowArray array;
    vortex_arrow_error error;
    uint64_t range[3]; /* of `every`: the first row, how many rows, and how far apart they are */
} table;

static void release_schema(struct ArrowSchema *schema)
{
    int64_t k;
    for (k = 0; k < schema->n_children; k++) {
        schema->children[k]->release(schema->children[k]);
    }
    schema->release = NULL;
}

static void release_array(struct ArrowArray *array)
{
    int64_t k;
    for (k = 0; k < array->n_children; k++) {
        array->children[k]->release(array->children[k]);
    }
    array->release = NULL;
}

/* Returns a schema of static memory. */
static struct ArrowSchema schema_of(const char *format, const char *name, int64_t flags)
{
    struct ArrowSchema schema;
    memset(&schema, 0, sizeof schema);
    schema.format = format;
    schema.name = name;
    schema.flags = flags;
    schema.release = release_schema;
    return schema;
}

/* Returns an array of five rows in static memory. */
static struct ArrowArray array_of(int64_t null_count, int64_t n_buffers, const void **buffers)
{
    struct ArrowArray array;
    memset(&array, 0, sizeof array);
    array.length = 5;
    array.null_count = null_count;
    array.n_buffers = n_buffers;
    array.buffers = buffers;
    array.release = release_array;
    return array;
}

/* Returns five people: ann, bo, cy and dee, and one whose name is null. All but bo are in. */
static table make_people(void)
{
    static const uint8_t has_name[] = {0x0f}, is_in[] = {0x1d}, ages[] = {31, 25, 40, 19, 58};
    static const int32_t ends[] = {0, 3, 5, 7, 10, 10};
    static const void *of_names[] = {has_name, ends, "annbocydee"}, *of_ages[] = {NULL, ages};
    static const void *of_is_in[] = {NULL, is_in}, *of_people[] = {NULL};
    static struct ArrowSchema schemas[FIELDS], *schema_list[FIELDS];
    static struct ArrowArray arrays[FIELDS], *array_list[FIELDS];
    table people;
    int k;
    schemas[NAME] = schema_of("u", "name", ARROW_FLAG_NULLABLE);
    schemas[AGE] = schema_of("C", "age", 0);
    schemas[IS_IN] = schema_of("b", "is_in", 0);
    arrays[NAME] = array_of(1, 3, of_names);
    arrays[AGE] = array_of(0, 2, of_ages);
    arrays[IS_IN] = array_of(0, 2, of_is_in);
    for (k = 0; k < FIELDS; k++) {
        schema_list[k] = &schemas[k];
        array_list[k] = &arrays[k];
    }
    memset(&people, 0, sizeof people);
    people.schema = schema_of("+s", "", 0);
    people.array = array_of(0, 1, of_people);
    people.schema.n_children = people.array.n_children = FIELDS;
    people.schema.children = schema_list;
    people.array.children = array_list;
    return people;
}

static vortex_arrow_bytes bytes_of(const void *data, size_t len)
{
    vortex_arrow_bytes bytes;
    bytes.data = (const uint8_t *)data;
    bytes.len = len;
    return bytes;
}

/* Returns a filter by a field of bools that aren't null. */
static vortex_arrow_step filter_by(const table *people, int field)
{
    const struct ArrowArray *bools = people->array.children[field];
    vortex_arrow_step step;
    memset(&step, 0, sizeof step);
    step.kind = VORTEX_ARROW_FILTER;
    step.offset = (uint64_t)bools->offset;
    step.len = (uint64_t)bools->length;
    step.values = bytes_of(bools->buffers[1], (size_t)(bools->offset + bools->length + 7) / 8);
    return step;
}

/* Returns a take of row 0 and of each row that is a multiple of `stride`. */
static vortex_arrow_step every(table *people, uint64_t stride)
{
    vortex_arrow_step step;
    people->range[0] = 0;
    people->range[1] = ((uint64_t)people->array.length + stride - 1) / stride;
    people->range[2] = stride;
    memset(&step, 0, sizeof step);
    step.kind = VORTEX_ARROW_TAKE_PIECES;
    step.len = 1;
    step.declared = people->range[1];
    step.values = bytes_of(&people->range[0], sizeof people->range[0]);
    step.lengths = bytes_of(&people->range[1], sizeof people->range[1]);
    step.multipliers = bytes_of(&people->range[2], sizeof people->range[2]);
    return step;
}

/* Returns a take of rows. */
static vortex_arrow_step take_of(const uint64_t *indices, size_t count)
{
    vortex_arrow_step step;
    memset(&step, 0, sizeof step);
    step.kind = VORTEX_ARROW_TAKE;
    step.ptype = VORTEX_ARROW_U64;
    step.len = count;
    step.values = bytes_of(indices, count * sizeof *indices);
    return step;
}

/* Keeps the rows that a step selects. Returns 0, or the status of the first step that failed. Then
 * the rows stay, and `error` says why. */
static uint64_t keep(table *people, vortex_arrow_step step)
{
    struct ArrowArray kept;
    if (people->error.status == 0 && vortex_select_arrow(&people->schema, &people->array, &step, 1,
            NULL, &kept, &people->error) == 0) {
        people->array.release(&people->array);
        people->array = kept;
    }
    return people->error.status;
}

/* Prints each name on a line of its own. */
static void print_names(const table *people)
{
    const struct ArrowArray *names = people->array.children[NAME];
    const uint8_t *valid = (const uint8_t *)names->buffers[0];
    const int32_t *ends = (const int32_t *)names->buffers[1];
    const char *bytes = (const char *)names->buffers[2];
    int64_t k;
    for (k = names->offset; k < names->offset + names->length; k++) {
        if (valid && !(valid[k / 8] >> k % 8 & 1)) {
            printf("null\n");
        } else {
            printf("%.*s\n", (int)(ends[k + 1] - ends[k]), bytes + ends[k]);
        }
    }
}

static void release_people(table *people)
{
    people->array.release(&people->array);
    people->schema.release(&people->schema);
}

#endif
