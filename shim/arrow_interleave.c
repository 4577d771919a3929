/* Rows of several arrays as one. C99 and C++11. */
#include "internal.h"

#include <stdlib.h>
#include <string.h>

/* The tables of several arrays, and their nodes place by place. */
typedef struct tables {
    table *each;
    size_t len;
    vortex_arrow_node *nodes;
    vortex_arrow_group *groups;
} tables;

static void drop_tables(tables *all)
{
    size_t k;
    for (k = 0; k < all->len && all->each; k++) {
        vortex_arrow_drop_table(&all->each[k]);
    }
    free(all->each);
    free(all->nodes);
    free(all->groups);
}

/* Fills a table with the nodes of an array, whose views have so many data buffers at least. */
static uint64_t walk_one(table *t, const struct ArrowSchema *schema, struct ArrowArray *array,
    size_t data_buffers, size_t *left, vortex_arrow_error *error)
{
    uint64_t status = vortex_arrow_admit(schema, array, error);
    t->error = error;
    t->left = left;
    t->gathers = 1;
    t->data_buffers = data_buffers;
    status = status ? status : vortex_arrow_walk(t, schema, array, 1);
    return status ? status : vortex_arrow_admit_dictionaries(t);
}

/* The most data buffers that a node of views has. */
static size_t most_data_buffers(const table *t)
{
    size_t k, most = 0;
    for (k = 0; k < t->len; k++) {
        if (vortex_arrow_has_views(&t->nodes[k]) && t->nodes[k].children > most) {
            most = t->nodes[k].children;
        }
    }
    return most;
}

/* Fills the tables. */
static uint64_t walk_each(tables *all, const struct ArrowSchema *schema,
    struct ArrowArray **arrays, size_t data_buffers, vortex_arrow_error *error)
{
    uint64_t status = VORTEX_ARROW_DONE;
    size_t k, left;
    for (k = 0; k < all->len && !status; k++) {
        left = VORTEX_ARROW_NODES;
        vortex_arrow_drop_table(&all->each[k]);
        memset(&all->each[k], 0, sizeof all->each[k]);
        status = walk_one(&all->each[k], schema, arrays[k], data_buffers, &left, error);
        all->each[k].left = NULL;
    }
    return status;
}

/* Fills the tables so that they have one shape. */
static uint64_t walk_all(tables *all, const struct ArrowSchema *schema, struct ArrowArray **arrays,
    vortex_arrow_error *error)
{
    uint64_t status;
    size_t k, most = 0;
    all->each = (table *)calloc(all->len, sizeof *all->each);
    if (!all->each) {
        return vortex_arrow_fault(error, VORTEX_ARROW_NO_MEMORY, "");
    }
    status = walk_each(all, schema, arrays, 0, error);
    for (k = 0; k < all->len && !status; k++) {
        size_t own = most_data_buffers(&all->each[k]);
        most = own > most ? own : most;
    }
    if (!status && most) {
        status = walk_each(all, schema, arrays, most, error);
    }
    for (k = 0; k < all->len && !status; k++) {
        if (all->each[k].len != all->each[0].len) {
            status = vortex_arrow_fault(error, VORTEX_ARROW_UNLIKE, "");
        }
    }
    return status;
}

/* Copies the nodes place by place. Returns 0 where memory runs out. */
static int group_nodes(tables *all)
{
    size_t k, s, n = all->each[0].len;
    all->nodes = (vortex_arrow_node *)calloc(n * all->len, sizeof *all->nodes);
    all->groups = (vortex_arrow_group *)calloc(n, sizeof *all->groups);
    for (k = 0; k < n && all->nodes && all->groups; k++) {
        vortex_arrow_node *nodes = &all->nodes[k * all->len];
        for (s = 0; s < all->len; s++) {
            nodes[s] = all->each[s].nodes[k];
        }
        all->groups[k].nodes = nodes;
        all->groups[k].len = all->len;
    }
    return all->nodes && all->groups;
}

/* ---- Dictionaries ---- */

static int are_same_bytes(vortex_arrow_bytes one, vortex_arrow_bytes other)
{
    return one.len == other.len &&
        (one.data == other.data || !one.len || !memcmp(one.data, other.data, one.len));
}

static int are_same_nodes(const vortex_arrow_node *a, const vortex_arrow_node *b)
{
    return a->format == b->format && a->width == b->width && a->len == b->len &&
        a->offset == b->offset && a->children == b->children &&
        are_same_bytes(a->valid, b->valid) && are_same_bytes(a->offsets, b->offsets) &&
        are_same_bytes(a->values, b->values) && are_same_bytes(a->sizes, b->sizes);
}

static uint64_t test_dictionaries_of(const table *first, const table *t);

/* Tests that two tables have the same numbers and bytes, and so the same rows. `at` is the node of
 * the table above that has the second one as its dictionary. */
static uint64_t test_same(const table *one, const table *other, const table *above, size_t at)
{
    size_t k;
    int same = one->len == other->len;
    for (k = 0; k < one->len && same; k++) {
        same = are_same_nodes(&one->nodes[k], &other->nodes[k]);
    }
    return same ? test_dictionaries_of(one, other)
        : vortex_arrow_fault_at(above, VORTEX_ARROW_UNLIKE, at, "dictionary");
}

/* Tests that a dictionary equals that of the first table. */
static uint64_t test_dictionary(const table *first, const table *t, size_t node)
{
    const struct ArrowSchema *schema = t->sources[node].schema->dictionary;
    struct ArrowArray *one = first->sources[node].array->dictionary;
    struct ArrowArray *other = t->sources[node].array->dictionary;
    size_t left = VORTEX_ARROW_NODES;
    uint64_t status;
    table a, b;
    memset(&a, 0, sizeof a);
    memset(&b, 0, sizeof b);
    status = walk_one(&a, schema, one, 0, &left, t->error);
    status = status ? status : walk_one(&b, schema, other, 0, &left, t->error);
    status = status ? status : test_same(&a, &b, t, node);
    vortex_arrow_drop_table(&a);
    vortex_arrow_drop_table(&b);
    return status;
}

/* Tests that the dictionaries of a table equal those of the first one. */
static uint64_t test_dictionaries_of(const table *first, const table *t)
{
    uint64_t status = VORTEX_ARROW_DONE;
    size_t k;
    for (k = 0; k < first->len && !status; k++) {
        if (first->sources[k].schema && first->sources[k].array->dictionary &&
            first->sources[k].array->dictionary != t->sources[k].array->dictionary) {
            status = test_dictionary(first, t, k);
        }
    }
    return status;
}

static uint64_t test_dictionaries(const tables *all)
{
    uint64_t status = VORTEX_ARROW_DONE;
    size_t s;
    for (s = 1; s < all->len && !status; s++) {
        status = test_dictionaries_of(&all->each[0], &all->each[s]);
    }
    return status;
}

/* ---- The call ---- */

/* Makes the array of the rows of tables that have a node at least. */
static uint64_t answer_spans(tables *all, const vortex_arrow_span *spans, size_t n_spans,
    struct ArrowArray *out)
{
    const table *first = &all->each[0];
    vortex_arrow_rows rows = {NULL, 0, NULL, NULL, 0};
    vortex_arrow_answer answer;
    if (!group_nodes(all)) {
        return vortex_arrow_fault(first->error, VORTEX_ARROW_NO_MEMORY, "");
    }
    rows.groups = all->groups;
    rows.spans = spans;
    rows.n_spans = n_spans;
    answer = vortex_arrow_answer_rows(first, &rows, out);
    return answer.status ? vortex_arrow_fault_of_node(first, answer) : answer.status;
}

uint64_t vortex_interleave_arrow(const struct ArrowSchema *schema, struct ArrowArray **arrays,
    size_t n_arrays, const vortex_arrow_span *spans, size_t n_spans, struct ArrowArray *out,
    vortex_arrow_error *error)
{
    vortex_arrow_error unread;
    tables all = {NULL, n_arrays, NULL, NULL};
    uint64_t status;
    error = error ? error : &unread;
    memset(error, 0, sizeof *error);
    out->release = NULL;
    if (!n_arrays) {
        return vortex_arrow_fault(error, VORTEX_ARROW_SHAPE, "arrays");
    }
    status = walk_all(&all, schema, arrays, error);
    status = status ? status : test_dictionaries(&all);
    status = status ? status : answer_spans(&all, spans, n_spans, out);
    drop_tables(&all);
    return status;
}
