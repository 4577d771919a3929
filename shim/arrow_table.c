/* Makes a table of nodes from an array of Arrow's C Data Interface. C99 and C++11. */
#include "internal.h"

#include <stdlib.h>
#include <string.h>

/* The parts that don't fit a layout, by the library's numbers for them. */
static const char *const misfits[] = {"", "length", "buffers", "children", "validity", "dictionary",
    "length"};
#define TOO_MANY_ROWS 6

static vortex_arrow_bytes bytes_at(const void *buffer, uint64_t len)
{
    vortex_arrow_bytes bytes = {(const uint8_t *)buffer, 0};
    bytes.len = buffer ? len : 0;
    return bytes;
}

/* The buffer with a number, from 1, which has so many bytes. */
static vortex_arrow_bytes buffer_at(const struct ArrowArray *array, uint64_t number, uint64_t len)
{
    return bytes_at(number ? array->buffers[number - 1] : NULL, len);
}

/* What the two structs say of themselves. */
static vortex_arrow_shape shape_of(const struct ArrowSchema *schema, const struct ArrowArray *array)
{
    vortex_arrow_shape shape;
    shape.len = (uint64_t)array->length;
    shape.offset = (uint64_t)array->offset;
    shape.null_count = (uint64_t)array->null_count;
    shape.buffers = (uint64_t)array->n_buffers;
    shape.children = (uint64_t)array->n_children;
    shape.schema_children = (uint64_t)schema->n_children;
    shape.has_buffers = array->buffers != NULL;
    shape.has_children = schema->children && array->children;
    shape.has_first = array->buffers && array->n_buffers > 0 && array->buffers[0];
    shape.has_dictionary = array->dictionary != NULL;
    shape.schema_dictionary = schema->dictionary != NULL;
    return shape;
}

/* Sets a node's numbers and buffers. The lengths of data buffers of views are its sizes. */
static void fill(vortex_arrow_node *node, const struct ArrowArray *array,
    const vortex_arrow_layout *layout, const vortex_arrow_lengths *lengths)
{
    node->format = layout->format;
    node->width = layout->width;
    node->len = (uint64_t)array->length;
    node->offset = (uint64_t)array->offset;
    node->children = lengths->children;
    node->valid = buffer_at(array, layout->valid, lengths->valid);
    node->offsets = buffer_at(array, layout->offsets, lengths->offsets);
    node->values = buffer_at(array, layout->values, lengths->values + vortex_arrow_text_len(node));
    node->sizes = buffer_at(array,
        vortex_arrow_has_views(node) ? (uint64_t)array->n_buffers : layout->sizes, lengths->sizes);
}

static int has_room(table *t)
{
    size_t room = t->room ? 2 * t->room : 16;
    void *nodes, *sources;
    if (t->len < t->room) {
        return 1;
    }
    nodes = realloc(t->nodes, room * sizeof *t->nodes);
    t->nodes = nodes ? (vortex_arrow_node *)nodes : t->nodes;
    sources = realloc(t->sources, room * sizeof *t->sources);
    t->sources = sources ? (source *)sources : t->sources;
    t->room = nodes && sources ? room : t->room;
    return nodes && sources;
}

/* Appends a node. Its end is set when its descendants are in the table. */
static uint64_t append(table *t, source from)
{
    if (!has_room(t)) {
        return vortex_arrow_fault(t->error, VORTEX_ARROW_NO_MEMORY, "");
    }
    from.is_kept = !t->gathers && (!from.schema || (from.parent < t->len &&
        (t->sources[from.parent].is_kept ||
        vortex_arrow_is_list_view(&t->nodes[from.parent]))));
    memset(&t->nodes[t->len], 0, sizeof t->nodes[0]);
    t->sources[t->len++] = from;
    return VORTEX_ARROW_DONE;
}

/* Appends a node for each data buffer of views, and empty ones up to as many as all tables have. */
static uint64_t walk_data(table *t, struct ArrowArray *array, size_t parent)
{
    source from;
    size_t k, count = t->nodes[parent].children, own = (size_t)array->n_buffers - 3;
    memset(&from, 0, sizeof from);
    from.array = array;
    from.parent = parent;
    from.layout.values = 1;
    for (k = 0; k < count; k++) {
        uint64_t length = k < own ? vortex_arrow_data_length(&t->nodes[parent], k) : 0;
        vortex_arrow_node *node;
        if (length > INT64_MAX) {
            return vortex_arrow_fault_at(t, VORTEX_ARROW_SHAPE, parent, "buffers");
        }
        if (append(t, from)) {
            return t->error->status;
        }
        node = &t->nodes[t->len - 1];
        node->format = VORTEX_ARROW_FIXED;
        node->width = 1;
        node->values = bytes_at(k < own ? array->buffers[k + 2] : NULL, length);
        node->len = node->values.len; /* 0 where the buffer is null */
        t->sources[t->len - 1].end = t->len;
    }
    return VORTEX_ARROW_DONE;
}

/* How many data buffers of views a node has beside those of its array. */
size_t vortex_arrow_padding(const table *t, const vortex_arrow_node *node, const source *from)
{
    size_t own = (size_t)from->array->n_buffers;
    return t->gathers && vortex_arrow_has_views(node) ? node->children + 3 - own : 0;
}

/* Counts what the answer needs for a node. */
static void count_in(table *t, const vortex_arrow_node *node, const source *from)
{
    size_t views = !t->gathers && vortex_arrow_has_views(node);
    t->n_ids += vortex_arrow_is_union(node) ? node->children : 0;
    if (!from->is_kept) {
        t->n_arrays++;
        t->n_buffers += (size_t)from->array->n_buffers + vortex_arrow_padding(t, node, from);
        t->n_shared += (from->array->dictionary != NULL) + views +
            (!t->gathers && vortex_arrow_is_list_view(node));
        t->n_views += views;
    }
}

static uint64_t walk(table *t, source from);

/* Child `k` of an array whose node is at `at`. */
static source child_of(const source *from, size_t at, int64_t k)
{
    source child = *from;
    child.schema = from->schema->children[k];
    child.array = from->array->children[k];
    child.parent = at;
    child.level++;
    return child;
}

/* Appends what is below a node. */
static uint64_t walk_below(table *t, size_t at)
{
    source from = t->sources[at];
    struct ArrowArray *array = from.array;
    uint64_t status = VORTEX_ARROW_DONE;
    int64_t k;
    if (vortex_arrow_has_views(&t->nodes[at])) {
        return walk_data(t, array, at);
    }
    for (k = 0; k < array->n_children && !status; k++) {
        status = walk(t, child_of(&from, at, k));
    }
    if (!status && array->n_children == 1 &&
        vortex_arrow_ends_past(&t->nodes[at], t->nodes[at + 1].len)) {
        int is_fixed = t->nodes[at].format == VORTEX_ARROW_FIXED_LIST;
        t->error->cause = VORTEX_ARROW_LACKS_ITEMS;
        return vortex_arrow_fault_at(t, VORTEX_ARROW_NO_MEANING, at,
            is_fixed ? "length" : "offsets");
    }
    return status;
}

/* Whether the two structs are there and may be visited, before anything else of them is read. */
static uint64_t admit(table *t, const source *from)
{
    const struct ArrowSchema *schema = from->schema;
    uint64_t status = VORTEX_ARROW_DONE;
    if (from->level > VORTEX_ARROW_LEVELS || !*t->left) {
        status = VORTEX_ARROW_DEPTH;
    } else if (!schema || !from->array || !schema->release || !from->array->release ||
        !schema->format) {
        status = VORTEX_ARROW_SHAPE;
    }
    *t->left -= !status;
    return status ? vortex_arrow_fault_at(t, status, from->parent, "children") : status;
}

/* Reads the two structs of a node. */
static uint64_t read_node(table *t, size_t at)
{
    const struct ArrowSchema *schema = t->sources[at].schema;
    const struct ArrowArray *array = t->sources[at].array;
    vortex_arrow_layout *layout = &t->sources[at].layout;
    vortex_arrow_shape shape = shape_of(schema, array);
    vortex_arrow_lengths lengths;
    uint64_t misfit;
    if (vortex_arrow_layout_of((const uint8_t *)schema->format, strlen(schema->format), layout)) {
        return vortex_arrow_fault_at(t, VORTEX_ARROW_FORMAT, at, schema->format);
    }
    misfit = vortex_arrow_measure(layout, &shape, &lengths);
    if (misfit == TOO_MANY_ROWS) {
        t->error->cause = VORTEX_ARROW_LACKS_ROWS;
        return vortex_arrow_fault_at(t, VORTEX_ARROW_NO_MEANING, at, misfits[misfit]);
    }
    if (misfit) {
        return vortex_arrow_fault_at(t, VORTEX_ARROW_SHAPE, at, misfits[misfit]);
    }
    fill(&t->nodes[at], array, layout, &lengths);
    if (vortex_arrow_has_views(&t->nodes[at]) && t->nodes[at].children < t->data_buffers) {
        t->nodes[at].children = t->data_buffers;
    }
    count_in(t, &t->nodes[at], &t->sources[at]);
    return VORTEX_ARROW_DONE;
}

/* Appends the nodes of an array. */
static uint64_t walk(table *t, source from)
{
    size_t at = t->len;
    uint64_t status = admit(t, &from);
    status = status ? status : append(t, from);
    status = status ? status : read_node(t, at);
    if (status) {
        return status;
    }
    status = walk_below(t, at);
    t->sources[at].end = t->len;
    return status;
}

/* Sets the type ids of unions. Returns 0 where memory runs out. */
static int lay_ids(table *t)
{
    uint8_t *ids;
    size_t k;
    if (!t->n_ids) {
        return 1;
    }
    ids = t->ids = (uint8_t *)malloc(t->n_ids);
    for (k = 0; k < t->len && ids; k++) {
        if (vortex_arrow_is_union(&t->nodes[k])) {
            const char *text = t->sources[k].schema->format;
            size_t count = t->nodes[k].children;
            t->nodes[k].sizes = bytes_at(ids, count);
            ids += vortex_arrow_type_ids((const uint8_t *)text, strlen(text), ids, count);
        }
    }
    return ids != NULL;
}

/* Fills a table with the nodes of an array that is so many levels deep. */
uint64_t vortex_arrow_walk(table *t, const struct ArrowSchema *schema, struct ArrowArray *array,
    int level)
{
    uint64_t status;
    source from;
    memset(&from, 0, sizeof from);
    from.schema = schema;
    from.array = array;
    from.parent = VORTEX_NO_NODE;
    from.level = level;
    status = walk(t, from);
    if (!status && !lay_ids(t)) {
        status = vortex_arrow_fault(t->error, VORTEX_ARROW_NO_MEMORY, "");
    }
    return status;
}

/* Returns what a node's image doesn't have. A data buffer of views has nothing beside it. */
vortex_arrow_extra vortex_arrow_extra_of(const source *from)
{
    vortex_arrow_extra extra = {UINT64_MAX, 0, 0, 0};
    if (from->schema) {
        extra.null_count = (uint64_t)from->array->null_count; /* -1 is UINT64_MAX */
        extra.map = from->layout.is_map;
    }
    if (from->schema && from->array->dictionary) {
        extra.codes = from->layout.codes;
        extra.values = (uint64_t)from->array->dictionary->length;
    }
    return extra;
}

void vortex_arrow_drop_table(table *t)
{
    free(t->nodes);
    free(t->sources);
    free(t->ids);
}
