/* What an error says: its words, and the names that lead to the column. C99 and C++11. */
#include "internal.h"

#include <stdio.h>
#include <string.h>

#define DIGITS_OF(number) #number
#define DIGITS(number) DIGITS_OF(number)

static const char *words_of(uint64_t status)
{
    switch (status) {
    case VORTEX_ARROW_NO_MEANING: return "expected a valid column, got another";
    case VORTEX_ARROW_BEYOND: return "expected selected rows within the rows, got one past them";
    case VORTEX_ARROW_ROOM: return "expected a longer output buffer";
    case VORTEX_ARROW_OVERFLOW: return "expected offsets up to 2^31 - 1, got a higher one";
    case VORTEX_ARROW_NO_MEMORY: return "out of memory";
    case VORTEX_ARROW_BROKEN: return "an invalid step";
    case VORTEX_ARROW_LACKING: return "a malformed step";
    case VORTEX_ARROW_FORMAT: return "unknown format";
    case VORTEX_ARROW_NULL_PICK: return "expected no null of a union, got one";
    case VORTEX_ARROW_UNLIKE: return "expected columns of one type and dictionary, got others";
    case VORTEX_ARROW_SHAPE:
        return "expected what the format has, got another or a released struct";
    case VORTEX_ARROW_DEPTH: return "expected at most " DIGITS(VORTEX_ARROW_LEVELS)
        " levels and " DIGITS(VORTEX_ARROW_NODES) " columns, got more";
    case VORTEX_ARROW_SOURCE: return "the source stream failed";
    default: return "";
    }
}

/* The words for what an invalid node lacks. */
static const char *words_of_lack(const vortex_arrow_node *node, uint64_t lack)
{
    switch (lack) {
    case VORTEX_ARROW_LACKS_ROWS: return "expected a row number below 2^60, got a higher one";
    case VORTEX_ARROW_LACKS_VALID: return "expected a bit for each row, got fewer";
    case VORTEX_ARROW_LACKS_VALUES: return "expected values for all rows, got fewer";
    case VORTEX_ARROW_LACKS_OFFSETS: return "expected an offset for each row, got fewer";
    case VORTEX_ARROW_LACKS_ITEMS: return vortex_arrow_has_views(node)
        ? "expected views within the data buffers, got one outside of them"
        : "expected offsets that ascend within the child or data, got others";
    case VORTEX_ARROW_LACKS_LENGTH: return "expected as many rows as the parent needs, got fewer";
    case VORTEX_ARROW_LACKS_SIZES: return "expected a size for each row, got fewer";
    case VORTEX_ARROW_LACKS_ID: return "expected the type id of a child, got another";
    case VORTEX_ARROW_LACKS_CODES: return "expected codes within the dictionary, got another";
    case VORTEX_ARROW_LACKS_NULL_COUNT: return "expected -1 or the number of nulls, got another";
    case VORTEX_ARROW_LACKS_MAP:
        return "expected entries of two fields without null keys, got others";
    case VORTEX_ARROW_LACKS_VIEWS:
        return "expected zeros after a short string and the prefix of a long one, got others";
    case VORTEX_ARROW_LACKS_LIST_VIEWS: return "expected views within the child, got one outside";
    case VORTEX_ARROW_LACKS_DENSE: return "expected offsets that ascend in each child, got others";
    default: return "expected as many children as the format has, got others";
    }
}

static uint64_t fault_with(vortex_arrow_error *error, uint64_t status, const char *place,
    const char *text)
{
    error->status = status;
    snprintf(error->place, sizeof error->place, "%s", place);
    snprintf(error->text, sizeof error->text, "%s%s%s", place, *place ? ": " : "", text);
    return status;
}

uint64_t vortex_arrow_fault(vortex_arrow_error *error, uint64_t status, const char *place)
{
    return fault_with(error, status, place, words_of(status));
}

/* ---- Places ---- */

typedef struct way {
    char text[sizeof ((vortex_arrow_error *)0)->place];
    size_t used; /* not less than the size of `text` where that is full */
} way;

static void add_name(way *w, const char *name)
{
    if (*name && w->used < sizeof w->text) {
        w->used += (size_t)snprintf(w->text + w->used, sizeof w->text - w->used,
            w->used ? ".%s" : "%s", name);
    }
}

/* Adds the names of a table's columns from the first one to a node. */
static void add_names(way *w, const table *t, size_t node)
{
    const struct ArrowSchema *schema = node < t->len ? t->sources[node].schema : NULL;
    if (node >= t->len) {
        return;
    }
    add_names(w, t, t->sources[node].parent);
    add_name(w, schema && schema->name ? schema->name : "");
}

static void add_way(way *w, const table *t, size_t node)
{
    if (t->outer) {
        add_way(w, t->outer, t->outer_node);
        add_name(w, "dictionary");
    }
    add_names(w, t, node);
}

/* The names that lead to a node, and `part` after them. */
static way way_to(const table *t, size_t node, const char *part)
{
    way w = {"", 0};
    add_way(&w, t, node);
    if (w.used < sizeof w.text) {
        snprintf(w.text + w.used, sizeof w.text - w.used, w.used && *part ? " %s" : "%s", part);
    }
    return w;
}

/* A fault of a node. Its place is the names that lead to the node, and `part` after them. */
uint64_t vortex_arrow_fault_at(const table *t, uint64_t status, size_t node, const char *part)
{
    way w = way_to(t, node, part);
    return vortex_arrow_fault(t->error, status, w.text);
}

/* The part of a node that is invalid, by the library's number for it. */
static const char *part_of(const vortex_arrow_node *node, uint64_t lack)
{
    int is_union = vortex_arrow_is_union(node), has_views = vortex_arrow_has_views(node);
    switch (lack) {
    case VORTEX_ARROW_LACKS_TREE: return "children";
    case VORTEX_ARROW_LACKS_ROWS: return "length";
    case VORTEX_ARROW_LACKS_VALID: return "validity";
    case VORTEX_ARROW_LACKS_CHILDREN: return "children";
    case VORTEX_ARROW_LACKS_VALUES: return has_views ? "views" : is_union ? "type ids" : "values";
    case VORTEX_ARROW_LACKS_OFFSETS: return "offsets";
    case VORTEX_ARROW_LACKS_ITEMS: return has_views ? "views" : "offsets";
    case VORTEX_ARROW_LACKS_LENGTH: return "length";
    case VORTEX_ARROW_LACKS_SIZES: return "sizes";
    case VORTEX_ARROW_LACKS_ID: return "type ids";
    case VORTEX_ARROW_LACKS_CODES: return "dictionary codes";
    case VORTEX_ARROW_LACKS_NULL_COUNT: return "null count";
    case VORTEX_ARROW_LACKS_MAP: return "entries";
    case VORTEX_ARROW_LACKS_VIEWS: return "views";
    case VORTEX_ARROW_LACKS_LIST_VIEWS: return "offsets";
    case VORTEX_ARROW_LACKS_DENSE: return "offsets";
    default: return "";
    }
}

/* A fault that the library found at a node. Its formats are known, since the shim wrote them. */
uint64_t vortex_arrow_fault_of_node(const table *t, vortex_arrow_answer answer)
{
    size_t node = answer.node_or_step < t->len ? answer.node_or_step : VORTEX_NO_NODE;
    if (node != VORTEX_NO_NODE && !t->sources[node].schema) {
        /* What a data buffer lacks, views ask for. */
        answer.what = VORTEX_ARROW_LACKS_ITEMS;
        node = t->sources[node].parent;
    }
    t->error->cause = answer.what;
    if (answer.status == VORTEX_ARROW_NO_MEANING && node != VORTEX_NO_NODE) {
        way w = way_to(t, node, part_of(&t->nodes[node], answer.what));
        return fault_with(t->error, answer.status, w.text,
            words_of_lack(&t->nodes[node], answer.what));
    }
    return vortex_arrow_fault_at(t, answer.status, node, "");
}
