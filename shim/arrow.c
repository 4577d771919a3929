/* Row selection over columns of Arrow's C Data Interface. Calls libvortex_arrow_c.a. C99 and
 * C++11. */
#include "internal.h"

#include <stdlib.h>
#include <string.h>

uint32_t vortex_arrow_version(void) { return VORTEX_ARROW_VERSION; }

/* ---- Picks ---- */

/* Returns how much room the picks need. A take at the end leaves as many as it has indices, so the
 * library needn't read these to count them. It tests them in any case when it selects. */
vortex_arrow_answer vortex_arrow_count_picks(uint64_t len, const vortex_arrow_step *steps,
    size_t n_steps, vortex_arrow_picks_need *need)
{
    const vortex_arrow_step *last = n_steps ? &steps[n_steps - 1] : NULL;
    vortex_arrow_answer done = {VORTEX_ARROW_DONE, 0, 0};
    if (!last || last->kind != VORTEX_ARROW_TAKE || last->len > last->values.len) {
        return vortex_arrow_count(len, steps, n_steps, need);
    }
    need->places = last->len;
    if (vortex_arrow_leaves_nulls(steps, n_steps)) {
        need->valid = last->len / 8 + (last->len % 8 != 0);
    }
    return done;
}

/* Whether a take may leave nulls, so that the answer is nullable. */
int vortex_arrow_leaves_nulls(const vortex_arrow_step *steps, size_t n_steps)
{
    size_t k;
    for (k = 0; k < n_steps; k++) {
        if (steps[k].kind == VORTEX_ARROW_TAKE && steps[k].valid.len) {
            return 1;
        }
    }
    return 0;
}

/* ---- Dictionaries ---- */

/* Whether the dictionaries of a table can be shared with the answer. */
uint64_t vortex_arrow_admit_dictionaries(const table *t)
{
    size_t k;
    for (k = 0; k < t->len; k++) {
        const struct ArrowArray *shared = t->sources[k].schema
            ? t->sources[k].array->dictionary : NULL;
        uint64_t status = VORTEX_ARROW_DONE;
        if (shared) {
            vortex_arrow_arrays_in(shared, t->sources[k].level + 1, t->left, &status);
            status = !status && shared->length < 0 ? (uint64_t)VORTEX_ARROW_SHAPE : status;
        }
        if (status) {
            return vortex_arrow_fault_at(t, status, k, "dictionary");
        }
    }
    return VORTEX_ARROW_DONE;
}

static uint64_t check_column(const table *outer, size_t node, const struct ArrowSchema *schema,
    struct ArrowArray *array, size_t *left, vortex_arrow_error *error);

/* Checks the dictionary of a node, if it has one. */
static uint64_t check_dictionary(const table *t, size_t node)
{
    const source *from = &t->sources[node];
    if (!from->schema || !from->array->dictionary) {
        return VORTEX_ARROW_DONE;
    }
    return check_column(t, node, from->schema->dictionary, from->array->dictionary, t->left,
        t->error);
}

/* Tests the rules that Arrow's full validators add, once each dictionary has a length. */
static uint64_t check_strict(const table *t)
{
    vortex_arrow_extra *extras = (vortex_arrow_extra *)calloc(t->len, sizeof *extras);
    vortex_arrow_answer answer = {VORTEX_ARROW_NO_MEMORY, VORTEX_NO_NODE, 0};
    size_t k;
    for (k = 0; k < t->len && extras; k++) {
        extras[k] = vortex_arrow_extra_of(&t->sources[k]);
    }
    if (extras) {
        answer = vortex_arrow_check_strict(t->nodes, t->len, extras, t->len);
    }
    free(extras);
    return answer.status ? vortex_arrow_fault_of_node(t, answer) : answer.status;
}

static uint64_t check_table(const table *t)
{
    vortex_arrow_answer answer = vortex_arrow_check(t->nodes, t->len);
    uint64_t status = answer.status ? vortex_arrow_fault_of_node(t, answer) : answer.status;
    size_t k;
    for (k = 0; k < t->len && !status; k++) {
        status = check_dictionary(t, k);
    }
    return status ? status : check_strict(t);
}

/* Checks a column, which may be the dictionary of a node in an outer table. */
static uint64_t check_column(const table *outer, size_t node, const struct ArrowSchema *schema,
    struct ArrowArray *array, size_t *left, vortex_arrow_error *error)
{
    table t;
    uint64_t status;
    memset(&t, 0, sizeof t);
    t.error = error;
    t.left = left;
    t.outer = outer;
    t.outer_node = node;
    status = vortex_arrow_walk(&t, schema, array, outer ? outer->sources[node].level + 1 : 1);
    status = status ? status : check_table(&t);
    vortex_arrow_drop_table(&t);
    return status;
}

/* ---- The calls ---- */

/* Makes an array of the rows that the steps select. An invalid step is reported before any other
 * fault, so the steps are tested where the structs have one. */
uint64_t vortex_arrow_select_rows(const struct ArrowSchema *schema, struct ArrowArray *array,
    const vortex_arrow_step *steps, size_t n_steps, struct ArrowArray *out,
    vortex_arrow_error *error)
{
    vortex_arrow_rows rows = {NULL, 0, NULL, NULL, 0};
    vortex_arrow_picks_need need = {0, 0};
    vortex_arrow_answer answer = {VORTEX_ARROW_DONE, 0, 0};
    size_t left = VORTEX_ARROW_NODES;
    table t;
    rows.steps = steps;
    rows.n_steps = n_steps;
    memset(error, 0, sizeof *error);
    memset(&t, 0, sizeof t);
    t.error = error;
    t.left = &left;
    if (vortex_arrow_walk(&t, schema, array, 1) || vortex_arrow_admit_dictionaries(&t)) {
        answer = vortex_arrow_count((uint64_t)array->length, steps, n_steps, &need);
    } else {
        answer = vortex_arrow_answer_rows(&t, &rows, out);
    }
    if (answer.status == VORTEX_ARROW_BROKEN || answer.status == VORTEX_ARROW_LACKING) {
        vortex_arrow_explain((uint64_t)array->length, steps, n_steps, answer, error);
    } else if (answer.status) {
        vortex_arrow_fault_of_node(&t, answer);
    }
    vortex_arrow_drop_table(&t);
    return error->status;
}

uint64_t vortex_arrow_check_array(const struct ArrowSchema *schema, struct ArrowArray *array,
    vortex_arrow_error *error)
{
    vortex_arrow_error unread;
    size_t left = VORTEX_ARROW_NODES;
    error = error ? error : &unread;
    memset(error, 0, sizeof *error);
    return check_column(NULL, VORTEX_NO_NODE, schema, array, &left, error);
}

/* Tests what is read of the two structs before the steps are composed. */
uint64_t vortex_arrow_admit(const struct ArrowSchema *schema, const struct ArrowArray *array,
    vortex_arrow_error *error)
{
    if (!schema || !array || !schema->release || !array->release) {
        return vortex_arrow_fault(error, VORTEX_ARROW_SHAPE, "release");
    }
    return array->length < 0 ? vortex_arrow_fault(error, VORTEX_ARROW_SHAPE, "length")
        : (uint64_t)VORTEX_ARROW_DONE;
}

/* Makes the schema of the answer, if that is asked for. */
static uint64_t answer_schema(const struct ArrowSchema *schema, const vortex_arrow_step *steps,
    size_t n_steps, struct ArrowSchema *out, vortex_arrow_error *error)
{
    uint64_t status = out ? vortex_arrow_copy_schema(schema, out) : (uint64_t)VORTEX_ARROW_DONE;
    if (status) {
        return vortex_arrow_fault(error, status, "schema");
    }
    if (out && vortex_arrow_leaves_nulls(steps, n_steps)) {
        out->flags |= ARROW_FLAG_NULLABLE;
    }
    return status;
}

uint64_t vortex_select_arrow(const struct ArrowSchema *schema, struct ArrowArray *array,
    const vortex_arrow_step *steps, size_t n_steps, struct ArrowSchema *out_schema,
    struct ArrowArray *out_array, vortex_arrow_error *error)
{
    vortex_arrow_error unread;
    error = error ? error : &unread;
    memset(error, 0, sizeof *error);
    out_array->release = NULL;
    if (out_schema) {
        out_schema->release = NULL;
    }
    if (vortex_arrow_admit(schema, array, error) ||
        vortex_arrow_select_rows(schema, array, steps, n_steps, out_array, error)) {
        return error->status;
    }
    if (answer_schema(schema, steps, n_steps, out_schema, error)) {
        out_array->release(out_array);
    }
    return error->status;
}
