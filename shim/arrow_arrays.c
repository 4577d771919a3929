/* Arrays and schemas that the shim releases: who owns the memory, and what is shared. C99 and
 * C++11. */
#include "pages.h"

#include "internal.h"

#include <stdlib.h>
#include <string.h>

/* C99 has no atomic integers. gcc and clang, which the library is for, have these. */
#define COUNT_UP(count) ((void)__atomic_add_fetch(&(count), 1, __ATOMIC_RELAXED))
#define COUNT_DOWN(count) __atomic_sub_fetch(&(count), 1, __ATOMIC_ACQ_REL)

/* ---- Arrays ---- */

static void release_held(owner *o)
{
    size_t k;
    for (k = 0; k < o->n_held; k++) {
        if (o->held[k].release) {
            o->held[k].release(&o->held[k]);
        }
    }
}

/* Frees an owner that nothing counts on any more, and then each that it counted on. */
static void leave(owner *o)
{
    while (o && !COUNT_DOWN(o->count)) {
        owner *kept = o->kept;
        release_held(o);
        free(o);
        o = kept;
    }
}

static void release_array(struct ArrowArray *array)
{
    int64_t k;
    if (array->release != release_array) {
        return;
    }
    for (k = 0; k < array->n_children; k++) {
        if (array->children[k]->release) {
            array->children[k]->release(array->children[k]);
        }
    }
    if (array->dictionary && array->dictionary->release) {
        array->dictionary->release(array->dictionary);
    }
    array->release = NULL;
    leave(((part *)array->private_data)->of);
}

/* Allocates a block with room for so many parts, arrays and pointers to them, and bytes after them.
 * Returns 0 where memory runs out. */
int vortex_arrow_supply(supply *s, size_t parts, size_t arrays, uint64_t extra)
{
    size_t fixed = sizeof(owner) + parts * sizeof(part) +
        arrays * (sizeof(struct ArrowArray) + sizeof(void *));
    memset(s, 0, sizeof *s);
    s->of = (owner *)malloc(fixed + extra);
    if (!s->of) {
        return 0;
    }
    vortex_advise_pages(s->of, fixed + extra);
    memset(s->of, 0, sizeof *s->of);
    s->parts = (part *)(s->of + 1);
    s->arrays = (struct ArrowArray *)(s->parts + parts);
    s->pointers = (struct ArrowArray **)(s->arrays + arrays);
    s->buffers = (const void **)(s->pointers + arrays);
    return 1;
}

/* Makes an array one of the shim's, which counts on the owner of the supply. */
void vortex_arrow_own(supply *s, struct ArrowArray *array, const struct ArrowArray *shared,
    owner *root)
{
    s->parts->of = s->of;
    s->parts->shared = shared;
    s->parts->root = root;
    s->parts->lender = NULL;
    array->private_data = s->parts++;
    array->release = release_array;
    s->of->count++;
}

/* Returns the array that holds the data buffers of views that the shim took, or null. */
struct ArrowArray *vortex_arrow_lender(const struct ArrowArray *array)
{
    while (array && array->release == release_array) {
        const part *of = (const part *)array->private_data;
        if (of->lender) {
            return of->lender;
        }
        array = of->shared;
    }
    return NULL;
}

/* Returns how many arrays an array and its descendants are. `*left` is how many more the call may
 * visit. Returns 0 at a fault, and *status is its status. */
size_t vortex_arrow_arrays_in(const struct ArrowArray *array, int level, size_t *left,
    uint64_t *status)
{
    size_t count = 1;
    int64_t k;
    *status = level > VORTEX_ARROW_LEVELS || !*left ? VORTEX_ARROW_DEPTH : VORTEX_ARROW_SHAPE;
    if (*status == VORTEX_ARROW_DEPTH || !array || !array->release || array->n_children < 0 ||
        (array->n_children && !array->children)) {
        return 0;
    }
    --*left;
    for (k = -1; k < array->n_children; k++) {
        const struct ArrowArray *child = k < 0 ? array->dictionary : array->children[k];
        size_t more = k < 0 && !child ? 0 : vortex_arrow_arrays_in(child, level + 1, left, status);
        if (!more && (k >= 0 || child)) {
            return 0;
        }
        count += more;
    }
    *status = VORTEX_ARROW_DONE;
    return count;
}

/* ---- Sharing ---- */

/* Returns the part of an array that uses the memory of another, or null. */
static const part *part_of(const struct ArrowArray *array)
{
    const part *of = array->release == release_array ? (const part *)array->private_data : NULL;
    return of && of->shared ? of : NULL;
}

/* Whether an array and its descendants use memory that this owner holds: by their roots, or by what
 * their own owners keep. */
static int is_held_by(const struct ArrowArray *array, const owner *by, int is_root)
{
    const part *of = part_of(array);
    int is_held = of && (is_root ? of->root : of->of->kept) == by;
    int64_t k;
    if (is_held && array->dictionary) {
        is_held = is_held_by(array->dictionary, by, is_root);
    }
    for (k = 0; k < array->n_children && is_held; k++) {
        is_held = is_held_by(array->children[k], by, is_root);
    }
    return is_held;
}

/* Makes an array, and its descendants, of the same rows in the same memory as another. Its numbers
 * are those that the other has now, which may be a slice of what it was made of. */
static void mirror(supply *s, const struct ArrowArray *from, struct ArrowArray *to, owner *kept)
{
    const part *of = part_of(from);
    int64_t k;
    *to = *from;
    vortex_arrow_own(s, to, of ? of->shared : from, of ? of->root : kept);
    if (from->n_children) {
        to->children = s->pointers;
        s->pointers += from->n_children;
    }
    for (k = 0; k < from->n_children; k++) {
        to->children[k] = s->arrays++;
        mirror(s, from->children[k], to->children[k], kept);
    }
    if (from->dictionary) {
        to->dictionary = s->arrays++;
        mirror(s, from->dictionary, to->dictionary, kept);
    }
}

/* Makes *out an array of the same rows, in the memory that `kept` holds. */
static uint64_t mirrored(const struct ArrowArray *from, owner *kept, struct ArrowArray *out)
{
    supply s;
    uint64_t status;
    size_t left = VORTEX_ARROW_NODES, arrays = vortex_arrow_arrays_in(from, 1, &left, &status);
    if (status) {
        return status;
    }
    if (!vortex_arrow_supply(&s, arrays, arrays, 0)) {
        return VORTEX_ARROW_NO_MEMORY;
    }
    COUNT_UP(kept->count);
    s.of->kept = kept;
    mirror(&s, from, out, kept);
    return VORTEX_ARROW_DONE;
}

/* Shares an array that is counted already. It counts on the root if that holds all of it: so long
 * chains of shares and answers keep nothing in between. */
static uint64_t share_counted(const struct ArrowArray *array, struct ArrowArray *out)
{
    const part *of = part_of(array);
    owner *kept = of->of->kept;
    size_t left = VORTEX_ARROW_NODES;
    struct ArrowArray second;
    uint64_t status;
    if (!vortex_arrow_arrays_in(array, 1, &left, &status)) {
        return status;
    }
    if (is_held_by(array, of->root, 1)) {
        kept = of->root;
    } else if (!is_held_by(array, kept, 0)) {
        return VORTEX_ARROW_SHAPE; /* its holder put another child in */
    }
    status = mirrored(array, kept, &second);
    if (!status) {
        *out = second;
    }
    return status;
}

/* Moves an array to an owner, and replaces it by one that is counted. */
static uint64_t share_first(struct ArrowArray *array, struct ArrowArray *out)
{
    struct ArrowArray counted, second;
    supply s;
    uint64_t status;
    if (!vortex_arrow_supply(&s, 0, 1, 0)) {
        return VORTEX_ARROW_NO_MEMORY;
    }
    s.arrays[0] = *array;
    s.of->held = s.arrays;
    status = mirrored(s.arrays, s.of, &counted);
    if (status) {
        free(s.of);
        return status;
    }
    status = mirrored(s.arrays, s.of, &second);
    if (status) {
        counted.release(&counted); /* the owner holds nothing yet, so *array stays as it is */
        return status;
    }
    s.of->n_held = 1;
    *array = counted;
    *out = second;
    return VORTEX_ARROW_DONE;
}

uint64_t vortex_arrow_share(struct ArrowArray *array, struct ArrowArray *out)
{
    out->release = NULL;
    if (!array || !array->release) {
        return VORTEX_ARROW_SHAPE;
    }
    return part_of(array) ? share_counted(array, out) : share_first(array, out);
}

/* ---- Slices ---- */

/* Tests that a slice is within the rows. */
static uint64_t admit_range(uint64_t rows, uint64_t start, uint64_t end, vortex_arrow_error *error)
{
    vortex_arrow_answer broken = {VORTEX_ARROW_BROKEN, 0, VORTEX_ARROW_BAD_RANGE};
    vortex_arrow_step step;
    if (start <= end && end <= rows) {
        return VORTEX_ARROW_DONE;
    }
    memset(&step, 0, sizeof step);
    step.kind = VORTEX_ARROW_SLICE;
    step.start = start;
    step.end = end;
    vortex_arrow_explain(rows, &step, 1, broken, error);
    return error->status;
}

/* Tests the structs of a column and of what is below it, as a selection does. */
static uint64_t admit_structs(const struct ArrowSchema *schema, struct ArrowArray *array,
    vortex_arrow_error *error)
{
    table t;
    size_t left = VORTEX_ARROW_NODES;
    uint64_t status;
    memset(&t, 0, sizeof t);
    t.error = error;
    t.left = &left;
    status = vortex_arrow_walk(&t, schema, array, 1);
    status = status ? status : vortex_arrow_admit_dictionaries(&t);
    vortex_arrow_drop_table(&t);
    return status;
}

uint64_t vortex_arrow_slice(const struct ArrowSchema *schema, struct ArrowArray *array,
    uint64_t start, uint64_t end, struct ArrowArray *out, vortex_arrow_error *error)
{
    vortex_arrow_error unread;
    uint64_t status;
    error = error ? error : &unread;
    memset(error, 0, sizeof *error);
    out->release = NULL;
    if (vortex_arrow_admit(schema, array, error) ||
        admit_range((uint64_t)array->length, start, end, error) ||
        admit_structs(schema, array, error)) {
        return error->status;
    }
    status = vortex_arrow_share(array, out);
    if (status) {
        return vortex_arrow_fault(error, status, "");
    }
    out->offset += (int64_t)start;
    out->length = (int64_t)(end - start);
    if (!strcmp(schema->format, "n")) {
        out->null_count = out->length;
    } else if (out->null_count) {
        out->null_count = -1;
    }
    return VORTEX_ARROW_DONE;
}

/* ---- Schemas ---- */

static void release_schema(struct ArrowSchema *schema)
{
    int64_t k;
    if (schema->release != release_schema) {
        return;
    }
    for (k = 0; k < schema->n_children; k++) {
        if (schema->children[k]->release) {
            schema->children[k]->release(schema->children[k]);
        }
    }
    if (schema->dictionary && schema->dictionary->release) {
        schema->dictionary->release(schema->dictionary);
    }
    schema->release = NULL;
    free(schema->private_data);
}

/* Reads an integer of metadata, which is in native order and needn't be aligned. */
static int32_t metadata_number(const char *metadata, size_t at)
{
    int32_t number;
    memcpy(&number, metadata + at, sizeof number);
    return number;
}

/* Returns how many bytes metadata has: a count of pairs, and before each string its length. Returns
 * SIZE_MAX where one of these is negative. */
static size_t metadata_size(const char *metadata)
{
    int64_t pairs = metadata ? metadata_number(metadata, 0) : 0, k;
    size_t size = metadata ? sizeof(int32_t) : 0;
    if (pairs < 0) {
        return SIZE_MAX;
    }
    for (k = 0; k < 2 * pairs; k++) {
        int32_t len = metadata_number(metadata, size);
        if (len < 0) {
            return SIZE_MAX;
        }
        size += sizeof len + (size_t)len;
    }
    return size;
}

static const char *copy_text(char **at, const char *text, size_t size)
{
    char *copy = *at;
    if (!text) {
        return NULL;
    }
    memcpy(copy, text, size);
    *at += size;
    return copy;
}

/* Sets the pointers of a copy to its children and its dictionary. */
static void link_below(const struct ArrowSchema *from, struct ArrowSchema *to,
    struct ArrowSchema *below, struct ArrowSchema **pointers)
{
    int64_t k;
    to->children = from->n_children ? pointers : NULL;
    for (k = 0; k < from->n_children; k++) {
        pointers[k] = below + k;
    }
    to->dictionary = from->dictionary ? below + from->n_children : NULL;
}

/* Copies a schema. Its block has room for its children and its dictionary, which aren't copied. */
static uint64_t copy_node(const struct ArrowSchema *from, struct ArrowSchema *to)
{
    size_t below = (size_t)from->n_children + (from->dictionary != NULL);
    size_t metadata = metadata_size(from->metadata), format = strlen(from->format) + 1;
    size_t name = from->name ? strlen(from->name) + 1 : 0;
    size_t each = sizeof(struct ArrowSchema) + sizeof(struct ArrowSchema *);
    struct ArrowSchema *schemas;
    char *text;
    if (metadata == SIZE_MAX) {
        return VORTEX_ARROW_SHAPE;
    }
    schemas = (struct ArrowSchema *)calloc(1, below * each + metadata + format + name);
    if (!schemas) {
        return VORTEX_ARROW_NO_MEMORY;
    }
    text = (char *)schemas + below * each;
    *to = *from;
    to->private_data = schemas;
    to->release = release_schema;
    to->metadata = copy_text(&text, from->metadata, metadata);
    to->format = copy_text(&text, from->format, format);
    to->name = copy_text(&text, from->name, name);
    link_below(from, to, schemas, (struct ArrowSchema **)(schemas + below));
    return VORTEX_ARROW_DONE;
}

static uint64_t copy_schema(const struct ArrowSchema *from, struct ArrowSchema *to, int level,
    size_t *left)
{
    uint64_t status;
    int64_t k;
    if (level > VORTEX_ARROW_LEVELS || !*left) {
        return VORTEX_ARROW_DEPTH;
    }
    if (!from || !from->release || !from->format || from->n_children < 0 ||
        (from->n_children && !from->children)) {
        return VORTEX_ARROW_SHAPE;
    }
    --*left;
    if ((uint64_t)from->n_children > *left) {
        return VORTEX_ARROW_DEPTH;
    }
    status = copy_node(from, to);
    for (k = 0; k < from->n_children && !status; k++) {
        status = copy_schema(from->children[k], to->children[k], level + 1, left);
    }
    return status || !from->dictionary ? status
        : copy_schema(from->dictionary, to->dictionary, level + 1, left);
}

uint64_t vortex_arrow_copy_schema(const struct ArrowSchema *schema, struct ArrowSchema *out)
{
    struct ArrowSchema copy;
    size_t left = VORTEX_ARROW_NODES;
    uint64_t status;
    memset(&copy, 0, sizeof copy);
    status = copy_schema(schema, &copy, 1, &left);
    if (status && copy.release) {
        copy.release(&copy);
    }
    *out = copy;
    return status;
}
