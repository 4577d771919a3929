/* Row selection over the batches of an Arrow stream, as if they were one column. C99 and C++11. */
#include "pages.h"

#include "internal.h"

#include <errno.h>
#include <stdio.h>
#include <stdlib.h>
#include <string.h>

/* The private data of a stream of the shim. */
typedef struct selected {
    struct ArrowSchema schema;
    struct ArrowArray *batches;
    uint64_t *starts; /* the number of each batch's first row, and the number of all rows */
    size_t n_batches;
    uint64_t *places; /* the rows that the steps select, and then their validity bits */
    uint8_t *valid;   /* null where no row may be null */
    size_t n_places;
    size_t next;   /* the first place that isn't returned yet */
    int was_given; /* whether a batch was returned */
    vortex_arrow_error error;
} selected;

static void drop(selected *s)
{
    size_t k;
    for (k = 0; k < s->n_batches; k++) {
        s->batches[k].release(&s->batches[k]);
    }
    if (s->schema.release) {
        s->schema.release(&s->schema);
    }
    free(s->batches);
    free(s->starts);
    free(s->places);
    free(s);
}

static int code_of(uint64_t status)
{
    return status == VORTEX_ARROW_DONE ? 0 : status == VORTEX_ARROW_NO_MEMORY ? ENOMEM
        : status == VORTEX_ARROW_OVERFLOW ? EOVERFLOW : EINVAL;
}

static int get_schema(struct ArrowArrayStream *stream, struct ArrowSchema *out)
{
    selected *s = (selected *)stream->private_data;
    uint64_t status = vortex_arrow_copy_schema(&s->schema, out);
    return status ? code_of(vortex_arrow_fault(&s->error, status, "schema")) : 0;
}

static int is_there(const selected *s, size_t k)
{
    return !s->valid || (s->valid[k / 8] >> k % 8 & 1);
}

/* Returns the batch that a row is in. */
static size_t batch_of(const selected *s, uint64_t row)
{
    size_t low = 0, high = s->n_batches;
    while (low + 1 < high) {
        size_t middle = low + (high - low) / 2;
        if (s->starts[middle] <= row) {
            low = middle;
        } else {
            high = middle;
        }
    }
    return low;
}

/* Returns the first place from `k` on that isn't null. */
static size_t first_there(const selected *s, size_t k)
{
    while (k < s->n_places && !is_there(s, k)) {
        k++;
    }
    return k;
}

/* Returns how many places from `next` on are null or of one batch, which is *batch. */
static size_t run_of(const selected *s, size_t *batch)
{
    size_t k, len = s->n_places, first = first_there(s, s->next);
    *batch = first < len ? batch_of(s, s->places[first]) : 0;
    for (k = first; k < len; k++) {
        uint64_t place = s->places[k];
        if (is_there(s, k) && (place < s->starts[*batch] || place >= s->starts[*batch + 1])) {
            break;
        }
    }
    return k - s->next;
}

/* Makes a take of a run of places, numbered within their batch. Returns its block of memory, or null
 * where memory runs out. */
static void *cut(const selected *s, size_t batch, size_t len, vortex_arrow_step *take)
{
    size_t k, n_valid = s->valid ? len / 8 + 1 : 0;
    uint64_t *places = (uint64_t *)calloc(1, 8 * len + n_valid + 8);
    uint8_t *valid;
    memset(take, 0, sizeof *take);
    if (!places) {
        return NULL;
    }
    valid = (uint8_t *)(places + len);
    for (k = 0; k < len; k++) {
        int there = is_there(s, s->next + k);
        places[k] = there ? s->places[s->next + k] - s->starts[batch] : 0;
        if (n_valid) {
            valid[k / 8] |= (uint8_t)(there << k % 8);
        }
    }
    take->kind = VORTEX_ARROW_TAKE;
    take->ptype = VORTEX_ARROW_U64;
    take->len = len;
    take->values.data = (const uint8_t *)places;
    take->values.len = 8 * len;
    take->valid.data = valid;
    take->valid.len = n_valid;
    return places;
}

static int get_next(struct ArrowArrayStream *stream, struct ArrowArray *out)
{
    selected *s = (selected *)stream->private_data;
    vortex_arrow_step take;
    size_t batch, len = run_of(s, &batch);
    uint64_t status;
    void *block;
    memset(out, 0, sizeof *out);
    if (!len && (s->was_given || !s->n_batches)) {
        return 0;
    }
    if (!s->n_batches) {
        return code_of(vortex_arrow_fault(&s->error, VORTEX_ARROW_SHAPE, "no batch for nulls"));
    }
    block = cut(s, batch, len, &take);
    if (!block) {
        return code_of(vortex_arrow_fault(&s->error, VORTEX_ARROW_NO_MEMORY, ""));
    }
    status = vortex_arrow_select_rows(&s->schema, &s->batches[batch], &take, 1, out, &s->error);
    free(block);
    if (status) {
        out->release = NULL;
        return code_of(status);
    }
    s->next += len;
    s->was_given = 1;
    return 0;
}

static const char *get_last_error(struct ArrowArrayStream *stream)
{
    const selected *s = (const selected *)stream->private_data;
    return s->error.status ? s->error.text : NULL;
}

static void release_stream(struct ArrowArrayStream *stream)
{
    if (stream->release == release_stream) {
        drop((selected *)stream->private_data);
        stream->release = NULL;
    }
}

static uint64_t source_fault(struct ArrowArrayStream *source, vortex_arrow_error *error)
{
    const char *said = source->get_last_error(source);
    vortex_arrow_fault(error, VORTEX_ARROW_SOURCE, "");
    if (said) {
        snprintf(error->text, sizeof error->text, "the source stream failed: %s", said);
    }
    return VORTEX_ARROW_SOURCE;
}

/* Makes room for one more batch. There is room up to the next power of two. */
static int has_room(selected *s)
{
    size_t room = s->n_batches ? 2 * s->n_batches : 1;
    void *batches, *starts;
    if (s->n_batches & (s->n_batches - 1)) {
        return 1;
    }
    batches = realloc(s->batches, room * sizeof *s->batches);
    s->batches = batches ? (struct ArrowArray *)batches : s->batches;
    starts = realloc(s->starts, (room + 1) * sizeof *s->starts);
    s->starts = starts ? (uint64_t *)starts : s->starts;
    return batches && starts;
}

/* Appends a batch, or releases it at a fault. */
static uint64_t add_batch(selected *s, struct ArrowArray *batch, vortex_arrow_error *error)
{
    uint64_t rows = s->n_batches ? s->starts[s->n_batches] : 0;
    if (batch->length < 0 || batch->length > INT64_MAX - (int64_t)rows) {
        batch->release(batch);
        return vortex_arrow_fault(error, VORTEX_ARROW_SHAPE, "length");
    }
    if (!has_room(s)) {
        batch->release(batch);
        return vortex_arrow_fault(error, VORTEX_ARROW_NO_MEMORY, "");
    }
    s->starts[s->n_batches] = rows;
    s->batches[s->n_batches++] = *batch;
    s->starts[s->n_batches] = rows + (uint64_t)batch->length;
    return VORTEX_ARROW_DONE;
}

/* Reads the schema of the source. */
static uint64_t read_schema(struct ArrowArrayStream *source, selected *s, vortex_arrow_error *error)
{
    if (source->get_schema(source, &s->schema)) {
        s->schema.release = NULL;
        return source_fault(source, error);
    }
    return s->schema.release ? (uint64_t)VORTEX_ARROW_DONE
        : vortex_arrow_fault(error, VORTEX_ARROW_SHAPE, "schema");
}

/* Reads the batches of the source. */
static uint64_t read_batches(struct ArrowArrayStream *source, selected *s,
    vortex_arrow_error *error)
{
    uint64_t status = VORTEX_ARROW_DONE;
    while (!status) {
        struct ArrowArray batch;
        batch.release = NULL;
        if (source->get_next(source, &batch)) {
            return source_fault(source, error);
        }
        if (!batch.release) {
            break;
        }
        status = add_batch(s, &batch, error);
    }
    return status;
}

/* Composes the steps over the rows of all batches. */
static vortex_arrow_answer compose(selected *s, uint64_t rows, const vortex_arrow_step *steps,
    size_t n_steps)
{
    vortex_arrow_picks_need need = {0, 0};
    vortex_arrow_answer answer = vortex_arrow_count_picks(rows, steps, n_steps, &need);
    if (answer.status) {
        return answer;
    }
    answer.status = VORTEX_ARROW_NO_MEMORY;
    if (need.places < SIZE_MAX / 16) {
        size_t size = 8 * need.places + need.valid + 8;
        s->places = (uint64_t *)malloc(size);
        vortex_advise_pages(s->places, size);
    }
    if (!s->places) {
        return answer;
    }
    s->n_places = need.places;
    s->valid = need.valid ? (uint8_t *)(s->places + need.places) : NULL;
    memset(s->places + need.places, 0xff, need.valid); /* compose clears the bits of nulls */
    return vortex_arrow_compose(rows, steps, n_steps, s->places, need.places,
        (uint8_t *)(s->places + need.places), need.valid);
}

/* Reads the source to its end, and composes the steps over its rows. */
static uint64_t read_all(struct ArrowArrayStream *source, const vortex_arrow_step *steps,
    size_t n_steps, selected *s, vortex_arrow_error *error)
{
    uint64_t rows;
    vortex_arrow_answer answer;
    if (!source || !source->release) {
        return vortex_arrow_fault(error, VORTEX_ARROW_SHAPE, "release");
    }
    if (read_schema(source, s, error) || read_batches(source, s, error)) {
        return error->status;
    }
    rows = s->n_batches ? s->starts[s->n_batches] : 0;
    answer = compose(s, rows, steps, n_steps);
    if (answer.status) {
        vortex_arrow_explain(rows, steps, n_steps, answer, error);
    }
    return answer.status;
}

uint64_t vortex_select_arrow_stream(struct ArrowArrayStream *source, const vortex_arrow_step *steps,
    size_t n_steps, struct ArrowArrayStream *out, vortex_arrow_error *error)
{
    static const struct ArrowArrayStream calls = {get_schema, get_next, get_last_error,
        release_stream, NULL};
    selected *s = (selected *)calloc(1, sizeof *s);
    vortex_arrow_error unread;
    uint64_t status;
    error = error ? error : &unread;
    memset(error, 0, sizeof *error);
    out->release = NULL;
    if (!s) {
        return vortex_arrow_fault(error, VORTEX_ARROW_NO_MEMORY, "");
    }
    status = read_all(source, steps, n_steps, s, error);
    if (status) {
        drop(s);
        return status;
    }
    if (vortex_arrow_leaves_nulls(steps, n_steps)) {
        s->schema.flags |= ARROW_FLAG_NULLABLE;
    }
    *out = calls;
    out->private_data = s;
    return VORTEX_ARROW_DONE;
}
