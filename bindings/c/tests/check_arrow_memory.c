/* Has each allocation of each call fail in turn: the status is NO_MEMORY, nothing is left, and the
 * source is as it was. Prints `c: N passed, M failed`. The linker puts the functions below in place
 * of malloc and its like: -Wl,--wrap=malloc,--wrap=calloc,--wrap=realloc,--wrap=free. */
#include <errno.h>

#include "made_arrow.h"
#include "random_arrow.h"

void *__real_malloc(size_t size);
void *__real_calloc(size_t count, size_t size);
void *__real_realloc(void *place, size_t size);
void __real_free(void *place);
void *__wrap_malloc(size_t size);
void *__wrap_calloc(size_t count, size_t size);
void *__wrap_realloc(void *place, size_t size);
void __wrap_free(void *place);

static long until = -1; /* how many more allocations succeed before one fails; -1: all do */
static long blocks;     /* that are allocated */

static int is_refused(void)
{
    if (until < 0) {
        return 0;
    }
    return until-- == 0;
}

static void *counted(void *place)
{
    blocks += place != NULL;
    return place;
}

void *__wrap_malloc(size_t size) { return is_refused() ? NULL : counted(__real_malloc(size)); }

void *__wrap_calloc(size_t count, size_t size)
{
    return is_refused() ? NULL : counted(__real_calloc(count, size));
}

void *__wrap_realloc(void *place, size_t size)
{
    if (is_refused()) {
        return NULL;
    }
    return place ? __real_realloc(place, size) : counted(__real_realloc(place, size));
}

void __wrap_free(void *place)
{
    blocks -= place != NULL;
    __real_free(place);
}

/* Begins a call whose allocation number `n` fails, and ends it. */
static void fail_at(long n) { until = n; }

/* Whether the allocation failed: it did unless fewer were made. */
static int has_failed(void)
{
    int has = until < 0;
    until = -1;
    return has;
}

static char *rows_of(const struct ArrowSchema *schema, const struct ArrowArray *array)
{
    text t = {NULL, 0, 0};
    int64_t k;
    say(&t, "%s", "");
    for (k = 0; k < array->length; k++) {
        say_row(&t, schema, array, k);
        say(&t, ";");
    }
    return t.data;
}

/* ---- Select ---- */

/* Expects the same rows as before, if there were some, and returns them. */
static char *expect_same(char *before, struct ArrowSchema *schema, struct ArrowArray *array,
    uint64_t seed)
{
    char *now = rows_of(schema, array);
    expect(!before || !strcmp(now, before), "the same answer", seed);
    array->release(array);
    schema->release(schema);
    free(before);
    return now;
}

/* An allocation that fails has the call fail, or take a longer way to the same answer. */
static void select_at(const struct ArrowSchema *schema, struct ArrowArray *array, const char *rows,
    const vortex_arrow_step *steps, size_t n_steps, uint64_t seed)
{
    struct ArrowSchema out_schema;
    struct ArrowArray out;
    vortex_arrow_error error;
    uint64_t status = VORTEX_ARROW_NO_MEMORY;
    char *answer = NULL;
    int has = 1;
    long n;
    for (n = 0; has; n++) {
        char *now;
        fail_at(n);
        status = vortex_select_arrow(schema, array, steps, n_steps, &out_schema, &out, &error);
        has = has_failed();
        expect(!has || status == VORTEX_ARROW_NO_MEMORY || status == VORTEX_ARROW_NULL_PICK ||
            !status, "no memory", seed);
        expect(!status || (!out.release && !out_schema.release), "no answer", seed);
        expect(status != VORTEX_ARROW_NO_MEMORY || strstr(error.text, "out of memory"),
            "its words", seed);
        answer = status ? answer : expect_same(answer, &out_schema, &out, seed);
        now = rows_of(schema, array);
        expect(!strcmp(now, rows), "the source stays", seed);
        free(now);
    }
    expect(status == VORTEX_ARROW_DONE || status == VORTEX_ARROW_NULL_PICK, "it ends", seed);
    free(answer);
}

/* Selects from a random column: all of it, by a take with a null, and by a filter of that. */
static void select_round(uint64_t seed)
{
    static const uint8_t valid[] = {0x02}, mask[] = {0x03};
    static const uint64_t indices[] = {0, 0};
    vortex_arrow_step steps[2];
    struct ArrowSchema schema;
    struct ArrowArray array;
    long before = blocks;
    char *rows;
    reseed(seed);
    steps[0] = take_of(indices, 2, valid);
    steps[1] = take_of(NULL, 2, NULL);
    steps[1].kind = VORTEX_ARROW_FILTER;
    steps[1].values.data = mask;
    steps[1].values.len = sizeof mask;
    random_column(&schema, &array, 3);
    rows = rows_of(&schema, &array);
    select_at(&schema, &array, rows, NULL, 0, seed);
    if (array.length) {
        select_at(&schema, &array, rows, steps, 1, seed);
        select_at(&schema, &array, rows, steps, 2, seed);
    }
    free(rows);
    array.release(&array);
    schema.release(&schema);
    expect(blocks == before, "nothing is left", seed);
}

/* ---- Other calls ---- */

static void check_round(uint64_t seed)
{
    struct ArrowSchema schema;
    struct ArrowArray array;
    uint64_t status = VORTEX_ARROW_NO_MEMORY;
    long before = blocks, made, n;
    int has = 1;
    reseed(seed);
    is_strict = 1;
    random_column(&schema, &array, 3);
    is_strict = 0;
    made = blocks;
    for (n = 0; has; n++) {
        fail_at(n);
        status = vortex_arrow_check_array(&schema, &array, NULL);
        has = has_failed();
        expect(!has || status == VORTEX_ARROW_NO_MEMORY, "check without memory", seed);
        expect(blocks == made, "check leaves nothing", seed);
    }
    expect(status == VORTEX_ARROW_DONE, "check", seed);
    array.release(&array);
    schema.release(&schema);
    expect(blocks == before, "nothing is left", seed);
}

/* Joins a random column with itself, twice over. */
static void join_round(uint64_t seed)
{
    struct ArrowSchema schema;
    struct ArrowArray array, out, *both[2];
    vortex_arrow_span spans[2] = {{0, 0, 0}, {1, 0, 0}};
    uint64_t status = VORTEX_ARROW_NO_MEMORY;
    long before = blocks, n;
    int has = 1;
    reseed(seed);
    strcpy(left_out, "+ud");
    random_column(&schema, &array, 3);
    left_out[0] = 0;
    both[0] = both[1] = &array;
    spans[0].len = spans[1].len = (uint64_t)array.length;
    for (n = 0; has; n++) {
        fail_at(n);
        status = vortex_interleave_arrow(&schema, both, 2, spans, 2, &out, NULL);
        has = has_failed();
        expect(!has || status == VORTEX_ARROW_NO_MEMORY || !status, "join without memory", seed);
        expect(!status == !!out.release, "no answer", seed);
        if (!status) {
            expect(out.length == 2 * array.length, "all rows, twice", seed);
            out.release(&out);
        }
    }
    expect(status == VORTEX_ARROW_DONE, "join", seed);
    array.release(&array);
    schema.release(&schema);
    expect(blocks == before, "nothing is left", seed);
}

static void share_round(uint64_t seed)
{
    struct ArrowSchema schema;
    struct ArrowArray array, out;
    void (*first)(struct ArrowArray *);
    uint64_t status = VORTEX_ARROW_NO_MEMORY;
    long before = blocks, made, n;
    int has, calls;
    reseed(seed);
    random_column(&schema, &array, 3);
    for (calls = 0; calls < 2; calls++) { /* the second time it is counted already */
        first = array.release;
        made = blocks;
        for (n = 0, has = 1; has; n++) {
            fail_at(n);
            status = vortex_arrow_share(&array, &out);
            has = has_failed();
            expect(!has || (status == VORTEX_ARROW_NO_MEMORY && !out.release &&
                array.release == first && blocks == made), "share without memory", seed);
        }
        expect(status == VORTEX_ARROW_DONE && out.release, "share", seed);
        out.release(&out);
    }
    array.release(&array);
    schema.release(&schema);
    expect(blocks == before, "nothing is left", seed);
}

static void slice_round(uint64_t seed)
{
    struct ArrowSchema schema;
    struct ArrowArray array, out;
    void (*first)(struct ArrowArray *);
    vortex_arrow_error error;
    uint64_t status = VORTEX_ARROW_NO_MEMORY;
    long before = blocks, made, n;
    int has, calls;
    reseed(seed);
    random_column(&schema, &array, 3);
    for (calls = 0; calls < 2; calls++) { /* the second time it is counted already */
        uint64_t end = (uint64_t)array.length;
        first = array.release;
        made = blocks;
        for (n = 0, has = 1; has; n++) {
            fail_at(n);
            status = vortex_arrow_slice(&schema, &array, end / 2, end, &out, &error);
            has = has_failed();
            expect(!has || (status == VORTEX_ARROW_NO_MEMORY && !out.release &&
                !strcmp(error.text, "out of memory") && array.release == first &&
                blocks == made), "slice without memory", seed);
        }
        expect(status == VORTEX_ARROW_DONE && out.release, "slice", seed);
        out.release(&out);
    }
    array.release(&array);
    schema.release(&schema);
    expect(blocks == before, "nothing is left", seed);
}

/* Each is a slice of the one before, which is then released. Nothing in between is kept. */
static void slice_chain(uint64_t seed)
{
    struct ArrowSchema schema;
    struct ArrowArray array, out;
    long before = blocks, first = 0;
    int link, ok = 1;
    reseed(seed);
    random_rows(&schema, &array, 3, 20);
    for (link = 0; link < 10000 && ok; link++) {
        uint64_t start = link % 1000 == 0, end = (uint64_t)array.length;
        ok = !vortex_arrow_slice(&schema, &array, start, end, &out, NULL);
        array.release(&array);
        array = out;
        first = link ? first : blocks;
    }
    expect(ok && array.length == 10 && blocks == first, "slices of slices keep no links", seed);
    array.release(&array);
    schema.release(&schema);
    expect(blocks == before, "nothing is left", seed);
}

static void copy_round(uint64_t seed)
{
    struct ArrowSchema schema, out;
    struct ArrowArray array;
    uint64_t status = VORTEX_ARROW_NO_MEMORY;
    long before = blocks, made, n;
    int has = 1;
    reseed(seed);
    random_column(&schema, &array, 3);
    made = blocks;
    for (n = 0; has; n++) {
        fail_at(n);
        status = vortex_arrow_copy_schema(&schema, &out);
        has = has_failed();
        expect(!has || (status == VORTEX_ARROW_NO_MEMORY && !out.release && blocks == made),
            "a copy without memory", seed);
    }
    expect(status == VORTEX_ARROW_DONE, "a copy", seed);
    out.release(&out);
    array.release(&array);
    schema.release(&schema);
    expect(blocks == before, "nothing is left", seed);
}

/* ---- Streams ---- */

typedef struct feed {
    column batches[3];
    size_t next;
} feed;

static const int32_t values[] = {1, 2};

static int feed_schema(struct ArrowArrayStream *stream, struct ArrowSchema *out)
{
    column c;
    (void)stream;
    make(&c, "i", "x", 0, 0);
    *out = c.schema;
    out->children = NULL;
    return 0;
}

static int feed_next(struct ArrowArrayStream *stream, struct ArrowArray *out)
{
    feed *f = (feed *)stream->private_data;
    out->release = NULL;
    if (f->next < 3) {
        *out = f->batches[f->next++].array;
    }
    return 0;
}

static const char *feed_error(struct ArrowArrayStream *stream)
{
    (void)stream;
    return NULL;
}

static void feed_release(struct ArrowArrayStream *stream) { stream->release = NULL; }

static struct ArrowArrayStream start(feed *f)
{
    struct ArrowArrayStream stream = {feed_schema, feed_next, feed_error, feed_release, NULL};
    int k;
    f->next = 0;
    for (k = 0; k < 3; k++) {
        make(&f->batches[k], "i", "x", 2, 2);
        f->batches[k].buffers[1] = values;
    }
    stream.private_data = f;
    released = 0;
    return stream;
}

/* The schema and the batches of a stream of ours: a call that fails may be made again. */
static void read_stream(struct ArrowArrayStream *stream)
{
    struct ArrowSchema schema;
    struct ArrowArray batch;
    int has = 1, code = 0, count;
    long n;
    for (n = 0; has; n++) {
        fail_at(n);
        code = stream->get_schema(stream, &schema);
        has = has_failed();
        expect(!has || (code == ENOMEM && !schema.release), "a schema without memory", 0);
        expect(!has || !strcmp(stream->get_last_error(stream), "schema: out of memory"), "", 0);
    }
    expect(!code && schema.release, "a schema", 0);
    schema.release(&schema);
    for (count = 0; count < 3; count++) {
        for (n = 0, has = 1; has; n++) {
            fail_at(n);
            code = stream->get_next(stream, &batch);
            has = has_failed();
            expect(!has || (code == ENOMEM && !batch.release), "a batch without memory", 0);
        }
        expect(!code && batch.length == 2, "a batch", 0);
        expect(((const int32_t *)batch.buffers[1])[1] == 2, "its rows", 0);
        batch.release(&batch);
    }
}

static void stream_round(void)
{
    struct ArrowArrayStream source, out;
    vortex_arrow_error error;
    uint64_t status = VORTEX_ARROW_NO_MEMORY;
    long before = blocks, n;
    int has = 1;
    feed f;
    for (n = 0; has; n++) {
        source = start(&f);
        fail_at(n);
        status = vortex_select_arrow_stream(&source, NULL, 0, &out, &error);
        has = has_failed();
        expect(!has || (status == VORTEX_ARROW_NO_MEMORY && !out.release && blocks == before &&
            !strcmp(error.text, "out of memory")), "a stream without memory", (uint64_t)n);
        expect(!has || released == (int)f.next + (n > 0), "what it read is released", (uint64_t)n);
    }
    expect(status == VORTEX_ARROW_DONE, "a stream", 0);
    read_stream(&out);
    out.release(&out);
    expect(blocks == before, "nothing is left", 0);
}

int main(void)
{
    uint64_t seed;
    for (seed = 1; seed <= 300; seed++) {
        select_round(seed);
        check_round(seed);
        join_round(seed);
        share_round(seed);
        slice_round(seed);
        copy_round(seed);
    }
    for (seed = 1; seed <= 20; seed++) {
        slice_chain(seed);
    }
    stream_round();
    expect(live_columns() == 0, "all released", 0);
    return report();
}
