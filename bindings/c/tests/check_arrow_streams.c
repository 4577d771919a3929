/* Selects from streams that fail, at each call in turn, and from those that are wrong; and looks at
 * the schemas of answers. Prints `c: N passed, M failed`. */
#include <errno.h>

#include "made_arrow.h"

#define BATCHES 3

/* A source of batches of two rows each, one call of which fails. */
typedef struct feed {
    column batches[BATCHES];
    int32_t values[2 * BATCHES];
    size_t next, count;
    int fails_at; /* 0: the schema; k: batch k - 1, or the end; -1: none */
    const char *words;
    const char *format;
    int64_t flags;
} feed;

static int feed_schema(struct ArrowArrayStream *stream, struct ArrowSchema *out)
{
    feed *f = (feed *)stream->private_data;
    column c;
    memset(out, 0xff, sizeof *out); /* what is there at a fault means nothing */
    if (f->fails_at == 0) {
        return EIO;
    }
    make(&c, f->format, "x", 0, 0);
    *out = c.schema;
    out->children = NULL;
    out->flags = f->flags;
    return 0;
}

static int feed_next(struct ArrowArrayStream *stream, struct ArrowArray *out)
{
    feed *f = (feed *)stream->private_data;
    out->release = NULL;
    if (f->fails_at == (int)f->next + 1) {
        return EIO;
    }
    if (f->next < f->count) {
        *out = f->batches[f->next++].array;
    }
    return 0;
}

static const char *feed_error(struct ArrowArrayStream *stream)
{
    return ((feed *)stream->private_data)->words;
}

static void feed_release(struct ArrowArrayStream *stream) { stream->release = NULL; }

static struct ArrowArrayStream start(feed *f, size_t count, int fails_at, const char *words)
{
    struct ArrowArrayStream stream = {feed_schema, feed_next, feed_error, feed_release, NULL};
    size_t k;
    memset(f, 0, sizeof *f);
    for (k = 0; k < BATCHES; k++) {
        make(&f->batches[k], "i", "x", 2, 2);
        f->values[2 * k] = (int32_t)(10 * k);
        f->values[2 * k + 1] = (int32_t)(10 * k + 1);
        f->batches[k].buffers[1] = f->values + 2 * k;
    }
    f->count = count;
    f->fails_at = fails_at;
    f->words = words;
    f->format = "i";
    stream.private_data = f;
    released = 0;
    return stream;
}

/* A source that fails has no answer, whenever it does, and what it gave is released. */
static void failing(void)
{
    struct ArrowArrayStream source, out;
    vortex_arrow_error error;
    feed f;
    int at;
    for (at = 0; at <= BATCHES + 1; at++) {
        source = start(&f, BATCHES, at, at % 2 ? "the disk is gone" : NULL);
        expect(vortex_select_arrow_stream(&source, NULL, 0, &out, &error) == VORTEX_ARROW_SOURCE &&
            !out.release && error.status == VORTEX_ARROW_SOURCE, "a source that fails",
            (uint64_t)at);
        expect(!strcmp(error.text, at % 2 ? "the source stream failed: the disk is gone"
            : "the source stream failed"), "what it said", (uint64_t)at);
        expect(released == (at ? at : 0), "its batches are released", (uint64_t)at);
        expect(source.release == feed_release, "it stays the caller's", (uint64_t)at);
        source = start(&f, BATCHES, at, NULL);
        expect(vortex_select_arrow_stream(&source, NULL, 0, &out, NULL) == VORTEX_ARROW_SOURCE,
            "no error struct", (uint64_t)at);
    }
}

/* The values of a stream as they come, with -1 for a null and -2 after each batch. */
static size_t read_all_of(struct ArrowArrayStream *stream, int32_t *values)
{
    struct ArrowArray batch;
    size_t count = 0;
    int64_t k;
    while (!stream->get_next(stream, &batch) && batch.release) {
        const uint8_t *valid = (const uint8_t *)batch.buffers[0];
        for (k = 0; k < batch.length; k++) {
            int is_null = valid && !(valid[k / 8] >> k % 8 & 1);
            values[count++] = is_null ? -1 : ((const int32_t *)batch.buffers[1])[k];
        }
        values[count++] = -2;
        batch.release(&batch);
    }
    return count;
}

/* A stream that was copied and released is not released again. */
static void released_twice(void)
{
    struct ArrowArrayStream source, out, copy;
    feed f;
    source = start(&f, BATCHES, -1, NULL);
    expect(!vortex_select_arrow_stream(&source, NULL, 0, &out, NULL), "a stream", 0);
    copy = out;
    out.release(&out);
    copy.release(&out);
    expect(!out.release && released == 4, "a stream is released once", (uint64_t)released);
}

static void expect_rows(const vortex_arrow_step *steps, size_t n_steps, const int32_t *wanted,
    size_t count, int64_t flags)
{
    struct ArrowArrayStream source, out;
    struct ArrowSchema schema;
    int32_t values[64];
    feed f;
    source = start(&f, BATCHES, -1, NULL);
    expect(!vortex_select_arrow_stream(&source, steps, n_steps, &out, NULL), "a stream", 0);
    expect(!out.get_schema(&out, &schema) && schema.flags == flags, "its flags", (uint64_t)flags);
    expect(!strcmp(schema.format, "i") && !strcmp(schema.name, "x"), "its schema", 0);
    schema.release(&schema);
    expect(!out.get_last_error(&out), "no fault", 0);
    expect(read_all_of(&out, values) == count && !memcmp(values, wanted, 4 * count), "rows", 0);
    expect(read_all_of(&out, values) == 0, "the end stays", 0);
    out.release(&out);
    expect(!out.release && released == 4, "all is released", (uint64_t)released);
}

static void rows(void)
{
    static const uint64_t mixed[] = {5, 9, 4, 9, 0, 1, 3}, none[] = {9, 9};
    static const uint8_t some[] = {0x75}, no[] = {0};
    static const int32_t all_rows[] = {0, 1, -2, 10, 11, -2, 20, 21, -2}, empty[] = {-2};
    static const int32_t picked[] = {21, -1, 20, -1, -2, 0, 1, -2, 11, -2}, nulls[] = {-1, -1, -2};
    static const uint64_t nine[] = {3, 2, 3, 2, 3, 2, 3, 2, 3};
    static const uint8_t bits[] = {0xef, 0x01};
    static const int32_t of_one[] = {11, 10, 11, 10, -1, 10, 11, 10, 11, -2};
    vortex_arrow_step slice, take = take_of(mixed, 7, some), null = take_of(none, 2, no);
    vortex_arrow_step long_run = take_of(nine, 9, bits);
    memset(&slice, 0, sizeof slice);
    expect_rows(NULL, 0, all_rows, 9, 0);
    expect_rows(&slice, 1, empty, 1, 0);
    expect_rows(&take, 1, picked, 10, ARROW_FLAG_NULLABLE);
    expect_rows(&null, 1, nulls, 3, ARROW_FLAG_NULLABLE);
    expect_rows(&long_run, 1, of_one, 10, ARROW_FLAG_NULLABLE);
}

/* A take with nulls adds one flag to those of the source. */
static void flags(void)
{
    static const uint64_t indices[] = {0};
    static const uint8_t null[] = {0};
    const int64_t ordered = ARROW_FLAG_DICTIONARY_ORDERED | ARROW_FLAG_MAP_KEYS_SORTED;
    vortex_arrow_step step = take_of(indices, 1, null);
    struct ArrowArrayStream source, out;
    struct ArrowSchema schema;
    feed f;
    int is_taken;
    for (is_taken = 0; is_taken < 2; is_taken++) {
        int64_t wanted = ordered | (is_taken ? ARROW_FLAG_NULLABLE : 0);
        source = start(&f, BATCHES, -1, NULL);
        f.flags = ordered;
        expect(!vortex_select_arrow_stream(&source, &step, (size_t)is_taken, &out, NULL), "f", 0);
        expect(!out.get_schema(&out, &schema) && schema.flags == wanted, "flags", (uint64_t)wanted);
        schema.release(&schema);
        out.release(&out);
    }
}

/* Without batches there are no rows, and no array that a null could be made of. */
static void no_batches(void)
{
    static const uint64_t nowhere[] = {0};
    static const uint8_t null[] = {0};
    vortex_arrow_step step = take_of(nowhere, 1, null);
    struct ArrowArrayStream source, out;
    struct ArrowArray batch;
    vortex_arrow_error error;
    feed f;
    source = start(&f, 0, -1, NULL);
    expect(!vortex_select_arrow_stream(&source, NULL, 0, &out, NULL), "no batches", 0);
    expect(!out.get_next(&out, &batch) && !batch.release, "none is returned", 0);
    out.release(&out);
    source = start(&f, 0, -1, NULL);
    step.valid.len = 0;
    expect(vortex_select_arrow_stream(&source, &step, 1, &out, &error) == VORTEX_ARROW_BROKEN &&
        error.cause == VORTEX_ARROW_OUT_OF_BOUNDS && !out.release, "row 0 of none", 0);
    source = start(&f, 0, -1, NULL);
    step.valid.len = 1;
    expect(!vortex_select_arrow_stream(&source, &step, 1, &out, &error), "a null of none", 0);
    expect(out.get_next(&out, &batch) == EINVAL && !batch.release, "there is no null", 0);
    expect(out.get_last_error(&out) && strstr(out.get_last_error(&out), "no batch for nulls"),
        "its words", 0);
    out.release(&out);
}

/* A batch that is wrong is reported when it is asked for; one of a negative length at once. */
static void wrong_batches(void)
{
    struct ArrowArrayStream source, out;
    struct ArrowArray batch;
    vortex_arrow_error error;
    feed f;
    source = start(&f, BATCHES, -1, NULL);
    f.batches[1].array.n_buffers = 1;
    expect(!vortex_select_arrow_stream(&source, NULL, 0, &out, NULL), "a stream", 0);
    expect(!out.get_next(&out, &batch) && batch.release, "the batch before", 0);
    batch.release(&batch);
    expect(out.get_next(&out, &batch) == EINVAL && !batch.release, "the batch", 0);
    expect(!strncmp(out.get_last_error(&out), "x buffers: ", 11), "what is wrong", 0);
    out.release(&out);
    source = start(&f, BATCHES, -1, NULL);
    f.batches[1].array.length = -1;
    expect(vortex_select_arrow_stream(&source, NULL, 0, &out, &error) == VORTEX_ARROW_SHAPE &&
        !strcmp(error.place, "length") && released == 3, "a negative length", 0);
    source = start(&f, BATCHES, -1, NULL);
    f.batches[1].array.length = INT64_MAX;
    expect(vortex_select_arrow_stream(&source, NULL, 0, &out, &error) == VORTEX_ARROW_SHAPE &&
        !strcmp(error.place, "length") && released == 3, "more rows than numbers", 0);
}

static int released_schema(struct ArrowArrayStream *stream, struct ArrowSchema *out)
{
    (void)stream;
    out->release = NULL;
    return 0;
}

static void wrong_sources(void)
{
    struct ArrowArrayStream source, out;
    vortex_arrow_error error;
    feed f;
    source = start(&f, BATCHES, -1, NULL);
    source.get_schema = released_schema;
    expect(vortex_select_arrow_stream(&source, NULL, 0, &out, &error) == VORTEX_ARROW_SHAPE &&
        !strcmp(error.place, "schema") && !out.release, "a released schema", 0);
    source.release = NULL;
    expect(vortex_select_arrow_stream(&source, NULL, 0, &out, &error) == VORTEX_ARROW_SHAPE &&
        !strcmp(error.place, "release") && !out.release, "a released source", 0);
    expect(vortex_select_arrow_stream(NULL, NULL, 0, &out, &error) == VORTEX_ARROW_SHAPE &&
        !out.release, "no source", 0);
    source = start(&f, BATCHES, -1, NULL);
    f.format = NULL;
    expect(!vortex_select_arrow_stream(&source, NULL, 0, &out, &error) && !error.status, "a", 0);
    {
        struct ArrowSchema schema;
        expect(out.get_schema(&out, &schema) == EINVAL && !schema.release, "no format", 0);
        expect(!strncmp(out.get_last_error(&out), "schema: ", 8), "its place", 0);
    }
    out.release(&out);
}

/* Lists of 2^31 - 1 items, whose schema and array are static. */
static column lists, items;

static int lists_schema(struct ArrowArrayStream *stream, struct ArrowSchema *out)
{
    (void)stream;
    *out = lists.schema;
    return 0;
}

/* A batch whose rows can't be counted is EOVERFLOW, and a failed call may be made again. */
static void overflow(void)
{
    static const int32_t offsets[] = {0, INT32_MAX};
    static const uint64_t twice[] = {0, 0};
    vortex_arrow_step step = take_of(twice, 2, NULL);
    struct ArrowArrayStream source, out;
    struct ArrowArray batch;
    feed f;
    int again;
    source = start(&f, 1, -1, NULL);
    source.get_schema = lists_schema;
    make(&lists, "+l", "l", 1, 2);
    lists.buffers[1] = offsets;
    make(&items, "+s", "item", INT32_MAX, 1);
    add_child(&lists, &items);
    f.batches[0] = lists;
    f.batches[0].array.buffers = lists.buffers;
    expect(!vortex_select_arrow_stream(&source, &step, 1, &out, NULL), "a stream of lists", 0);
    for (again = 0; again < 2; again++) {
        expect(out.get_next(&out, &batch) == EOVERFLOW && !batch.release, "too many items", 0);
        expect(!strcmp(out.get_last_error(&out), "l: expected offsets up to 2^31 - 1, got a higher one"),
            "its words", 0);
    }
    out.release(&out);
}

int main(void)
{
    failing();
    released_twice();
    overflow();
    rows();
    flags();
    no_batches();
    wrong_batches();
    wrong_sources();
    return report();
}
