/* Selects from random columns in Arrow's memory, whose buffers have not a byte more than they must,
 * and compares the rows, as texts, with those of the source; releases answers and sources in any
 * order and in threads; and prints `c: N passed, M failed`.
 *
 * usage: check_arrow [rounds] */
#define _DEFAULT_SOURCE
#include <pthread.h>
#include <stdio.h>
#include <stdlib.h>
#include <string.h>
#include <time.h>

#include "expect.h"
#include "random_steps.h"

/* How long a call may take at the most. */
#if defined(__SANITIZE_ADDRESS__)
#define SECONDS 10
#elif defined(__has_feature)
#if __has_feature(address_sanitizer)
#define SECONDS 10
#endif
#endif
#ifndef SECONDS
#define SECONDS 3
#endif

/* ---- Rounds ---- */

static char *rows_of(const struct ArrowSchema *schema, const struct ArrowArray *array,
    const uint64_t *picks, size_t len)
{
    text t = {NULL, 0, 0};
    size_t k;
    say(&t, "%s", "");
    for (k = 0; k < len; k++) {
        if (picks && picks[k] == NONE) {
            say(&t, "%s", "-");
        } else {
            say_row(&t, schema, array, (int64_t)(picks ? picks[k] : k));
        }
        say(&t, "%s", ";");
    }
    return t.data;
}

/* Whether a null is picked of a union, whose rows are never null. */
static int is_refused(const struct ArrowSchema *schema, const walk *w)
{
    size_t k;
    for (k = 0; k < w->len; k++) {
        if (w->picks[k] == NONE && !strncmp(schema->format, "+u", 2)) {
            return 1;
        }
    }
    return 0;
}

/* Whether of each child of a dense union there are just the rows that its ids name, in order. What
 * lists are views of is the source's own. */
static int is_packed(const struct ArrowSchema *schema, const struct ArrowArray *array)
{
    int is_dense = !strncmp(schema->format, "+ud:", 4), ok = 1;
    int64_t counts[128] = {0}, child, k;
    for (k = 0; k < array->length && is_dense; k++) {
        child = child_of(schema->format, ((const uint8_t *)array->buffers[0])[k]);
        ok &= child >= 0 && ((const int32_t *)array->buffers[1])[k] == counts[child]++;
    }
    for (k = 0; k < array->n_children && strncmp(schema->format, "+v", 2); k++) {
        ok &= !is_dense || array->children[k]->length == counts[k];
        ok &= is_packed(schema->children[k], array->children[k]);
    }
    return ok;
}

/* Moves a child out of an array, which is then released, and reads both. */
static void move_child(const struct ArrowSchema *schema, struct ArrowArray *array, uint64_t seed)
{
    size_t k = array->n_children ? below((size_t)array->n_children) : 0;
    struct ArrowArray child;
    char *wanted, *found;
    if (!array->n_children) {
        array->release(array);
        return;
    }
    child = *array->children[k];
    wanted = rows_of(schema->children[k], &child, NULL, (size_t)child.length);
    array->children[k]->release = NULL;
    array->release(array);
    expect(!array->release, "released", seed);
    found = rows_of(schema->children[k], &child, NULL, (size_t)child.length);
    expect(!strcmp(wanted, found), "a moved child", seed);
    child.release(&child);
    free(wanted);
    free(found);
}

/* Reads an answer, whose rows are wanted, and releases it and its source, in either order. */
static void read_answer(struct ArrowSchema *schema, struct ArrowArray *out,
    struct ArrowArray *source, const char *wanted, uint64_t seed)
{
    struct ArrowArray again;
    int source_first = below(2) != 0;
    char *found;
    expect(out->offset == 0 && is_packed(schema, out), "packed", seed);
    expect(vortex_arrow_share(out, &again) == VORTEX_ARROW_DONE, "share", seed);
    if (source_first) {
        source->release(source);
    }
    if (below(2)) {
        out->release(out);
        *out = again;
    } else {
        again.release(&again);
    }
    found = rows_of(schema, out, NULL, (size_t)out->length);
    expect(!strcmp(wanted, found), "rows", seed);
    free(found);
    move_child(schema, out, seed);
    schema->release(schema);
    if (!source_first) {
        source->release(source);
    }
}

/* A step that is invalid is reported, and nothing is selected. */
static void try_broken(const struct ArrowSchema *schema, struct ArrowArray *array, const walk *w,
    uint64_t seed)
{
    walk broken = broken_walk(w);
    struct ArrowSchema out_schema;
    struct ArrowArray out;
    vortex_arrow_error error;
    uint64_t status = vortex_select_arrow(schema, array, broken.steps, broken.n_steps, &out_schema,
        &out, &error);
    expect(status == VORTEX_ARROW_BROKEN && error.step == w->n_steps && !out.release &&
        !out_schema.release, "a broken step", seed);
}

static void round_of(uint64_t seed)
{
    struct ArrowSchema schema, out_schema;
    struct ArrowArray array, out;
    vortex_arrow_error error;
    char *wanted;
    uint64_t status;
    walk w;
    reseed(seed);
    is_strict = seed % 2 == 0;
    random_column(&schema, &array, 3);
    random_walk(&w, (size_t)array.length);
    expect(!vortex_arrow_check_array(&schema, &array, NULL) || !is_strict, "check", seed);
    try_broken(&schema, &array, &w, seed);
    wanted = rows_of(&schema, &array, w.picks, w.len);
    status = vortex_select_arrow(&schema, &array, w.steps, w.n_steps, &out_schema, &out, &error);
    expect(status == (is_refused(&schema, &w) ? VORTEX_ARROW_NULL_PICK : VORTEX_ARROW_DONE) &&
        error.status == status, error.text, seed);
    if (!status) {
        expect(out.length == (int64_t)w.len, "length", seed);
        read_answer(&out_schema, &out, &array, wanted, seed);
    } else {
        array.release(&array);
    }
    schema.release(&schema);
    free(wanted);
}

/* ---- Streams ---- */

typedef struct batches {
    struct ArrowArray arrays[3];
    size_t next;
} batches;

static int bits_schema(struct ArrowArrayStream *stream, struct ArrowSchema *out)
{
    (void)stream;
    flat_schema(out, "b");
    return 0;
}

static int bits_next(struct ArrowArrayStream *stream, struct ArrowArray *out)
{
    batches *b = (batches *)stream->private_data;
    out->release = NULL;
    if (b->next < 3) {
        *out = b->arrays[b->next];
        b->arrays[b->next++].release = NULL;
    }
    return 0;
}

static const char *bits_error(struct ArrowArrayStream *stream)
{
    (void)stream;
    return NULL;
}

static void bits_release(struct ArrowArrayStream *stream) { stream->release = NULL; }

/* The rows that a stream of ours gives, one behind the other, and its end. */
static void read_stream(struct ArrowArrayStream *stream, const struct ArrowSchema *schema, text *t,
    uint64_t seed)
{
    for (;;) {
        struct ArrowArray batch;
        char *some;
        expect(!stream->get_next(stream, &batch), "next", seed);
        if (!batch.release) {
            break;
        }
        some = rows_of(schema, &batch, NULL, (size_t)batch.length);
        say(t, "%s", some);
        free(some);
        batch.release(&batch);
    }
    stream->release(stream);
}

static void stream_round(uint64_t seed, int is_broken)
{
    struct ArrowArrayStream source = {bits_schema, bits_next, bits_error, bits_release, NULL}, out;
    struct ArrowSchema schema;
    batches b = {{{0, 0, 0, 0, 0, NULL, NULL, NULL, NULL, NULL}}, 0};
    text wanted = {NULL, 0, 0}, found = {NULL, 0, 0};
    char *rows[3];
    int64_t starts[4] = {0, 0, 0, 0};
    walk w, broken;
    uint64_t status;
    size_t k;
    reseed(seed);
    flat_schema(&schema, "b");
    for (k = 0; k < 3; k++) {
        flat_array(&b.arrays[k], "b", (int64_t)below(20));
        starts[k + 1] = starts[k] + b.arrays[k].length;
        rows[k] = rows_of(&schema, &b.arrays[k], NULL, (size_t)b.arrays[k].length);
    }
    source.private_data = &b;
    random_walk(&w, (size_t)starts[3]);
    for (k = 0; k < w.len; k++) {
        int part = w.picks[k] >= (uint64_t)starts[2] ? 2 : w.picks[k] >= (uint64_t)starts[1];
        say(&wanted, "%c;", w.picks[k] == NONE ? '-' : rows[part][2 * (w.picks[k] - starts[part])]);
    }
    broken = is_broken ? broken_walk(&w) : w;
    status = vortex_select_arrow_stream(&source, broken.steps, broken.n_steps, &out, NULL);
    source.release(&source);
    if (is_broken) {
        expect(status == VORTEX_ARROW_BROKEN && !out.release, "a broken stream", seed);
    } else {
        expect(!status, "stream", seed);
        read_stream(&out, &schema, &found, seed);
        expect(!strcmp(wanted.data ? wanted.data : "", found.data ? found.data : ""), "rows", seed);
    }
    for (k = 0; k < 3; k++) {
        free(rows[k]);
    }
    free(wanted.data);
    free(found.data);
    schema.release(&schema);
}

/* ---- Threads ---- */

typedef struct work {
    const struct ArrowSchema *schema;
    struct ArrowArray arrays[50];
    const char *rows;
    int wrong;
} work;

/* Selects all rows of each array, and lets the answer outlive it. */
static void *select_and_let_go(void *given)
{
    work *w = (work *)given;
    size_t k;
    for (k = 0; k < 50; k++) {
        struct ArrowArray out;
        char *found;
        if (vortex_select_arrow(w->schema, &w->arrays[k], NULL, 0, NULL, &out, NULL)) {
            w->wrong++;
            continue;
        }
        w->arrays[k].release(&w->arrays[k]);
        found = rows_of(w->schema, &out, NULL, (size_t)out.length);
        w->wrong += strcmp(found, w->rows) != 0;
        free(found);
        out.release(&out);
    }
    return NULL;
}

/* Arrays that share their memory, which are selected from and let go by eight threads. */
static void threads_round(uint64_t seed)
{
    static work works[8];
    struct ArrowSchema schema;
    struct ArrowArray array;
    pthread_t threads[8];
    char *rows;
    size_t k, j;
    reseed(seed);
    random_column(&schema, &array, 3);
    rows = rows_of(&schema, &array, NULL, (size_t)array.length);
    for (k = 0; k < 8; k++) {
        works[k].schema = &schema;
        works[k].rows = rows;
        works[k].wrong = 0;
        for (j = 0; j < 50; j++) {
            expect(!vortex_arrow_share(&array, &works[k].arrays[j]), "share", seed);
        }
    }
    array.release(&array);
    for (k = 0; k < 8; k++) {
        pthread_create(&threads[k], NULL, select_and_let_go, &works[k]);
    }
    for (k = 0; k < 8; k++) {
        pthread_join(threads[k], NULL);
        expect(!works[k].wrong, "rows of threads", seed);
    }
    schema.release(&schema);
    free(rows);
}

/* ---- Answers of answers ---- */

/* Each is selected from the one before, which is let go: none of them may keep all others. */
static void long_chain(const char *format)
{
    struct ArrowSchema schema;
    struct ArrowArray array, out;
    char *wanted, *found;
    int links;
    if (is_left_out(format)) {
        return;
    }
    reseed(7);
    rows_of_format(&schema, &array, format, 2, 3);
    wanted = rows_of(&schema, &array, NULL, 3);
    for (links = 0; links < 100000; links++) {
        if (vortex_select_arrow(&schema, &array, NULL, 0, NULL, &out, NULL)) {
            expect(0, "a link", (uint64_t)links);
            break;
        }
        array.release(&array);
        array = out;
    }
    found = rows_of(&schema, &array, NULL, 3);
    expect(!strcmp(wanted, found), "rows of a long chain", 7);
    array.release(&array); /* a chain that is kept is longer than the stack is deep */
    schema.release(&schema);
    free(wanted);
    free(found);
}

/* ---- A struct of many fields ---- */

static void keep_schema(struct ArrowSchema *schema) { schema->release = NULL; }
static void keep_array(struct ArrowArray *array) { array->release = NULL; }

/* All fields are one and the same. Nothing of them is shared, so none is replaced. */
static void many_nodes(void)
{
    const int64_t fields = 60000;
    struct ArrowSchema schema, field = {"C", "", NULL, 2, 0, NULL, NULL, keep_schema, NULL};
    struct ArrowArray array, out;
    const uint8_t byte = 7;
    const void *bytes[] = {NULL, &byte}, *none[] = {NULL};
    struct ArrowArray values = {1, 0, 0, 2, 0, bytes, NULL, NULL, keep_array, NULL};
    clock_t start = clock();
    uint64_t status;
    int64_t k;
    schema = field;
    schema.format = "+s";
    schema.n_children = fields;
    schema.children = (struct ArrowSchema **)made_block((size_t)fields * sizeof(void *));
    array = values;
    array.n_buffers = 1;
    array.buffers = none;
    array.n_children = fields;
    array.children = (struct ArrowArray **)made_block((size_t)fields * sizeof(void *));
    for (k = 0; k < fields; k++) {
        schema.children[k] = &field;
        array.children[k] = &values;
    }
    status = vortex_select_arrow(&schema, &array, NULL, 0, NULL, &out, NULL);
    expect(status == VORTEX_ARROW_DONE || status == VORTEX_ARROW_NO_MEMORY, "many fields", 0);
    if (!status) {
        const uint8_t *last = (const uint8_t *)out.children[fields - 1]->buffers[1];
        expect(out.n_children == fields && *last == byte, "the last of many fields", 0);
        out.release(&out);
    }
    expect((double)(clock() - start) / CLOCKS_PER_SEC < SECONDS, "many fields in time", 0);
    free(schema.children);
    free(array.children);
}

/* Leaves out what the library doesn't know. */
static void try_formats(void)
{
    static const char *const words[] = {"v", "+w", "+v", "+us", "+ud"};
    static const char *const formats[] = {"vu", "+w:2", "+vl", "+us", "+ud"};
    struct ArrowSchema schema;
    struct ArrowArray array, out;
    size_t k;
    for (k = 0; k < sizeof words / sizeof words[0]; k++) {
        uint64_t status;
        rows_of_format(&schema, &array, formats[k], 1, 0);
        status = vortex_select_arrow(&schema, &array, NULL, 0, NULL, &out, NULL);
        if (status == VORTEX_ARROW_FORMAT) {
            printf("skipped, the library doesn't know columns of format %s\n", formats[k]);
            strcat(strcat(left_out, words[k]), " ");
        } else if (!status) {
            out.release(&out);
        }
        array.release(&array);
        schema.release(&schema);
    }
}

int main(int argc, char **argv)
{
    uint64_t rounds = argc > 1 ? strtoull(argv[1], NULL, 10) : 20000, seed;
    try_formats();
    for (seed = 1; seed <= rounds; seed++) {
        round_of(seed);
        if (seed % 10 == 0) {
            stream_round(seed, 0);
            stream_round(seed, 1);
        }
        if (seed % 500 == 0) {
            threads_round(seed);
        }
    }
    expect(live_columns() == 0, "all released", 0);
    if (rounds >= 10000) {
        many_nodes();
        long_chain("vu");
        long_chain("+vl");
        long_chain("C");
    }
    return report();
}
