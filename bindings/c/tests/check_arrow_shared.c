/* Shares arrays whose holder slices them in place, and counts the memory of long chains. Prints
 * `c: N passed, M failed`. */
#if defined(__linux__)
#include <malloc.h>
#endif

#include "made_arrow.h"

static const int64_t values[] = {10, 11, 12, 13, 14};

static int64_t value_at(const struct ArrowArray *array, int64_t k)
{
    return ((const int64_t *)array->buffers[1])[array->offset + k];
}

static int has_rows(const struct ArrowArray *array, int64_t length, int64_t first)
{
    return array->length == length && value_at(array, 0) == first &&
        value_at(array, length - 1) == first + length - 1;
}

/* A slice of an array, whether it is counted or not, is what is shared of it. */
static void sliced(void)
{
    struct ArrowArray out, again;
    column c;
    make(&c, "l", "x", 5, 2);
    c.buffers[1] = values;
    c.array.offset = 1;
    c.array.length = 4;
    c.array.null_count = -1;
    expect(!vortex_arrow_share(&c.array, &out) && has_rows(&out, 4, 11), "a slice", 0);
    expect(has_rows(&c.array, 4, 11) && c.array.release != release_array_of, "it is counted", 0);
    c.array.offset = 3;
    c.array.length = 2;
    c.array.null_count = 0;
    expect(!vortex_arrow_share(&c.array, &again) && has_rows(&again, 2, 13), "sliced again", 0);
    expect(again.null_count == 0 && has_rows(&out, 4, 11), "the other stays", 0);
    out.offset = 2;
    out.length = 2;
    out.null_count = 1;
    c.array.release(&c.array);
    expect(!vortex_arrow_share(&out, &c.array) && has_rows(&c.array, 2, 12), "a share's slice", 0);
    expect(c.array.null_count == 1, "its count of nulls", 0);
    out.release(&out);
    again.release(&again);
    expect(released == 0 && has_rows(&c.array, 2, 12), "the last one keeps the memory", 0);
    c.array.release(&c.array);
    expect(released == 1, "and then releases it, once", (uint64_t)released);
    released = 0;
}

/* So is a slice of a struct, and of its child and of its dictionary, each on its own. */
static void sliced_below(void)
{
    static const uint8_t zeros[5];
    struct ArrowArray out, again;
    column top, child, codes, words;
    make(&top, "+s", "top", 5, 1);
    make(&child, "l", "x", 5, 2);
    child.buffers[1] = values;
    make(&codes, "C", "k", 5, 2);
    codes.buffers[1] = zeros;
    make(&words, "l", "", 5, 2);
    words.buffers[1] = values;
    add_child(&top, &child);
    add_child(&top, &codes);
    set_dictionary(&codes, &words);
    expect(!vortex_arrow_share(&top.array, &out), "a struct", 0);
    out.offset = 2;
    out.length = 1;
    out.children[0]->offset = 1;
    out.children[0]->length = 4;
    out.children[1]->dictionary->offset = 3;
    out.children[1]->dictionary->length = 2;
    expect(!vortex_arrow_share(&out, &again), "a struct that is sliced", 0);
    expect(again.offset == 2 && again.length == 1 && has_rows(again.children[0], 4, 11) &&
        has_rows(again.children[1]->dictionary, 2, 13), "its slices", 0);
    expect(has_rows(top.array.children[0], 5, 10), "the first one's child stays", 0);
    top.array.release(&top.array);
    out.release(&out);
    expect(has_rows(again.children[0], 4, 11), "the memory stays", 0);
    again.release(&again);
    expect(released == 4, "all are released, once each", (uint64_t)released);
    released = 0;
}

/* A child that was moved away, or replaced, is no longer the array's. */
static void moved(void)
{
    struct ArrowArray out, again, child, *kept;
    column top, x, other;
    make(&top, "+s", "top", 5, 1);
    make(&x, "l", "x", 5, 2);
    x.buffers[1] = values;
    make(&other, "l", "x", 5, 2);
    other.buffers[1] = values;
    add_child(&top, &x);
    expect(!vortex_arrow_share(&top.array, &out), "a struct", 0);
    child = *out.children[0];
    out.children[0]->release = NULL;
    expect(vortex_arrow_share(&out, &again) == VORTEX_ARROW_SHAPE && !again.release, "moved", 0);
    kept = out.children[0];
    out.children[0] = &other.array;
    expect(vortex_arrow_share(&out, &again) == VORTEX_ARROW_SHAPE && !again.release, "replaced", 0);
    out.children[0] = kept;
    *kept = child;
    expect(!vortex_arrow_share(&out, &again), "it is back", 0);
    again.release(&again);
    out.release(&out);
    top.array.release(&top.array);
    expect(released == 2, "all are released, once each", (uint64_t)released);
    released = 0;
}

/* So is the first of two children, where the second one is still the array's. */
static void first_moved(void)
{
    struct ArrowArray out, again, *kept;
    column top, x, y, other;
    make(&top, "+s", "top", 5, 1);
    make(&x, "l", "x", 5, 2);
    make(&y, "l", "y", 5, 2);
    make(&other, "l", "x", 5, 2);
    x.buffers[1] = y.buffers[1] = other.buffers[1] = values;
    add_child(&top, &x);
    add_child(&top, &y);
    expect(!vortex_arrow_share(&top.array, &out), "a struct of two", 0);
    kept = out.children[0];
    out.children[0] = &other.array;
    expect(vortex_arrow_share(&out, &again) == VORTEX_ARROW_SHAPE && !again.release, "first", 0);
    out.children[0] = kept;
    expect(!vortex_arrow_share(&out, &again), "it is back", 0);
    again.release(&again);
    out.release(&out);
    top.array.release(&top.array);
    expect(released == 3, "all are released, once each", (uint64_t)released);
    released = 0;
}

/* So is a dictionary. */
static void dictionary_moved(void)
{
    static const uint8_t zeros[5];
    struct ArrowArray out, again, *kept;
    column codes, words, other;
    make(&codes, "C", "k", 5, 2);
    codes.buffers[1] = zeros;
    make(&words, "l", "", 5, 2);
    make(&other, "l", "", 5, 2);
    words.buffers[1] = other.buffers[1] = values;
    set_dictionary(&codes, &words);
    expect(!vortex_arrow_share(&codes.array, &out), "codes", 0);
    kept = out.dictionary;
    out.dictionary = &other.array;
    expect(vortex_arrow_share(&out, &again) == VORTEX_ARROW_SHAPE && !again.release, "words", 0);
    out.dictionary = kept;
    expect(!vortex_arrow_share(&out, &again), "they are back", 0);
    again.release(&again);
    out.release(&out);
    codes.array.release(&codes.array);
    expect(released == 2, "all are released, once each", (uint64_t)released);
    released = 0;
}

/* An answer whose child is the source's, and whose own memory another owner holds. */
static void shared_answer(void)
{
    static const int32_t offsets[] = {0, 2}, sizes[] = {2, 3};
    struct ArrowArray out, second, third;
    column list, child;
    make(&list, "+vl", "l", 2, 3);
    list.buffers[1] = offsets;
    list.buffers[2] = sizes;
    make(&child, "l", "", 5, 2);
    child.buffers[1] = values;
    add_child(&list, &child);
    expect(!vortex_select_arrow(&list.schema, &list.array, NULL, 0, NULL, &out, NULL), "lists", 0);
    list.array.release(&list.array);
    expect(!vortex_arrow_share(&out, &second), "an answer", 0);
    expect(!vortex_arrow_share(&out, &third), "an answer, once more", 0);
    out.release(&out);
    second.release(&second);
    expect(((const int32_t *)third.buffers[2])[1] == 3 && has_rows(third.children[0], 5, 10),
        "its rows", 0);
    third.release(&third);
    expect(released == 2, "all are released, once each", (uint64_t)released);
    released = 0;
}

/* How many bytes are allocated. */
static size_t in_use(void)
{
#if defined(__GLIBC__) && (__GLIBC__ > 2 || __GLIBC_MINOR__ >= 33)
    return mallinfo2().uordblks;
#else
    return 0;
#endif
}

/* Each is selected from a share of the one before. The memory doesn't grow with the links. */
static void chain(const char *format, int by_share)
{
    static const int64_t lengths[] = {3};
    static const uint8_t views[32];
    static const int32_t numbers[] = {0, 1};
    size_t after[2] = {0, 0};
    struct ArrowArray out;
    column c, child;
    int link, half, ok = 1;
    make(&c, format, "x", 2, format[0] == 'v' ? 4 : format[0] == 'i' ? 2 : 3);
    c.buffers[1] = format[0] == 'v' ? (const void *)views : numbers;
    c.buffers[2] = format[0] == 'v' ? (const void *)"abc" : numbers;
    c.buffers[3] = lengths;
    make(&child, "l", "", 5, 2);
    child.buffers[1] = values;
    if (format[0] == '+') {
        add_child(&c, &child);
    } else if (format[0] == 'i') {
        set_dictionary(&c, &child);
    }
    for (half = 0; half < 2; half++) {
        for (link = 0; link < 1000 && ok; link++) {
            ok = by_share && link % 2 ? !vortex_arrow_share(&c.array, &out)
                : !vortex_select_arrow(&c.schema, &c.array, NULL, 0, NULL, &out, NULL);
            c.array.release(&c.array);
            c.array = out;
        }
        after[half] = in_use();
    }
    expect(ok, "a chain", (uint64_t)by_share);
    expect(after[1] < after[0] + 100000, "a chain keeps no links", after[1] - after[0]);
    c.array.release(&c.array);
    released = 0;
}

int main(void)
{
    int by_share;
    sliced();
    sliced_below();
    moved();
    first_moved();
    dictionary_moved();
    shared_answer();
    for (by_share = 0; by_share < 2; by_share++) {
        chain("vu", by_share);
        chain("+vl", by_share);
        chain("i", by_share);
    }
    return report();
}
