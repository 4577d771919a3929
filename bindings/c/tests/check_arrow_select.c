/* Selects rows of single nodes by vortex_arrow_select, and compares each byte of the room with what
 * a plain loop says. Then it makes calls that fail, after which the room must be as it was. Prints
 * `c: N passed, M failed`. */
#include <stdlib.h>
#include <string.h>

#include "expect.h"
#include "vortex_arrow.h"

enum { ROWS = 201, WIDEST = 32, SOURCE = (ROWS + 3) * WIDEST, ROOM = ROWS * WIDEST + 40 };

static const uint64_t widths[] = {1, 2, 4, 8, 16, 32};
static const uint64_t lengths[] = {0, 1, 7, 63, 64, 65, 128, 200};

#define N_WIDTHS (sizeof widths / sizeof *widths)
#define N_LENGTHS (sizeof lengths / sizeof *lengths)

static uint8_t source[SOURCE], room_bytes[ROOM], wanted[ROOM], list[16 * ROWS];

static vortex_arrow_node node_of(uint64_t width, uint64_t len, uint64_t offset)
{
    vortex_arrow_node node;
    memset(&node, 0, sizeof node);
    node.format = VORTEX_ARROW_FIXED;
    node.width = width;
    node.len = len;
    node.offset = offset;
    node.values.data = source;
    node.values.len = (size_t)((len + offset) * width);
    return node;
}

static vortex_arrow_step step_of(uint64_t kind, uint64_t ptype, uint64_t offset, uint64_t len)
{
    vortex_arrow_step step;
    memset(&step, 0, sizeof step);
    step.kind = kind;
    step.ptype = ptype;
    step.offset = offset;
    step.len = len;
    step.values.data = list;
    step.values.len = sizeof list;
    return step;
}

static void refill(void)
{
    size_t k;
    for (k = 0; k < SOURCE; k++) {
        source[k] = (uint8_t)(k * 37 + k / 251);
    }
    for (k = 0; k < ROOM; k++) {
        room_bytes[k] = wanted[k] = (uint8_t)(0xa5 ^ k);
    }
}

static vortex_arrow_need needs[2];

static vortex_arrow_answer call(const vortex_arrow_node *nodes, size_t n_nodes,
    const vortex_arrow_step *steps, size_t n_steps, size_t room_len)
{
    vortex_arrow_room rooms[2];
    memset(rooms, 0, sizeof rooms);
    rooms[0].values.data = room_bytes;
    rooms[0].values.len = room_len;
    memset(needs, 0xee, sizeof needs);
    return vortex_arrow_select(nodes, n_nodes, steps, n_steps, needs, n_nodes, rooms, n_nodes);
}

static int is_need(const vortex_arrow_need *need, uint64_t rows, uint64_t bytes)
{
    return need->len == rows && need->values == bytes && !need->valid && !need->offsets &&
        !need->sizes;
}

/* Expects these rows in the room, and what it held behind them. */
static void expect_rows(const vortex_arrow_node *node, const vortex_arrow_step *step,
    const uint64_t *rows, size_t count, const char *what)
{
    size_t width = (size_t)node->width, k;
    uint64_t seed = node->width * 1000 + node->len;
    for (k = 0; k < count; k++) {
        memcpy(wanted + k * width, source + (node->offset + rows[k]) * width, width);
    }
    expect(call(node, 1, step, 1, count * width).status == VORTEX_ARROW_DONE, what, seed);
    expect(!memcmp(room_bytes, wanted, ROOM), what, seed);
    expect(is_need(needs, count, count * width), "a need", seed);
    refill();
    if (count) {
        vortex_arrow_answer answer = call(node, 1, step, 1, count * width - 1);
        expect(answer.status == VORTEX_ARROW_ROOM && !answer.node_or_step, "a short room", seed);
        expect(!memcmp(room_bytes, wanted, ROOM), "a short room is kept", seed);
        expect(is_need(needs, count, count * width), "the need of a short room", seed);
    }
}

static void slices(const vortex_arrow_node *node)
{
    uint64_t rows[ROWS], start, k;
    for (start = 0; start <= node->len; start += node->len / 3 + 1) {
        vortex_arrow_step step = step_of(VORTEX_ARROW_SLICE, 0, 0, 0);
        step.start = start;
        step.end = node->len;
        for (k = start; k < node->len; k++) {
            rows[k - start] = k;
        }
        expect_rows(node, &step, rows, (size_t)(node->len - start), "a slice");
    }
}

/* Whether a row passes a filter by kind: none, all, each third, all but one, at random. */
static int passes(int kind, uint64_t row)
{
    return kind == 1 || (kind == 2 && row % 3 == 0) || (kind == 3 && row != 64) ||
        (kind == 4 && (row * 2654435761u >> 7) % 2);
}

static void filters(const vortex_arrow_node *node)
{
    uint64_t rows[ROWS], row, offset;
    int kind;
    for (kind = 0; kind < 5; kind++) {
        for (offset = 0; offset < 14; offset += 13) {
            vortex_arrow_step step = step_of(VORTEX_ARROW_FILTER, 0, offset, node->len);
            size_t count = 0;
            memset(list, 0xff, sizeof list);
            for (row = 0; row < node->len; row++) {
                uint64_t bit = row + offset;
                if (passes(kind, row)) {
                    rows[count++] = row;
                } else {
                    list[bit / 8] &= (uint8_t)~(1u << bit % 8);
                }
            }
            expect_rows(node, &step, rows, count, "a filter");
        }
    }
}

/* Writes an integer of a type, little-endian. */
static void put_number(size_t k, size_t width, uint64_t number)
{
    size_t byte;
    for (byte = 0; byte < width; byte++) {
        list[k * width + byte] = (uint8_t)(number >> 8 * byte);
    }
}

static void takes(const vortex_arrow_node *node)
{
    static const size_t sizes[] = {1, 2, 4, 8, 1, 2, 4, 8};
    uint64_t rows[ROWS], ptype;
    size_t k, count = node->len ? 150 : 0;
    for (ptype = VORTEX_ARROW_U8; ptype <= VORTEX_ARROW_I64; ptype++) {
        uint64_t most = ptype == VORTEX_ARROW_I8 && node->len > 128 ? 128 : node->len;
        vortex_arrow_step step = step_of(VORTEX_ARROW_TAKE, ptype, 2, count);
        memset(list, 0xff, sizeof list);
        for (k = 0; k < count; k++) {
            rows[k] = k == 1 ? most - 1 : k * 2654435761u % most;
            put_number(k + 2, sizes[ptype], rows[k]);
        }
        expect_rows(node, &step, rows, count, "a take");
        if (count) {
            put_number(count / 2, sizes[ptype], UINT64_MAX);
            expect(call(node, 1, &step, 1, ROOM).status == VORTEX_ARROW_BROKEN, "out of bounds",
                ptype);
            expect(!memcmp(room_bytes, wanted, ROOM), "out of bounds keeps the room", ptype);
        }
    }
}

/* Expects a status, a node or a step, and what is wrong with it. */
static void fails(const char *what, const vortex_arrow_node *nodes, size_t n_nodes,
    const vortex_arrow_step *step, uint64_t status, uint64_t place, uint64_t cause)
{
    vortex_arrow_answer answer = call(nodes, n_nodes, step, 1, ROOM);
    expect(answer.status == status, what, 0);
    expect(answer.node_or_step == place, what, 1);
    expect(answer.what == cause, what, 2);
    expect(!memcmp(room_bytes, wanted, ROOM), what, 3);
    expect(needs[0].len == 0xeeeeeeeeeeeeeeee, what, 4);
}

static void invalid_columns(void)
{
    vortex_arrow_node good = node_of(4, 10, 3), nodes[2], bad;
    vortex_arrow_step step = step_of(VORTEX_ARROW_SLICE, 0, 0, 0), none = step;
    step.end = 5;
    nodes[0] = nodes[1] = good;
    fails("no node", nodes, 0, &none, 1, 0, VORTEX_ARROW_LACKS_TREE);
    fails("two trees", nodes, 2, &step, 1, 1, VORTEX_ARROW_LACKS_TREE);
    bad = good, bad.format = 99;
    fails("an unknown format", &bad, 1, &step, VORTEX_ARROW_FORMAT, 0, 0);
    bad = good, bad.children = 1;
    fails("a child that isn't there", &bad, 1, &step, 1, 0, VORTEX_ARROW_LACKS_TREE);
    bad = good, bad.valid.data = source, bad.valid.len = 1;
    fails("too little validity", &bad, 1, &step, 1, 0, VORTEX_ARROW_LACKS_VALID);
    bad = good, bad.values.len--;
    fails("too few values", &bad, 1, &step, 1, 0, VORTEX_ARROW_LACKS_VALUES);
    bad = good, bad.offset = UINT64_MAX;
    fails("an offset past 2^60", &bad, 1, &step, 1, 0, VORTEX_ARROW_LACKS_ROWS);
    bad = good, bad.len = UINT64_MAX;
    fails("rows past 2^60", &bad, 1, &step, 1, 0, VORTEX_ARROW_LACKS_ROWS);
}

static void invalid_steps(void)
{
    vortex_arrow_node node = node_of(4, 10, 3);
    vortex_arrow_step slice = step_of(VORTEX_ARROW_SLICE, 0, 0, 0), bad;
    memset(list, 0, sizeof list);
    bad = slice, bad.kind = 4;
    fails("an unknown kind", &node, 1, &bad, VORTEX_ARROW_LACKING, 0, 0);
    bad = slice, bad.end = 11;
    fails("a slice past the rows", &node, 1, &bad, VORTEX_ARROW_BROKEN, 0, 0);
    bad = slice, bad.start = 5, bad.end = 4;
    fails("a slice that ends before its start", &node, 1, &bad, VORTEX_ARROW_BROKEN, 0, 0);
    bad = step_of(VORTEX_ARROW_FILTER, 0, 0, 9);
    fails("a short mask", &node, 1, &bad, VORTEX_ARROW_BROKEN, 0, VORTEX_ARROW_BAD_MASK);
    bad = step_of(VORTEX_ARROW_FILTER, 0, 0, 10), bad.values.len = 1;
    fails("a mask without its last bits", &node, 1, &bad, VORTEX_ARROW_LACKING, 0, 3);
    bad = step_of(VORTEX_ARROW_TAKE, VORTEX_ARROW_F64, 0, 1);
    fails("floats", &node, 1, &bad, VORTEX_ARROW_BROKEN, 0, VORTEX_ARROW_INVALID_INDICES);
    bad = step_of(VORTEX_ARROW_TAKE, VORTEX_ARROW_U8, UINT64_MAX, 1);
    fails("an offset past the indices", &node, 1, &bad, VORTEX_ARROW_LACKING, 0, 2);
}

/* Expects ROOM, and no need, where the counts differ. */
static void counts(size_t n_needs, size_t n_rooms)
{
    vortex_arrow_node node = node_of(4, 10, 3);
    vortex_arrow_step step = step_of(VORTEX_ARROW_SLICE, 0, 0, 0);
    vortex_arrow_room rooms[2];
    vortex_arrow_answer answer;
    memset(rooms, 0, sizeof rooms);
    memset(needs, 0xee, sizeof needs);
    answer = vortex_arrow_select(&node, 1, &step, 1, needs, n_needs, rooms, n_rooms);
    expect(answer.status == VORTEX_ARROW_ROOM, "counts that differ", n_needs);
    expect(answer.node_or_step == 1, "no node is named", n_rooms);
    expect(needs[0].len == 0xeeeeeeeeeeeeeeee, "no need is written", n_rooms);
}

/* Expects a guess of a node's needs, of 8 rows of 16. */
static void guesses(uint64_t format, uint64_t width, uint64_t is_nullable, uint64_t valid,
    uint64_t values)
{
    vortex_arrow_node node = node_of(width, 16, 0);
    vortex_arrow_need need;
    node.format = format;
    expect(vortex_arrow_guess(&node, 1, 8, is_nullable, &need, 1) == VORTEX_ARROW_DONE, "guess",
        format);
    expect(need.len == 8 && need.valid == valid && need.values == values, "a guess", format);
}

int main(void)
{
    size_t k, j, offset;
    refill();
    for (k = 0; k < N_WIDTHS; k++) {
        for (j = 0; j < N_LENGTHS; j++) {
            for (offset = 0; offset < 4; offset += 3) {
                vortex_arrow_node node = node_of(widths[k], lengths[j], offset);
                slices(&node);
                filters(&node);
                takes(&node);
            }
        }
    }
    invalid_columns();
    invalid_steps();
    counts(0, 1);
    counts(1, 0);
    counts(2, 1);
    guesses(VORTEX_ARROW_NULL, 0, 1, 0, 0);
    guesses(VORTEX_ARROW_BITS, 0, 0, 0, 1);
    guesses(VORTEX_ARROW_FIXED, 5, 1, 1, 40);
    guesses(VORTEX_ARROW_VIEWS, 0, 0, 0, 128);
    return report();
}
