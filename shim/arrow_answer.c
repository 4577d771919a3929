/* Makes an array of what the library writes. C99 and C++11. */
#include "internal.h"

#include <stdlib.h>
#include <string.h>

#define ALIGNED(bytes) (((bytes) + 63) / 64 * 64)

static uint64_t need_of(const vortex_arrow_need *need, char slot)
{
    return slot == 'v' ? need->valid : slot == 'o' ? need->offsets
        : slot == 'd' ? need->values : need->sizes;
}

static vortex_arrow_room_bytes *room_of(vortex_arrow_room *room, char slot)
{
    return slot == 'v' ? &room->valid : slot == 'o' ? &room->offsets
        : slot == 'd' ? &room->values : &room->sizes;
}

/* How many bytes a buffer has in the answer: whole cache lines, and one line if it is empty, but
 * none for a validity that isn't there. */
static uint64_t space_of(const vortex_arrow_need *need, char slot)
{
    uint64_t bytes = need_of(need, slot);
    return bytes || slot == 'v' ? ALIGNED(bytes) : 64;
}

/* How many bytes the lengths of the data buffers of views have. */
static uint64_t space_of_lengths(const vortex_arrow_node *node)
{
    return ALIGNED(8 * node->children + 8);
}

/* What the library writes to the buffer with a number, from 1, or 0. After a union's buffers it
 * writes the type ids of the children, which are in no buffer. */
static char slot_at(const vortex_arrow_layout *layout, const vortex_arrow_node *node,
    uint64_t number)
{
    uint64_t ids = vortex_arrow_is_union(node) ? layout->buffers + 1 : layout->sizes;
    return number == layout->valid ? 'v' : number == layout->offsets ? 'o'
        : number == layout->values ? 'd' : number == ids ? 's' : 0;
}

/* How many bytes a node has in the answer, or more than PTRDIFF_MAX / 4. */
static uint64_t bytes_of(const table *t, size_t node, const vortex_arrow_need *need)
{
    uint64_t bytes = 0, number = 1;
    char slot;
    if (t->sources[node].is_kept) {
        return 0;
    }
    if (t->gathers && vortex_arrow_has_views(&t->nodes[node])) {
        bytes = space_of_lengths(&t->nodes[node]);
    }
    while ((slot = slot_at(&t->sources[node].layout, &t->nodes[node], number++)) != 0 &&
        bytes <= PTRDIFF_MAX / 4) {
        uint64_t space = need_of(need, slot);
        bytes = space > PTRDIFF_MAX / 4 ? space : bytes + space_of(need, slot);
    }
    return bytes;
}

/* How many bytes the answer has, or more than PTRDIFF_MAX / 4. */
static uint64_t bytes_of_all(const table *t, const vortex_arrow_need *needs)
{
    uint64_t bytes = t->n_buffers * sizeof(void *) + 64;
    size_t k;
    for (k = 0; k < t->len && bytes <= PTRDIFF_MAX / 4; k++) {
        uint64_t more = bytes_of(t, k, &needs[k]);
        bytes = more > PTRDIFF_MAX / 4 ? more : bytes + more;
    }
    return bytes;
}

/* Allocates one block for the whole answer. Returns 0 where memory runs out. */
static int supply_answer(const table *t, const vortex_arrow_need *needs, supply *s)
{
    uint64_t bytes = bytes_of_all(t, needs);
    if (bytes > PTRDIFF_MAX / 4 ||
        !vortex_arrow_supply(s, t->n_arrays, t->n_arrays + t->n_shared, bytes)) {
        return 0;
    }
    s->of->held = s->arrays;
    s->arrays += t->n_views;
    s->bytes = (uint8_t *)(s->buffers + t->n_buffers);
    s->bytes += -(uintptr_t)s->bytes % 64;
    return 1;
}

/* Sets the data buffers of views, which are the source's. */
static void keep_buffers(const struct ArrowArray *from, struct ArrowArray *to, int64_t first)
{
    int64_t k;
    for (k = first; k < from->n_buffers; k++) {
        to->buffers[k] = from->buffers[k];
    }
}

/* Sets the buffers of an array that the library writes to. */
static void place_buffers(const table *t, size_t node, const vortex_arrow_need *need,
    vortex_arrow_room *room, struct ArrowArray *to, supply *s)
{
    const vortex_arrow_layout *layout = &t->sources[node].layout;
    const struct ArrowArray *from = t->sources[node].array;
    int64_t k = 0;
    char slot;
    int64_t padding = (int64_t)vortex_arrow_padding(t, &t->nodes[node], &t->sources[node]);
    to->buffers = s->buffers;
    to->n_buffers = from->n_buffers + padding;
    for (; (slot = slot_at(layout, &t->nodes[node], (uint64_t)k + 1)) != 0; k++) {
        vortex_arrow_room_bytes *bytes = room_of(room, slot);
        uint64_t space = space_of(need, slot);
        bytes->data = s->bytes;
        bytes->len = space;
        if (k < from->n_buffers) {
            to->buffers[k] = space ? s->bytes : NULL;
        }
        s->bytes += space;
    }
    if (!t->gathers) {
        keep_buffers(from, to, k);
    }
    s->buffers += to->n_buffers;
}

/* Sets the data buffers of views, which the library writes, and the place of their lengths. */
static void place_data(const table *t, size_t node, const vortex_arrow_need *needs,
    vortex_arrow_room *rooms, struct ArrowArray *to, supply *s)
{
    size_t k, count = t->nodes[node].children;
    for (k = 0; k < count; k++) {
        vortex_arrow_room_bytes *bytes = &rooms[node + 1 + k].values;
        bytes->data = s->bytes;
        bytes->len = space_of(&needs[node + 1 + k], 'd');
        to->buffers[k + 2] = s->bytes;
        s->bytes += bytes->len;
    }
    to->buffers[count + 2] = s->bytes;
    s->bytes += space_of_lengths(&t->nodes[node]);
}

/* Sets the lengths of data buffers that were written, and clears the rest of their cache lines. */
static void finish_data(const table *t, size_t node, const vortex_arrow_need *needs,
    vortex_arrow_room *rooms, struct ArrowArray *to)
{
    size_t k, count = t->nodes[node].children;
    uint8_t *lengths = (uint8_t *)to->buffers[count + 2];
    memset(lengths, 0, space_of_lengths(&t->nodes[node]));
    for (k = 0; k < count; k++) {
        uint64_t used = needs[node + 1 + k].values;
        memset(rooms[node + 1 + k].values.data + used, 0,
            space_of(&needs[node + 1 + k], 'd') - used);
        memcpy(lengths + 8 * k, &used, sizeof used);
    }
}

/* The next array of a supply. It is released until something is put there. */
static struct ArrowArray *next_array(supply *s)
{
    s->arrays->release = NULL;
    return s->arrays++;
}

/* Makes the array of a node, without its numbers, its children and what it shares. */
static void place_one(const table *t, size_t node, const vortex_arrow_need *need,
    vortex_arrow_room *room, struct ArrowArray *to, supply *s)
{
    const struct ArrowArray *from = t->sources[node].array;
    memset(to, 0, sizeof *to);
    vortex_arrow_own(s, to, NULL, NULL);
    place_buffers(t, node, need, room, to, s);
    to->dictionary = from->dictionary ? next_array(s) : NULL;
    to->n_children = from->n_children;
    to->children = to->n_children ? s->pointers : NULL;
    s->pointers += to->n_children;
}

/* Makes the array of a node, and those of its descendants. */
static void place(const table *t, size_t node, const vortex_arrow_need *needs,
    vortex_arrow_room *rooms, struct ArrowArray *to, supply *s)
{
    size_t next = node + 1;
    int64_t k;
    place_one(t, node, &needs[node], &rooms[node], to, s);
    if (t->gathers && vortex_arrow_has_views(&t->nodes[node])) {
        place_data(t, node, needs, rooms, to, s);
    }
    for (k = 0; k < to->n_children; k++) {
        to->children[k] = next_array(s);
        if (!t->sources[next].is_kept) {
            place(t, next, needs, rooms, to->children[k], s);
        }
        next = t->sources[next].end;
    }
}

/* Sets the numbers of an array that was written, and clears the rest of each buffer's last cache
 * line. */
static void finish_one(const table *t, size_t node, const vortex_arrow_need *need,
    vortex_arrow_room *room, struct ArrowArray *to)
{
    uint64_t number = 1;
    char slot;
    to->length = (int64_t)need->len;
    to->null_count = need->valid ? -1 : 0;
    if (t->nodes[node].format == VORTEX_ARROW_NULL) {
        to->null_count = to->length;
    }
    for (; (slot = slot_at(&t->sources[node].layout, &t->nodes[node], number)) != 0; number++) {
        uint64_t used = need_of(need, slot), space = space_of(need, slot);
        memset(room_of(room, slot)->data + used, 0, space - used);
        if (!space) {
            to->buffers[number - 1] = NULL;
        }
    }
}

/* Shares an array of the source with the answer. */
static void hand_on(struct ArrowArray *from, struct ArrowArray *to, supply *s)
{
    uint64_t status = vortex_arrow_share(from, to);
    s->status = s->status ? s->status : status;
}

/* Has the answer hold the data buffers of views, without the views that they were taken by. */
static void hold_data(struct ArrowArray *from, struct ArrowArray *to, supply *s)
{
    struct ArrowArray *lender = vortex_arrow_lender(from), *held = &s->of->held[s->of->n_held++];
    hand_on(lender ? lender : from, held, s);
    ((part *)to->private_data)->lender = held;
}

/* Finishes an array that was written, and its descendants: numbers, and what is shared with the
 * source. A fault that was found before has left the source as it was. */
static void finish(const table *t, size_t node, const vortex_arrow_need *needs,
    vortex_arrow_room *rooms, struct ArrowArray *to, supply *s)
{
    struct ArrowArray *from = t->sources[node].array;
    size_t next = node + 1;
    int64_t k;
    finish_one(t, node, &needs[node], &rooms[node], to);
    if (vortex_arrow_has_views(&t->nodes[node])) {
        if (t->gathers) {
            finish_data(t, node, needs, rooms, to);
        } else {
            hold_data(from, to, s);
        }
    }
    if (from->dictionary) {
        hand_on(from->dictionary, to->dictionary, s);
    }
    for (k = 0; k < to->n_children; k++) {
        if (t->sources[next].is_kept) {
            hand_on(from->children[k], to->children[k], s);
        } else {
            finish(t, next, needs, rooms, to->children[k], s);
        }
        next = t->sources[next].end;
    }
}

/* A node of the answer: its rows, validity and values. */
static vortex_arrow_node written_node(const vortex_arrow_node *from, const vortex_arrow_need *need,
    const vortex_arrow_room *room)
{
    vortex_arrow_node node = *from;
    node.len = need->len;
    node.offset = 0;
    node.valid.data = room->valid.data;
    node.valid.len = need->valid;
    node.values.data = room->values.data;
    node.values.len = need->values;
    return node;
}

/* Tests the codes of dictionaries. */
static vortex_arrow_answer check_codes(const table *t, const vortex_arrow_need *needs,
    const vortex_arrow_room *rooms)
{
    vortex_arrow_answer answer = {VORTEX_ARROW_DONE, 0, 0};
    size_t k;
    for (k = 0; k < t->len && !answer.status; k++) {
        vortex_arrow_node node = written_node(&t->nodes[k], &needs[k], &rooms[k]);
        vortex_arrow_extra extra = vortex_arrow_extra_of(&t->sources[k]);
        if (!t->sources[k].is_kept) {
            answer = vortex_arrow_check_codes(&node, &extra);
            answer.node_or_step = k;
        }
    }
    return answer;
}

/* ---- One answer ---- */

/* Which rows of which nodes, and how many rows and bytes each node has. */
typedef struct selection {
    const table *t;
    const vortex_arrow_rows *rows;
    vortex_arrow_need *needs;
    vortex_arrow_room *rooms;
} selection;

/* Has the library write the rows to the rooms, or say how large these have to be. */
static vortex_arrow_answer write_rows(const selection *s)
{
    const vortex_arrow_rows *rows = s->rows;
    size_t n = s->t->len;
    if (rows->groups) {
        return vortex_arrow_interleave(rows->groups, n, rows->spans, rows->n_spans, s->needs, n,
            s->rooms, n);
    }
    return vortex_arrow_select(s->t->nodes, n, rows->steps, rows->n_steps, s->needs, n, s->rooms,
        n);
}

/* Makes an array with the rooms that the needs say, and has the library write the rows. The needs
 * are the right ones where the status is ROOM. */
static vortex_arrow_answer make(const selection *s, struct ArrowArray *out)
{
    vortex_arrow_answer answer = {VORTEX_ARROW_NO_MEMORY, VORTEX_NO_NODE, 0};
    supply memory;
    if (!supply_answer(s->t, s->needs, &memory)) {
        return answer;
    }
    place(s->t, 0, s->needs, s->rooms, out, &memory);
    answer = write_rows(s);
    if (!answer.status) {
        answer = check_codes(s->t, s->needs, s->rooms);
    }
    if (!answer.status) {
        finish(s->t, 0, s->needs, s->rooms, out, &memory);
        answer.status = memory.status;
        answer.node_or_step = VORTEX_NO_NODE;
    }
    if (answer.status) {
        out->release(out);
    }
    return answer;
}

/* Sets the needs of a selection by steps to a guess. */
static vortex_arrow_answer guess(const selection *s)
{
    const vortex_arrow_rows *rows = s->rows;
    vortex_arrow_picks_need count = {0, 0};
    vortex_arrow_answer answer = vortex_arrow_count_picks(s->t->nodes[0].len, rows->steps,
        rows->n_steps, &count);
    if (!answer.status) {
        answer.status = vortex_arrow_guess(s->t->nodes, s->t->len, count.places,
            (uint64_t)vortex_arrow_leaves_nulls(rows->steps, rows->n_steps), s->needs, s->t->len);
    }
    return answer;
}

/* Sets the needs to what the library says. */
static vortex_arrow_answer measure(const selection *s)
{
    vortex_arrow_answer answer;
    memset(s->rooms, 0, s->t->len * sizeof *s->rooms);
    answer = write_rows(s);
    answer.status = answer.status == VORTEX_ARROW_ROOM ? (uint64_t)VORTEX_ARROW_DONE
        : answer.status;
    return answer;
}

/* From so many bytes on, a guess for which there is no memory may be far too large: it goes by the
 * last offset of strings and lists, which may be wrong where no row is selected. */
#define LARGE_GUESS ((uint64_t)1 << 20)

/* Makes an array of the rows. Where the guess is too small, or too large, the library is called
 * again. */
static vortex_arrow_answer make_by_guess(const selection *s, struct ArrowArray *out)
{
    vortex_arrow_answer answer = s->rows->groups ? measure(s) : guess(s);
    if (answer.status) {
        return answer;
    }
    answer = make(s, out);
    if (answer.status == VORTEX_ARROW_NO_MEMORY && bytes_of_all(s->t, s->needs) >= LARGE_GUESS) {
        answer = measure(s);
        answer = answer.status ? answer : make(s, out);
    } else if (answer.status == VORTEX_ARROW_ROOM) {
        answer = make(s, out);
    }
    return answer;
}

vortex_arrow_answer vortex_arrow_answer_rows(const table *t, const vortex_arrow_rows *rows,
    struct ArrowArray *out)
{
    vortex_arrow_answer answer = {VORTEX_ARROW_NO_MEMORY, VORTEX_NO_NODE, 0};
    selection s = {t, rows, NULL, NULL};
    s.needs = (vortex_arrow_need *)calloc(t->len, sizeof *s.needs);
    s.rooms = (vortex_arrow_room *)calloc(t->len, sizeof *s.rooms);
    if (s.needs && s.rooms) {
        answer = make_by_guess(&s, out);
    }
    free(s.needs);
    free(s.rooms);
    return answer;
}
