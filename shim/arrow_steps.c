/* Why a step is invalid or malformed: the numbers and the words of its error. C99 and C++11. */
#include "internal.h"

#include <inttypes.h>
#include <stdio.h>
#include <string.h>

/* What an error says of a step. */
typedef struct report {
    const vortex_arrow_step *step;
    vortex_arrow_error *error;
} report;

static const char *const causes[] = {"BadRange", "BadMask", "NotBool", "InvalidIndices",
    "BadPieces", "OutOfBounds"};

/* The names of the types of indices, and the bytes of an index. */
static const char *const types[] = {"u8", "u16", "u32", "u64", "i8", "i16", "i32", "i64", "f16",
    "f32", "f64"};
static const uint8_t widths[] = {1, 2, 4, 8, 1, 2, 4, 8, 2, 4, 8};

#define N_CAUSES (sizeof causes / sizeof *causes)
#define N_KINDS 4
#define N_TYPES (sizeof types / sizeof *types)

/* ---- Invalid steps ---- */

static const char *rows_of(uint64_t rows) { return rows == 1 ? "row" : "rows"; }

/* Writes the words behind the place and the cause. */
#define SAY(r, ...) snprintf((r)->error->text + strlen((r)->error->text),                          \
    sizeof (r)->error->text - strlen((r)->error->text), __VA_ARGS__)

static void say_range(const report *r)
{
    uint64_t start = r->step->start, end = r->step->end, rows = r->error->bound;
    if (rows < end) {
        SAY(r, "slice %" PRIu64 "..%" PRIu64 ", but %" PRIu64 " %s", start, end, rows,
            rows_of(rows));
    } else {
        SAY(r, "slice %" PRIu64 "..%" PRIu64 " starts after its end", start, end);
    }
}

static void say_mask(const report *r)
{
    SAY(r, "mask of length %" PRIu64 ", but %" PRIu64 " %s", r->error->found, r->error->bound,
        rows_of(r->error->bound));
}

static void say_index(const report *r)
{
    uint64_t found = r->error->found, rows = r->error->bound;
    if (r->error->is_negative) {
        SAY(r, "index -%" PRIu64, found);
        r->error->found = -found;
    } else {
        SAY(r, "index %" PRIu64, found);
    }
    SAY(r, ", but %" PRIu64 " %s", rows, rows_of(rows));
}

static void say_pieces(const report *r)
{
    if (r->error->found == r->error->bound) {
        SAY(r, "expected indices below 2^64, got a range with one past that");
        return;
    }
    SAY(r, "ranges of %" PRIu64 " indices, but %" PRIu64 " declared", r->error->found,
        r->error->bound);
}

static void say_cause(const report *r)
{
    switch (r->error->cause) {
    case VORTEX_ARROW_BAD_RANGE: say_range(r); break;
    case VORTEX_ARROW_BAD_MASK: say_mask(r); break;
    case VORTEX_ARROW_INVALID_INDICES:
        r->error->found = r->step->ptype;
        SAY(r, "expected integers as indices, got %s", types[r->step->ptype]);
        break;
    case VORTEX_ARROW_BAD_PIECES: say_pieces(r); break;
    case VORTEX_ARROW_OUT_OF_BOUNDS: say_index(r); break;
    default: SAY(r, "expected a filter of bools, got another type");
    }
}

/* ---- Malformed steps ---- */

/* What a malformed step lacks, as vortex_arrow_count numbers it. */
enum { LACKS_KIND, LACKS_TYPE, LACKS_END, LACKS_VALUES, LACKS_VALID, LACKS_LENGTHS };

static void say_short(const report *r, const char *name, uint64_t found, uint64_t bits)
{
    uint64_t last = r->step->offset + r->step->len;
    uint64_t bytes = last > UINT64_MAX / 8 ? UINT64_MAX : last * (bits / 8);
    r->error->found = found;
    r->error->bound = bits == 1 ? last / 8 + (last % 8 != 0) : bytes;
    SAY(r, "expected %" PRIu64 " bytes of %s, got %" PRIu64, r->error->bound, name, found);
}

static void say_unknown(const report *r, const char *name, uint64_t found, uint64_t bound)
{
    r->error->found = found;
    r->error->bound = bound;
    SAY(r, "expected a %s below %" PRIu64 ", got %" PRIu64, name, bound, found);
}

static void say_lack(const report *r)
{
    const vortex_arrow_step *step = r->step;
    int is_take = step->kind == VORTEX_ARROW_TAKE;
    switch (r->error->cause) {
    case LACKS_KIND: say_unknown(r, "kind", step->kind, N_KINDS); break;
    case LACKS_TYPE: say_unknown(r, "type of indices", step->ptype, N_TYPES); break;
    case LACKS_END:
        SAY(r, "expected an offset and a length below 2^63 together, got more");
        break;
    case LACKS_VALUES:
        say_short(r, "values", step->values.len, step->kind == VORTEX_ARROW_FILTER ? 1
            : is_take ? 8 * (uint64_t)widths[step->ptype] : 64);
        break;
    case LACKS_VALID: say_short(r, "validity", step->valid.len, 1); break;
    case LACKS_LENGTHS: say_short(r, "lengths", step->lengths.len, 64); break;
    default: say_short(r, "multipliers", step->multipliers.len, 64);
    }
}

/* ---- The call ---- */

/* Sets the numbers of an invalid step, which the library finds. Returns 0 if the steps don't have
 * that answer, or memory runs out. */
static int set_numbers(uint64_t len, const vortex_arrow_step *steps, size_t n_steps,
    vortex_arrow_error *error)
{
    vortex_arrow_cause_answer found = vortex_arrow_cause(len, steps, n_steps);
    error->found = found.found;
    error->bound = found.bound;
    error->is_negative = found.is_negative;
    return found.status == VORTEX_ARROW_BROKEN && found.step == error->step &&
        found.what == error->cause;
}

void vortex_arrow_explain(uint64_t len, const vortex_arrow_step *steps, size_t n_steps,
    vortex_arrow_answer answer, vortex_arrow_error *error)
{
    report r = {NULL, error};
    uint64_t step = answer.node_or_step;
    int is_broken = answer.status == VORTEX_ARROW_BROKEN;
    memset(error, 0, sizeof *error);
    vortex_arrow_fault(error, answer.status, "");
    if ((!is_broken && answer.status != VORTEX_ARROW_LACKING) || step >= n_steps) {
        return;
    }
    r.step = &steps[step];
    error->step = step;
    error->cause = answer.what;
    snprintf(error->place, sizeof error->place, "step %" PRIu64, step);
    snprintf(error->text, sizeof error->text, "%s: ", error->place);
    if (!is_broken) {
        say_lack(&r);
        return;
    }
    SAY(&r, "%s", answer.what < N_CAUSES ? causes[answer.what] : "Invalid");
    if (set_numbers(len, steps, n_steps, error)) {
        SAY(&r, ": ");
        say_cause(&r);
    }
}
