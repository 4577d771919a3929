/* Makes random steps, and applies them to row numbers by plain loops. */
#ifndef RANDOM_STEPS_H
#define RANDOM_STEPS_H

#include <string.h>

#include "random_arrow.h"

#define MOST 64
#define NONE UINT64_MAX

typedef struct walk {
    uint64_t picks[MOST]; /* a row, or NONE */
    size_t len;
    vortex_arrow_step steps[4];
    uint8_t bytes[3][2][MOST];
    size_t n_steps;
} walk;

static void add_slice(walk *w, vortex_arrow_step *step)
{
    size_t start = below(w->len + 1), len = below(w->len - start + 1);
    step->kind = VORTEX_ARROW_SLICE;
    step->start = start;
    step->end = start + len;
    memmove(w->picks, w->picks + start, len * sizeof w->picks[0]);
    w->len = len;
}

static void add_filter(walk *w, vortex_arrow_step *step, uint8_t *bits)
{
    size_t k, kept = 0, at = below(9);
    step->kind = VORTEX_ARROW_FILTER;
    step->offset = at;
    step->len = w->len;
    step->values.data = bits;
    step->values.len = (at + w->len + 7) / 8;
    for (k = 0; k < step->values.len; k++) {
        bits[k] = (uint8_t)roll();
    }
    for (k = 0; k < w->len; k++) {
        if (is_set(bits, at + k)) {
            w->picks[kept++] = w->picks[k];
        }
    }
    w->len = kept;
}

static void add_take(walk *w, vortex_arrow_step *step, uint8_t *numbers, uint8_t *valid)
{
    uint64_t picks[MOST];
    size_t k, len = w->len ? below(40) : 0;
    step->kind = VORTEX_ARROW_TAKE;
    step->ptype = VORTEX_ARROW_U8;
    step->len = len;
    step->values.data = numbers;
    step->values.len = len;
    if (len && below(2)) {
        step->valid.data = valid;
        step->valid.len = (len + 7) / 8;
    }
    for (k = 0; k < len; k++) {
        int is_there = below(4) != 0 || !step->valid.len;
        numbers[k] = is_there ? (uint8_t)below(w->len) : (uint8_t)roll();
        valid[k / 8] = (uint8_t)((k % 8 ? valid[k / 8] : 0) | is_there << k % 8);
        picks[k] = is_there ? w->picks[numbers[k]] : NONE;
    }
    memcpy(w->picks, picks, sizeof picks);
    w->len = len;
}

/* The same steps, with one behind them that breaks a rule. */
static walk broken_walk(const walk *w)
{
    static const uint8_t past[] = {MOST + 1};
    walk broken = *w;
    vortex_arrow_step *last = &broken.steps[broken.n_steps++];
    memset(last, 0, sizeof *last);
    last->kind = below(2) ? VORTEX_ARROW_SLICE : VORTEX_ARROW_TAKE;
    last->end = MOST + 1;
    last->len = 1;
    last->values.data = past;
    last->values.len = 1;
    return broken;
}

static void random_walk(walk *w, size_t rows)
{
    size_t k;
    memset(w, 0, sizeof *w);
    for (k = 0; k < rows; k++) {
        w->picks[k] = k;
    }
    w->len = rows;
    w->n_steps = below(4);
    for (k = 0; k < w->n_steps; k++) {
        switch (below(3)) {
        case 0: add_slice(w, &w->steps[k]); break;
        case 1: add_filter(w, &w->steps[k], w->bytes[k][0]); break;
        default: add_take(w, &w->steps[k], w->bytes[k][0], w->bytes[k][1]); break;
        }
    }
}

#endif
