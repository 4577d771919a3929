/* What the files of the shim share. Nothing here is for callers. */
#ifndef VORTEX_INTERNAL_H
#define VORTEX_INTERNAL_H

#include "vortex_arrow.h"

/* A shared library that contains the shim doesn't export what is marked so. */
#if defined(__GNUC__)
#define VORTEX_HIDDEN __attribute__((visibility("hidden")))
#else
#define VORTEX_HIDDEN
#endif

#ifdef __cplusplus
extern "C" {
#endif

/* The memory that arrays of the shim point to. It is freed with the last of these arrays. */
typedef struct owner {
    size_t count;
    struct owner *kept;      /* an owner that this one counts on, or null */
    struct ArrowArray *held; /* arrays that are released with this owner */
    size_t n_held;
} owner;

/* The private data of an array of the shim. */
typedef struct part {
    owner *of;
    const struct ArrowArray *shared; /* the array whose memory it uses, or null for its own */
    owner *root; /* what holds that array: of->kept, or an owner that of->kept counts on */
    struct ArrowArray *lender; /* of views: the array of of->held that holds their data buffers */
} part;

/* One block of memory with an owner at its start, and what is left of it. */
typedef struct supply {
    owner *of;
    part *parts;
    struct ArrowArray *arrays, **pointers;
    const void **buffers;
    uint8_t *bytes;
    uint64_t status;
} supply;

/* ---- The library's calls over formats, which src/formats.rt of vortex_arrow_c specifies ---- */

/* How an array of a format is stored. A buffer is named by its number in Arrow's order, from 1; 0
 * says that there is none. */
typedef struct vortex_arrow_layout {
    uint64_t format, width, buffers;
    uint64_t valid, offsets, values, sizes;
    uint64_t children; /* 2^64 - 1 where the schema says how many */
    uint64_t is_map;
    uint64_t codes; /* of a dictionary: 0 none, 1 without a sign, 2 with a sign */
} vortex_arrow_layout;

/* What the two structs of an array say of themselves; the flags are 0 for null pointers. */
typedef struct vortex_arrow_shape {
    uint64_t len, offset, null_count, buffers, children, schema_children;
    uint64_t has_buffers, has_children, has_first, has_dictionary, schema_dictionary;
} vortex_arrow_shape;

/* How many children an array has, or data buffers of views, and how many bytes each buffer has. */
typedef struct vortex_arrow_lengths {
    uint64_t children, valid, offsets, values, sizes;
} vortex_arrow_lengths;

/* Returns DONE, or FORMAT for an unknown format. */
uint64_t vortex_arrow_layout_of(const uint8_t *text, size_t n_text, vortex_arrow_layout *layout);
/* Returns how many ids it wrote. */
size_t vortex_arrow_type_ids(const uint8_t *text, size_t n_text, uint8_t *ids, size_t n_ids);
/* Returns 0, or the number of what doesn't fit: 1 length, 2 buffers, 3 children, 4 validity,
 * 5 dictionary, 6 rows. */
uint64_t vortex_arrow_measure(const vortex_arrow_layout *layout, const vortex_arrow_shape *shape,
    vortex_arrow_lengths *lengths);
uint64_t vortex_arrow_text_len(const vortex_arrow_node *node);
/* Returns 2^64 - 1 where no length says it. */
uint64_t vortex_arrow_data_length(const vortex_arrow_node *node, size_t k);
uint64_t vortex_arrow_ends_past(const vortex_arrow_node *list, uint64_t rows);

/* Where a node comes from: an array, or a data buffer of its parent's views. */
typedef struct source {
    const struct ArrowSchema *schema; /* null for a data buffer */
    struct ArrowArray *array;
    size_t parent, end; /* `end` is the node after the last of its descendants */
    int level;
    int is_kept; /* the answer shares it, so nothing is written for it */
    vortex_arrow_layout layout; /* of an array */
} source;

/* The rows of an answer: those that steps select of one table, or spans of several. */
typedef struct vortex_arrow_rows {
    const vortex_arrow_step *steps;
    size_t n_steps;
    const vortex_arrow_group *groups; /* null for steps */
    const vortex_arrow_span *spans;
    size_t n_spans;
} vortex_arrow_rows;

/* The nodes of a column. */
typedef struct table {
    vortex_arrow_node *nodes;
    source *sources;
    size_t len, room;
    uint8_t *ids; /* the type ids of unions */
    size_t n_ids;
    int gathers; /* rows of several tables are written, so nothing is kept */
    size_t data_buffers; /* how many each node of views has at least */
    /* What the answer needs: arrays with buffers of their own, these buffers, arrays that it shares
     * with the source, and how many of these hold the data buffers of views. */
    size_t n_arrays, n_buffers, n_shared, n_views;
    size_t *left; /* how many more columns the call may visit */
    const struct table *outer; /* of a dictionary: the table of the column that has it */
    size_t outer_node;
    vortex_arrow_error *error;
} table;

#define VORTEX_NO_NODE ((size_t)-1)

/* arrow_faults.c */
VORTEX_HIDDEN uint64_t vortex_arrow_fault(vortex_arrow_error *error, uint64_t status,
    const char *place);
VORTEX_HIDDEN uint64_t vortex_arrow_fault_at(const table *t, uint64_t status, size_t node,
    const char *part);
VORTEX_HIDDEN uint64_t vortex_arrow_fault_of_node(const table *t, vortex_arrow_answer answer);

/* arrow.c */
VORTEX_HIDDEN vortex_arrow_answer vortex_arrow_count_picks(uint64_t len,
    const vortex_arrow_step *steps, size_t n_steps, vortex_arrow_picks_need *need);
VORTEX_HIDDEN uint64_t vortex_arrow_admit(const struct ArrowSchema *schema,
    const struct ArrowArray *array, vortex_arrow_error *error);
VORTEX_HIDDEN uint64_t vortex_arrow_admit_dictionaries(const table *t);
VORTEX_HIDDEN int vortex_arrow_leaves_nulls(const vortex_arrow_step *steps, size_t n_steps);
VORTEX_HIDDEN uint64_t vortex_arrow_select_rows(const struct ArrowSchema *schema,
    struct ArrowArray *array, const vortex_arrow_step *steps, size_t n_steps,
    struct ArrowArray *out, vortex_arrow_error *error);

/* arrow_formats.c */
VORTEX_HIDDEN int vortex_arrow_has_views(const vortex_arrow_node *node);
VORTEX_HIDDEN int vortex_arrow_is_union(const vortex_arrow_node *node);
VORTEX_HIDDEN int vortex_arrow_is_list_view(const vortex_arrow_node *node);

/* arrow_table.c */
VORTEX_HIDDEN uint64_t vortex_arrow_walk(table *t, const struct ArrowSchema *schema,
    struct ArrowArray *array, int level);
VORTEX_HIDDEN void vortex_arrow_drop_table(table *t);
VORTEX_HIDDEN vortex_arrow_extra vortex_arrow_extra_of(const source *from);
VORTEX_HIDDEN size_t vortex_arrow_padding(const table *t, const vortex_arrow_node *node,
    const source *from);

/* arrow_answer.c */
VORTEX_HIDDEN vortex_arrow_answer vortex_arrow_answer_rows(const table *t,
    const vortex_arrow_rows *rows, struct ArrowArray *out);

/* arrow_arrays.c */
VORTEX_HIDDEN int vortex_arrow_supply(supply *s, size_t parts, size_t arrays, uint64_t extra);
VORTEX_HIDDEN void vortex_arrow_own(supply *s, struct ArrowArray *array,
    const struct ArrowArray *shared, owner *root);
VORTEX_HIDDEN struct ArrowArray *vortex_arrow_lender(const struct ArrowArray *array);
VORTEX_HIDDEN size_t vortex_arrow_arrays_in(const struct ArrowArray *array, int level, size_t *left,
    uint64_t *status);

#ifdef __cplusplus
}
#endif

#endif
