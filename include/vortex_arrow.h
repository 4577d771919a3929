/* Row selection over columns in Arrow's memory. Link libvortex_arrow_c.a and shim/memory.c. For the
 * calls over `struct ArrowArray` also link the shim, which is shim/arrow*.c.
 *
 * There are two layers:
 *
 * - The library is proved. A column is a table of nodes, each with its buffers and their lengths.
 *   The library reads and writes nothing outside of these buffers, whatever they hold.
 * - The shim, in C, is tested and not proved. It makes a table of nodes from a `struct ArrowArray`,
 *   and an array from what the library writes.
 *
 * Proved: at status VORTEX_ARROW_DONE a call of the library wrote what is said of it here. At every
 * other status it wrote nothing.
 *
 * Trusted: an array doesn't say how long its buffers are. The library computes these lengths:
 *
 * - of most buffers from `length`, `offset` and the format;
 * - of the bytes of strings from the last offset;
 * - of the data buffers of views from the last buffer, which lists their lengths.
 *
 * If a producer's buffer is shorter than that, the library reads past its end. The shim is trusted
 * too for names, metadata, flags, dictionaries, the order of children, and what is freed and when.
 *
 * The caller must ensure the following, which nothing tests:
 *
 * - Structs. They follow Arrow's C Data Interface: formats and names are terminated by a 0 byte,
 *   `children` and `buffers` have as many pointers as `n_children` and `n_buffers` say, and
 *   metadata has as many bytes as its lengths say.
 * - Lists of the library's calls, and those of a step. They are as in vortex_select.h: a pointer
 *   leads to as many items as its length says, a list has less than 2^63 bytes, and a list that is
 *   written overlaps no other list.
 * - Threads. Until a call returns no other thread writes to what it reads, and no other thread uses
 *   the structs that it was given. Results may be released in any order and by any thread.
 * - Memory, signals, forks, stack, processor. They are as in vortex_select.h. The calls allocate,
 *   so a signal handler must not make them. The shim recurses at most VORTEX_ARROW_LEVELS deep.
 *
 * Formats:
 *
 * - null (n), bools (b), integers and floats (c C s S i I l L e f g);
 * - binary of a fixed width (w:N, up to 2^31 - 1), decimals (d:P,S and d:P,S,W);
 * - dates, times, timestamps, durations and intervals (t..);
 * - strings and binary (u U z Z), and views of them (vu vz);
 * - structs (+s), lists (+l +L), lists of a fixed size (+w:N), list views (+vl +vL), maps (+m);
 * - unions, sparse (+us:) and dense (+ud:);
 * - a dictionary of any of these, if the format is of integers.
 *
 * Each may have an offset, and each but a null and a union a validity. An answer has the format of
 * its source. A dense union's children have exactly the rows that its type ids name, in order. The
 * status for run-end encoded arrays (+r) and for formats that Arrow doesn't have is
 * VORTEX_ARROW_FORMAT. */
#ifndef VORTEX_ARROW_H
#define VORTEX_ARROW_H

#include <stddef.h>
#include <stdint.h>

#ifdef __cplusplus
extern "C" {
#endif

#ifndef ARROW_C_DATA_INTERFACE
#define ARROW_C_DATA_INTERFACE

#define ARROW_FLAG_DICTIONARY_ORDERED 1
#define ARROW_FLAG_NULLABLE 2
#define ARROW_FLAG_MAP_KEYS_SORTED 4

struct ArrowSchema {
    const char *format;
    const char *name;
    const char *metadata;
    int64_t flags;
    int64_t n_children;
    struct ArrowSchema **children;
    struct ArrowSchema *dictionary;
    void (*release)(struct ArrowSchema *);
    void *private_data;
};

struct ArrowArray {
    int64_t length;
    int64_t null_count;
    int64_t offset;
    int64_t n_buffers;
    int64_t n_children;
    const void **buffers;
    struct ArrowArray **children;
    struct ArrowArray *dictionary;
    void (*release)(struct ArrowArray *);
    void *private_data;
};

#endif /* ARROW_C_DATA_INTERFACE */

#ifndef ARROW_C_STREAM_INTERFACE
#define ARROW_C_STREAM_INTERFACE

struct ArrowArrayStream {
    int (*get_schema)(struct ArrowArrayStream *, struct ArrowSchema *out);
    int (*get_next)(struct ArrowArrayStream *, struct ArrowArray *out);
    const char *(*get_last_error)(struct ArrowArrayStream *);
    void (*release)(struct ArrowArrayStream *);
    void *private_data;
};

#endif /* ARROW_C_STREAM_INTERFACE */

/* The version of this header. The shim's is what vortex_arrow_version returns. It is a million
 * times the major number, plus a thousand times the minor one, plus the patch number. */
#define VORTEX_ARROW_VERSION 1000

uint32_t vortex_arrow_version(void);

/* Returns the version of libvortex_arrow_c.a, which the shim is built for. */
uint32_t vortex_arrow_library_version(void);

/* Statuses. */
enum {
    VORTEX_ARROW_DONE = 0,
    VORTEX_ARROW_NO_MEANING = 1, /* a node of the column isn't valid */
    VORTEX_ARROW_BEYOND = 2,     /* a place is past the rows */
    VORTEX_ARROW_ROOM = 3,       /* an output list is too short */
    VORTEX_ARROW_OVERFLOW = 4,   /* offsets of 32 bits would pass 2^31 - 1 */
    VORTEX_ARROW_NO_MEMORY = 5,
    VORTEX_ARROW_BROKEN = 6,     /* an invalid step */
    VORTEX_ARROW_LACKING = 7,    /* a malformed step */
    VORTEX_ARROW_FORMAT = 8,     /* an unknown format */
    VORTEX_ARROW_NULL_PICK = 9,  /* a null is selected of a union, whose rows are never null */
    VORTEX_ARROW_UNLIKE = 10,    /* columns differ in type, or have different dictionaries */
    /* Of the shim alone: */
    VORTEX_ARROW_SHAPE = 16,     /* a struct doesn't match its format, or is released */
    VORTEX_ARROW_DEPTH = 17,     /* more than VORTEX_ARROW_LEVELS or VORTEX_ARROW_NODES */
    VORTEX_ARROW_SOURCE = 18     /* the source stream failed */
};

/* Steps. */

enum {
    VORTEX_ARROW_SLICE = 0,
    VORTEX_ARROW_FILTER = 1,
    VORTEX_ARROW_TAKE = 2,
    VORTEX_ARROW_TAKE_PIECES = 3
};

/* The types of a take's indices. */
enum {
    VORTEX_ARROW_U8 = 0,
    VORTEX_ARROW_U16 = 1,
    VORTEX_ARROW_U32 = 2,
    VORTEX_ARROW_U64 = 3,
    VORTEX_ARROW_I8 = 4,
    VORTEX_ARROW_I16 = 5,
    VORTEX_ARROW_I32 = 6,
    VORTEX_ARROW_I64 = 7,
    VORTEX_ARROW_F16 = 8,
    VORTEX_ARROW_F32 = 9,
    VORTEX_ARROW_F64 = 10
};

typedef struct vortex_arrow_bytes {
    const uint8_t *data;
    size_t len;
} vortex_arrow_bytes;

/* One step. Its kind says which fields count. Bits are numbered from the lowest of each byte,
 * numbers are little-endian, and lists may be longer than needed. */
typedef struct vortex_arrow_step {
    uint64_t kind;
    uint64_t start;  /* of a slice: the first row */
    uint64_t end;    /* of a slice: the row after the last one */
    uint64_t ptype;  /* of a take: the type of its indices */
    uint64_t offset; /* the first bit, index or range in its list */
    uint64_t len;    /* how many bits, indices or ranges there are */
    uint64_t declared; /* of ranges: how many indices they have together */
    vortex_arrow_bytes values; /* bits of a filter, indices of a take, starts of ranges (64 bits) */
    vortex_arrow_bytes valid;  /* a validity bit for each; empty if none is null */
    vortex_arrow_bytes lengths;     /* of ranges: how many indices each has (64 bits) */
    vortex_arrow_bytes multipliers; /* of ranges: how far apart they are (64 bits) */
} vortex_arrow_step;

/* Why a step is invalid. */
enum {
    VORTEX_ARROW_BAD_RANGE = 0,       /* a slice begins past its end, or ends past the rows */
    VORTEX_ARROW_BAD_MASK = 1,        /* a filter isn't as long as the rows */
    VORTEX_ARROW_NOT_BOOL = 2,        /* a filter isn't of bools */
    VORTEX_ARROW_INVALID_INDICES = 3, /* a take's indices aren't integers */
    VORTEX_ARROW_BAD_PIECES = 4,      /* a take's ranges aren't valid */
    VORTEX_ARROW_OUT_OF_BOUNDS = 5    /* an index is negative, or not below the rows */
};

/* The library. A call borrows the lists that it is given until it returns. */

/* Formats of nodes. */
enum {
    VORTEX_ARROW_NULL = 0,
    VORTEX_ARROW_BITS = 1,
    VORTEX_ARROW_FIXED = 2,
    VORTEX_ARROW_TEXT = 3,
    VORTEX_ARROW_LARGE_TEXT = 4,
    VORTEX_ARROW_STRUCT = 5,
    VORTEX_ARROW_LIST = 6,
    VORTEX_ARROW_LARGE_LIST = 7,
    VORTEX_ARROW_FIXED_LIST = 8,
    VORTEX_ARROW_VIEWS = 9,
    VORTEX_ARROW_LIST_VIEW = 10,
    VORTEX_ARROW_LARGE_LIST_VIEW = 11,
    VORTEX_ARROW_SPARSE_UNION = 12,
    VORTEX_ARROW_DENSE_UNION = 13
};

/* A node of a column. Its children follow it in order, each with its own descendants. */
typedef struct vortex_arrow_node {
    uint64_t format;
    uint64_t width;  /* of FIXED: bytes a value; of FIXED_LIST: items a row; else 0 */
    uint64_t len;    /* rows */
    uint64_t offset; /* the first row in the buffers */
    uint64_t children; /* of VIEWS: a FIXED node of width 1 for each data buffer */
    vortex_arrow_bytes valid;   /* validity bits; empty if no row is null */
    vortex_arrow_bytes offsets; /* of strings, lists, list views, dense unions */
    vortex_arrow_bytes values;  /* FIXED: values; BITS: bits; TEXT: bytes; VIEWS: 16 bytes a row;
                                 * unions: a type id a row, a byte each */
    vortex_arrow_bytes sizes;   /* of list views: sizes; of unions: a type id a child */
} vortex_arrow_node;

/* What Arrow's structs have of a node beside that. */
typedef struct vortex_arrow_extra {
    uint64_t null_count; /* UINT64_MAX if it is -1 */
    uint64_t codes;      /* 0 without a dictionary, 1 if its codes are unsigned, 2 if signed */
    uint64_t values;     /* the length of the dictionary */
    uint64_t map;        /* 1 of a map, else 0 */
} vortex_arrow_extra;

typedef struct vortex_arrow_room_bytes {
    uint8_t *data;
    size_t len;
} vortex_arrow_room_bytes;

/* The output buffers of a node. */
typedef struct vortex_arrow_room {
    vortex_arrow_room_bytes valid, offsets, values, sizes;
} vortex_arrow_room;

/* How many rows a node of the answer has, and the sizes that its output buffers must have. */
typedef struct vortex_arrow_need {
    uint64_t len, valid, offsets, values, sizes;
} vortex_arrow_need;

/* What an invalid node lacks. */
enum {
    VORTEX_ARROW_LACKS_TREE = 1,     /* nodes are left over, or too few */
    VORTEX_ARROW_LACKS_ROWS = 2,     /* offset + length below 2^60 */
    VORTEX_ARROW_LACKS_VALID = 3,    /* a validity bit for each row */
    VORTEX_ARROW_LACKS_CHILDREN = 4, /* as many children as its format has */
    VORTEX_ARROW_LACKS_VALUES = 5,   /* values for all rows */
    VORTEX_ARROW_LACKS_OFFSETS = 6,  /* an offset for each row, and one more */
    VORTEX_ARROW_LACKS_ITEMS = 7,    /* offsets that ascend, and items up to the last offset; of
                                      * views: a data buffer, and the bytes that they name there */
    VORTEX_ARROW_LACKS_LENGTH = 8,   /* as many rows as its parent needs */
    VORTEX_ARROW_LACKS_SIZES = 9,    /* a size for each row, or a type id for each child */
    VORTEX_ARROW_LACKS_ID = 10,      /* the type id of a child in each row */
    VORTEX_ARROW_LACKS_CODES = 16,   /* dictionary codes from 0 to below the dictionary's length */
    /* Of vortex_arrow_check_strict alone: */
    VORTEX_ARROW_LACKS_NULL_COUNT = 17, /* a null_count of -1, or of the nulls that there are */
    VORTEX_ARROW_LACKS_MAP = 18,        /* map entries of two fields, no null entry, no null key */
    VORTEX_ARROW_LACKS_VIEWS = 19,      /* string views with zeros after a short string and the
                                         * first four bytes of a long one, also under a null */
    VORTEX_ARROW_LACKS_LIST_VIEWS = 20, /* list views within the child, also under a null */
    VORTEX_ARROW_LACKS_DENSE = 21       /* dense union offsets that don't descend within a child */
};

/* How many places, and how many bytes of validity, the rows need that steps select. */
typedef struct vortex_arrow_picks_need {
    uint64_t places, valid;
} vortex_arrow_picks_need;

/* A status, the node or step that it is about, and what that node lacks or why that step is
 * invalid. */
typedef struct vortex_arrow_answer {
    uint64_t status, node_or_step, what;
} vortex_arrow_answer;

/* Returns in *need how many places and how many bytes of validity vortex_arrow_compose writes.
 *
 * - LACKING: a step is malformed. `node_or_step` is its number, and `what` says why: 0 an unknown
 *   kind; 1 an unknown type; 2 lengths past INT64_MAX; or there are too few: 3 values; 4 validity
 *   bits; 5 lengths; 6 multipliers.
 * - BROKEN: a step is invalid. `node_or_step` is its number, and `what` says why.
 * - NO_MEMORY. */
vortex_arrow_answer vortex_arrow_count(uint64_t len, const vortex_arrow_step *steps, size_t n_steps,
    vortex_arrow_picks_need *need);

/* Why a step is invalid: its number, the cause, and the numbers that it is about. */
typedef struct vortex_arrow_cause_answer {
    uint64_t status, step, what;
    uint64_t found;       /* the number that is wrong; of a negative index, its distance from 0 */
    uint64_t bound;       /* the number that it should be, or should not pass */
    uint64_t is_negative; /* 1 if `found` is of a negative index */
} vortex_arrow_cause_answer;

/* Returns the status of vortex_arrow_count, and the numbers of the first invalid step. By the cause
 * they are as vortex_arrow_explain sets them, except that INVALID_INDICES has none. They are 0 at
 * other statuses. */
vortex_arrow_cause_answer vortex_arrow_cause(uint64_t len, const vortex_arrow_step *steps,
    size_t n_steps);

/* Writes the row number of each row that the steps select of `len` rows, and 0 for a null. If
 * vortex_arrow_count says that they need validity, it also writes a bit for each to `valid`, which
 * is clear for a null. Places and bits after these keep what they hold.
 *
 * - ROOM: there are fewer places or bytes than vortex_arrow_count says.
 * - The statuses of vortex_arrow_count. */
vortex_arrow_answer vortex_arrow_compose(uint64_t len, const vortex_arrow_step *steps,
    size_t n_steps, uint64_t *places, size_t n_places, uint8_t *valid, size_t n_valid);

/* Tests every row of a table. The status is DONE if the table is a valid column. It is NO_MEANING
 * or FORMAT, with an invalid node, if it isn't. It may be NO_MEMORY in either case. */
vortex_arrow_answer vortex_arrow_check(const vortex_arrow_node *nodes, size_t n_nodes);

/* Tests the rules that Arrow's full validators add, of each node with its extra. The status is DONE
 * if no node violates a rule. If one does, it is NO_MEANING, with the first such node and the first
 * rule that it violates: LACKS_NULL_COUNT, LACKS_CODES, LACKS_MAP, LACKS_VIEWS, LACKS_LIST_VIEWS,
 * LACKS_DENSE, in this order. A node that has no extra lacks a null count. */
vortex_arrow_answer vortex_arrow_check_strict(const vortex_arrow_node *nodes, size_t n_nodes,
    const vortex_arrow_extra *extras, size_t n_extras);

/* Tests the dictionary codes of a node's rows that aren't null. The status is DONE if each is that
 * of a value, and if there is no dictionary, and else NO_MEANING with LACKS_CODES. */
vortex_arrow_answer vortex_arrow_check_codes(const vortex_arrow_node *node,
    const vortex_arrow_extra *extra);

/* Writes about how many rows and bytes `rows` selected rows need, node by node. They may be null
 * unless `is_nullable` is 0. The return value is DONE or NO_MEMORY.
 *
 * It is exact for formats whose rows have one size. Else it is a guess by the mean size, and
 * vortex_arrow_select says what the rows really need. */
uint64_t vortex_arrow_guess(const vortex_arrow_node *nodes, size_t n_nodes, uint64_t rows,
    uint64_t is_nullable, vortex_arrow_need *needs, size_t n_needs);

/* Writes the rows that the steps select to the rooms, node by node, without the nodes that are
 * kept, and to *needs how many rows and bytes these are.
 *
 * Only the rows that are selected are tested, and the numbers and the lengths of each node. The
 * children of views and of list views are kept: they need no bytes, and only their lengths are
 * tested.
 *
 * - LACKING and BROKEN, as vortex_arrow_count has them.
 * - NO_MEANING: `node_or_step` is an invalid node, and `what` is what it lacks.
 * - NULL_PICK: the column is a union, and a row is null.
 * - ROOM: there are not as many needs or rooms as nodes, or a room is smaller than its need. In the
 *   second case the needs are written, so call again with larger rooms.
 * - OVERFLOW: the node has more rows or bytes than its offsets can count.
 * - FORMAT and NO_MEMORY.
 *
 * At every status except DONE, nothing is written to the rooms. At DONE each byte of a room up to its
 * need is written, with zeros under nulls and in the bits past the rows, and no byte past it. */
vortex_arrow_answer vortex_arrow_select(const vortex_arrow_node *nodes, size_t n_nodes,
    const vortex_arrow_step *steps, size_t n_steps, vortex_arrow_need *needs, size_t n_needs,
    vortex_arrow_room *rooms, size_t n_rooms);

/* The nodes at one place of several tables, in the tables' order. */
typedef struct vortex_arrow_group {
    const vortex_arrow_node *nodes;
    size_t len;
} vortex_arrow_group;

/* Rows of one of several columns that follow one another. */
typedef struct vortex_arrow_span {
    uint64_t source; /* the column's number */
    uint64_t start;  /* the first row */
    uint64_t len;    /* how many rows they are */
} vortex_arrow_span;

/* Writes rows of several columns to the rooms, one span after another, node by node. The tables
 * have one shape: there is a group, a need and a room for each of its nodes. The status is DONE,
 * NO_MEANING, BEYOND, ROOM, OVERFLOW, NO_MEMORY, FORMAT or UNLIKE. At all but DONE nothing is
 * written to the rooms. The needs are written at DONE, and at ROOM if there are as many needs and
 * rooms as groups. */
vortex_arrow_answer vortex_arrow_interleave(const vortex_arrow_group *groups, size_t n_groups,
    const vortex_arrow_span *spans, size_t n_spans, vortex_arrow_need *needs, size_t n_needs,
    vortex_arrow_room *rooms, size_t n_rooms);

/* Writes zeros under the nulls of a node that has so many rows in these lists:
 *
 * - FIXED and VIEWS: over the values of null rows. BITS: over their bits.
 * - LIST_VIEW and LARGE_LIST_VIEW: over the offsets and the sizes of null rows.
 * - In the last byte of validity, and of the values of BITS, over the bits past the rows.
 *
 * Other bytes keep their values. If `valid` is empty, no row is null. The return value is DONE. It
 * is ROOM, and nothing is written, if there is no such format or a list has fewer bytes than the
 * rows need. */
uint64_t vortex_arrow_clear_nulls(uint64_t format, uint64_t width, uint64_t rows, uint8_t *valid,
    size_t n_valid, uint8_t *offsets, size_t n_offsets, uint8_t *values, size_t n_values,
    uint8_t *sizes, size_t n_sizes);

/* The shim. */

/* How many levels of columns there may be, and how many columns one call visits. Children and
 * dictionaries count for both. A column that two parents share counts twice. */
#define VORTEX_ARROW_LEVELS 64
#define VORTEX_ARROW_NODES 65536

/* What went wrong. */
typedef struct vortex_arrow_error {
    uint64_t status;
    uint64_t step;   /* of BROKEN and LACKING: the step's number, from 0 */
    uint64_t cause;  /* of BROKEN: why; of LACKING and NO_MEANING: what is lacking */
    uint64_t found;  /* of BROKEN and LACKING: the number that is wrong, or 0 */
    uint64_t bound;  /* the number that it should be, or should not pass, or 0 */
    uint64_t is_negative; /* 1 if `found` is the two's complement of a negative index */
    char place[120]; /* the names that lead to the column, and the buffer: "tags.item offsets" */
    char text[240];  /* the place and the words */
} vortex_arrow_error;

/* Sets *error to the numbers and the words of an answer of vortex_arrow_count or
 * vortex_arrow_compose, given the arguments of that call. If the answer is BROKEN, `found` and
 * `bound` are, by the cause:
 *
 * - BAD_RANGE: the end of the slice, and the rows before the step. If the end is within the rows,
 *   the start and the end.
 * - BAD_MASK: the length of the mask, and the rows.
 * - INVALID_INDICES: the type of the indices, and 0.
 * - BAD_PIECES: how many indices the ranges have, and how many are declared. If these are equal, an
 *   index passes 2^64 - 1, and both are 0.
 * - OUT_OF_BOUNDS: the first such index, and the rows.
 *
 * If it is LACKING, they are the bytes of the list that is too short, and those that it needs; or
 * the unknown kind or type, and the first number above the known ones. */
void vortex_arrow_explain(uint64_t len, const vortex_arrow_step *steps, size_t n_steps,
    vortex_arrow_answer answer, vortex_arrow_error *error);

/* Returns the rows that the steps select. *out_array and *out_schema become a column of the array's
 * type, which is nullable too if the indices of a take have a validity. `out_schema` and `error`
 * may be null. The return value is the status, which *error has too. An invalid step is reported
 * before any other fault except a malformed step.
 *
 * Of the array, these are tested: each node's numbers and lengths, the rows that are selected, and
 * the dictionary codes of those. Rows that aren't selected, dictionaries, and the children of list
 * views are not tested. If the producer isn't trusted, call vortex_arrow_check_array first.
 *
 * The schema and the array stay the caller's. NOTE: this modifies the array. If *array, or a child,
 * has a dictionary, views or list views, the part that the answer shares is replaced in place by a
 * reference-counted equivalent. So no other thread may read or release the array during the call.
 * Dictionaries, the data buffers of views, and the children of list views are shared. All else of
 * the answer has memory of its own. Array and answer may be released in any order.
 *
 * Each byte of this memory is written: under a null, in the bits after the last row, and in the
 * bytes after the rows there are zeros. Offsets of strings and lists are valid there, as are the
 * type ids and offsets of unions. Children of a struct that is null in the source have its rows.
 *
 * At every status except DONE, *out_array and *out_schema are marked as released. */
uint64_t vortex_select_arrow(const struct ArrowSchema *schema, struct ArrowArray *array,
    const vortex_arrow_step *steps, size_t n_steps, struct ArrowSchema *out_schema,
    struct ArrowArray *out_array, vortex_arrow_error *error);

/* Returns rows of several columns of one type as one column: those of the first span, then those
 * of the second, and so on. *out becomes an array in memory of its own. Its dictionaries are those
 * of the first array, which it shares. All dictionaries must be equal, byte by byte. A dense
 * union is of no known FORMAT here.
 *
 * The return value is DONE, NO_MEANING, BEYOND, OVERFLOW, NO_MEMORY, FORMAT, UNLIKE, SHAPE or
 * DEPTH. At every status except DONE, *out is marked as released. */
uint64_t vortex_interleave_arrow(const struct ArrowSchema *schema, struct ArrowArray **arrays,
    size_t n_arrays, const vortex_arrow_span *spans, size_t n_spans, struct ArrowArray *out,
    vortex_arrow_error *error);

/* Tests every row of a column, of its children and of its dictionaries: shapes, offsets, views,
 * type ids, the dictionary codes of rows that aren't null, and the rules of
 * vortex_arrow_check_strict. Whether strings are UTF-8, and what the format says of values such as
 * dates and decimals, isn't tested. The lengths of buffers stay trusted. The return value is the
 * status, as above. */
uint64_t vortex_arrow_check_array(const struct ArrowSchema *schema, struct ArrowArray *array,
    vortex_arrow_error *error);

/* Selects rows of a stream. The steps apply to the rows of all its batches, as if they were one
 * column. The source is read to its end. It stays the caller's, who releases it.
 *
 * *out returns a batch for each longest run of selected rows that are of one batch of the source.
 * So there is at most one for each if the rows ascend, and one without rows if no row is selected.
 * Its schema is nullable too if the indices of a take have a validity. If a batch has a fault,
 * get_next returns EINVAL, ENOMEM or EOVERFLOW. If the source fails, the status is SOURCE. */
uint64_t vortex_select_arrow_stream(struct ArrowArrayStream *source, const vortex_arrow_step *steps,
    size_t n_steps, struct ArrowArrayStream *out, vortex_arrow_error *error);

/* Makes *out another reference to the rows that *array has now, to be released on its own. If
 * *array isn't reference-counted yet, it is replaced in place by an equivalent that is. If its
 * holder then changes `length`, `offset` and `null_count`, the next call shares these rows. The
 * return value is DONE, SHAPE, DEPTH or NO_MEMORY. At SHAPE the array is released, or a child of it
 * is. */
uint64_t vortex_arrow_share(struct ArrowArray *array, struct ArrowArray *out);

/* Makes *out the rows of *array from `start` up to `end`, without a copy. *out shares the memory of
 * *array and is released on its own, as in vortex_arrow_share. NOTE: this modifies the array. If
 * it isn't reference-counted yet, it is replaced in place by an equivalent that is. The time
 * doesn't depend on the number of rows.
 *
 * The schema of *out is that of the array. The offset of *out is the array's plus `start`, and its
 * length is `end - start`. What is below it is the array's: children and dictionaries keep their
 * offsets and lengths. Its null count is 0 if the array's is, all rows if the format is n, and else
 * -1, which means that it isn't counted.
 *
 * The return value is the status, which *error has too; `error` may be null. It is that of
 * vortex_select_arrow with this slice as its only step, except that no row is tested. A range
 * past the rows is BROKEN, with the cause BAD_RANGE. At every status except DONE, *out is marked as
 * released, and the array stays as it is.
 *
 * Contents aren't tested: rows, offsets, type ids and codes. Strings are read up to their last
 * offset, which is another one in a slice. If the producer isn't trusted, call
 * vortex_arrow_check_array before. */
uint64_t vortex_arrow_slice(const struct ArrowSchema *schema, struct ArrowArray *array,
    uint64_t start, uint64_t end, struct ArrowArray *out, vortex_arrow_error *error);

/* Makes *out a copy of the schema. The return value is DONE, SHAPE, DEPTH or NO_MEMORY. Metadata
 * with a negative count or length is SHAPE. */
uint64_t vortex_arrow_copy_schema(const struct ArrowSchema *schema, struct ArrowSchema *out);

#ifdef __cplusplus
}
#endif

#endif
