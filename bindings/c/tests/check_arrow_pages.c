/* Whether large blocks are advised for huge pages, by what Linux says of their mappings. Prints
 * `c: N passed, M failed`. Where the kernel has no huge pages, only the blocks are tested. */
#include "made_arrow.h"

typedef struct block {
    size_t is_there;
    void *place;
} block;

block rattle_alloc(size_t size, size_t align);
block rattle_realloc(void *place, size_t old, size_t size, size_t align);
void rattle_dealloc(void *place);

#define MIB ((size_t)1 << 20)

/* Whether the mapping with an address has the flag of huge pages, -1 where nothing says it. */
static int is_advised(const void *place)
{
    unsigned long long start, end, at = (unsigned long long)(uintptr_t)place;
    int is_here = 0, found = -1;
    char line[4096];
    FILE *file = fopen("/proc/self/smaps", "r");
    while (file && fgets(line, sizeof line, file)) {
        if (sscanf(line, "%llx-%llx ", &start, &end) == 2) {
            is_here = start <= at && at < end;
        } else if (is_here && !strncmp(line, "VmFlags:", 8)) {
            found = strstr(line, " hg") != NULL;
        }
    }
    if (file) {
        fclose(file);
    }
    return found;
}

static int has_huge_pages(void)
{
    FILE *file = fopen("/sys/kernel/mm/transparent_hugepage/enabled", "r");
    if (file) {
        fclose(file);
    }
    return file != NULL;
}

/* Expects that the middle of a block is advised, if the kernel has huge pages. */
static void expect_advised(const void *block, size_t size, const char *what)
{
    int is = is_advised((const char *)block + size / 2);
    expect(is == 1 || is < 0 || !has_huge_pages(), what, size);
}

static void blocks(void)
{
    block small = rattle_alloc(4 * MIB - 1, 1), large, grown;
    expect(small.is_there && is_advised((char *)small.place + MIB) != 1, "below 4 MiB", 0);
    large = rattle_alloc(4 * MIB, 1);
    expect(large.is_there == 1, "4 MiB", 0);
    expect_advised(large.place, 4 * MIB, "4 MiB are advised");
    memset(small.place, 7, 4 * MIB - 1);
    grown = rattle_realloc(small.place, 4 * MIB - 1, 16 * MIB, 1);
    expect(grown.is_there && ((char *)grown.place)[4 * MIB - 2] == 7, "a grown block", 0);
    expect_advised(grown.place, 16 * MIB, "16 MiB are advised");
    rattle_dealloc(large.place);
    rattle_dealloc(grown.place);
}

/* The answer to a selection, which is one block. */
static void selection(void)
{
    static int64_t values[1 << 20];
    struct ArrowArray out;
    vortex_arrow_error error;
    column c;
    make(&c, "l", "x", 1 << 20, 2);
    c.buffers[1] = values;
    values[77] = 5;
    expect(!vortex_select_arrow(&c.schema, &c.array, NULL, 0, NULL, &out, &error), "rows", 0);
    if (out.release) {
        expect(((const int64_t *)out.buffers[1])[77] == 5, "its rows", 0);
        expect_advised(out.buffers[1], sizeof values, "the answer is advised");
        out.release(&out);
    }
}

int main(void)
{
    blocks();
    selection();
    return report();
}
