/* The allocator of libvortex_arrow_c.a and libvortex_rows_c.a, over that of C. A program links this
 * file, or three functions of its own in its place. */
#include "pages.h"

#include <stddef.h>
#include <stdlib.h>

/* A shared library that contains this file doesn't export what is marked so. */
#if defined(__GNUC__)
#define HIDDEN __attribute__((visibility("hidden")))
#else
#define HIDDEN
#endif

/* An allocated block. `is_there` is 0 where memory runs out. */
typedef struct block {
    size_t is_there;
    void *place;
} block;

HIDDEN block rattle_alloc(size_t size, size_t align);
HIDDEN block rattle_realloc(void *place, size_t old, size_t size, size_t align);
HIDDEN void rattle_dealloc(void *place);

static block block_at(void *place) {
    block made = {place != NULL, place};
    return made;
}

/* malloc aligns to 16 bytes, and the libraries ask for no more. A block of no bytes is allocated
 * too. */
block rattle_alloc(size_t size, size_t align) {
    block made = block_at(malloc(size ? size : align));
    vortex_advise_pages(made.place, size);
    return made;
}

/* A block keeps the advice when it grows on. To advise it each time costs more than it saves. */
block rattle_realloc(void *place, size_t old, size_t size, size_t align) {
    block grown = block_at(realloc(place, size ? size : align));
    if (old < VORTEX_LARGE) {
        vortex_advise_pages(grown.place, size);
    }
    return grown;
}

void rattle_dealloc(void *place) { free(place); }
