/* Memory for the library out of the C library's: what an archive for Linux has beside the library itself. */
#include "rudlayog_heap.h"

void *malloc(size_t size);
void *realloc(void *block, size_t size);
void free(void *block);

/* Where there is no memory, this is its address. */
static char nowhere;

static struct rudlayog_block found(void *at) {
    const struct rudlayog_block block = {at != NULL, at != NULL ? at : &nowhere};
    return block;
}

struct rudlayog_block rattle_alloc(size_t size, size_t align) { return found(malloc(size != 0 ? size : align)); }

struct rudlayog_block rattle_realloc(void *block, size_t kept, size_t size, size_t align) {
    (void)kept;
    return found(realloc(block, size != 0 ? size : align));
}

void rattle_dealloc(void *block) { free(block); }
