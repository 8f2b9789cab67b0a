/* What librudlayog.a asks of a program without an operating system, and a pool that gives it.
 *
 * An archive for a processor without an operating system calls six functions, and nothing else. Three of them are
 * `memcpy`, `memmove` and `memset`, as the C standard has them. The other three are below: they give memory to the
 * calls on a memory, and take it back. The library is proved for functions that keep to what is said here, and
 * nothing checks that they do.
 *
 * The library may call them wherever it is called itself, and never at any other time: a program whose calls are not
 * made at once needs no lock for them. An archive for Linux has the three, over `malloc`, `realloc` and `free`. */
#ifndef RUDLAYOG_HEAP_H
#define RUDLAYOG_HEAP_H

#include <stdbool.h>
#include <stddef.h>
#include <stdint.h>

#ifdef __cplusplus
extern "C" {
#endif

/* Whether there is memory, and where. `at` is not null, also where there is none. */
struct rudlayog_block {
    bool is_there;
    void *at;
};

/* Gives a new block of at least `size` octets, which no other block that is in use overlaps, or none. `align` is a
 * power of two up to 16 that divides the block's address; `size` is below 2^63, and may be 0. */
struct rudlayog_block rattle_alloc(size_t size, size_t align);

/* Makes a block that is in use one of at least `size` octets, which may stand elsewhere: its first `kept` octets are
 * as they were, and the old block is then not in use. Or there is none, and the old block is as it was. `kept` is at
 * most `size`, and at most the old size; `align` is that of the old block. */
struct rudlayog_block rattle_realloc(void *block, size_t kept, size_t size, size_t align);

/* Takes back a block that is in use. */
void rattle_dealloc(void *block);

/* What is used of the pool of pool.c: in octets, each block with its head and what its size is rounded up by. */
struct rudlayog_pool_use {
    size_t octets;  /* in blocks that are in use */
    size_t most;    /* the most that were in use at once */
    size_t cut;     /* in blocks that are or were in use: of the array no more was ever used */
    size_t blocks;  /* how many blocks are in use */
    size_t refused; /* how many times there was no block */
    size_t wrong;   /* how many times a block was given back that was not in use: nothing else was done */
};

struct rudlayog_pool_use rudlayog_pool_use(void);

/* How many octets of the pool are enough for a memory, so that no call on it is refused for memory once it is open,
 * nor rudlayog_request_write and rudlayog_report_read on its packets. tests/pools.c lives lives of memories in such
 * pools. It is assumed that at any time
 *
 *   - there are at most `stores` stores, and at most 16 routes for each;
 *   - they have at most `blocks` blocks in all, where a store that changes its size or its kind has those of both;
 *   - at most `reports` reports wait (rudlayog_memory_bound);
 *   - no packet or request that is given has more than RUDLAYOG_REQUEST_ROOM octets;
 *   - nothing else is in the pool.
 *
 * A block of a store takes 1,424 to 1,872 octets: 1,024 have room for each packet that is stored, and 64 what counts
 * its owners; the rest is its row in the tables of stores of all sizes. One packet more is in the pool than the stores
 * hold, since a new one is there before the oldest is given up, and another is kept (rudlayog.h, 'Out of memory'). A
 * report may have 255 entries, and then has blocks of 8,192 octets and less, and a place in the queue. What is constant
 * is for requests of 255 instructions, of which one is kept too, and for reading the setup. */
#define RUDLAYOG_POOL_FOR(stores, blocks, reports)                                                                     \
    ((size_t)263168 + (size_t)21504 * (stores) + RUDLAYOG_POOL_OF_BLOCK(stores) * ((size_t)(blocks) + 2) +             \
     (size_t)33040 * (reports))
#define RUDLAYOG_POOL_OF_BLOCK(stores)                                                                                 \
    ((size_t)1312 + 112 * (size_t)(((stores) > 0) + ((stores) > 1) + ((stores) > 3) + ((stores) > 7) + ((stores) > 15)))

#ifdef __cplusplus
}
#endif

#endif
