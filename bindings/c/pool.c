/* Memory for the library out of one array, for programs without an operating system: to be compiled with a program,
 * or copied.
 *
 * Blocks are cut off the array one after another. A block has a power of two of octets, its head among them; one that
 * is given back waits for the next of its size. Blocks are not divided, so that nothing is ever scattered. Those that
 * wait at the end of what is cut are joined with the rest of the array again; and where no block is in use, the array
 * is whole. So a call of the library that gives back all that it took, such as an opening that is refused, leaves the
 * pool as it was, unless more than JOINED blocks wait there: then the next calls join the others.
 *
 * Each call joins at most JOINED blocks, and takes constant time, but for two things: the octets that a block keeps as
 * it moves; and where the array is cut to its end, all blocks that wait there are joined before a block is refused.
 * Nothing of the C library is called but `memcpy` and `memset`, which the library needs too. A block that is given back
 * and is not in use, as one that was given back before, is counted, and nothing else is done with it.
 *
 * `-DRUDLAYOG_POOL=..` sets the size of the array, in octets; RUDLAYOG_POOL_FOR says how many are enough. */
#include "rudlayog_heap.h"

#ifndef RUDLAYOG_POOL
#define RUDLAYOG_POOL RUDLAYOG_POOL_FOR(2, 1000, 16)
#endif

/* What is used of the array. A test may set it. */
#ifndef RUDLAYOG_POOL_END
#define RUDLAYOG_POOL_END sizeof pool
#endif

void *memcpy(void *to, const void *from, size_t count);

/* A block of class k has 2^k octets. */
enum { LEAST = 5, CLASSES = 64, ALIGNED = 16, JOINED = 128 };

/* What a block is. Other octets than these are no head of a block. */
enum { IN_USE = 0x5A1D0B6C, WAITS = 0x3C7E9A21 };

/* The head of a block, which ends where the block's own octets begin, at a multiple of 16. */
typedef struct {
    uint8_t class;  /* of the block */
    uint8_t before; /* that of the block before it; 0 where it is the first */
    uint32_t state; /* IN_USE or WAITS */
} head;

/* The first octets of a block that waits. */
typedef struct {
    void *next, *previous;
} links;

enum { FIRST = ALIGNED - sizeof(head) };

static _Alignas(ALIGNED) uint8_t pool[RUDLAYOG_POOL];
/* Up to where blocks are cut, which is where a head begins, and the class of the last one; 0 where there is none. */
static size_t cut = FIRST;
static uint8_t last;
/* The blocks that wait, by class. */
static void *waiting[CLASSES];
static struct rudlayog_pool_use use;

static head *head_of(void *block) { return (head *)block - 1; }

static size_t size_of(unsigned class) { return (size_t)1 << class; }

/* The least class whose blocks have room for this many octets. */
static unsigned class_of(size_t size) {
    size_t rest = (size + sizeof(head) - 1) >> LEAST;
    unsigned class = LEAST;
    for (unsigned half = 32; half != 0; half /= 2) {
        if (rest >> half != 0) {
            rest >>= half;
            class += half;
        }
    }
    return class + (unsigned)rest;
}

/* Whether a block is in use. */
static bool is_in_use(void *block) {
    const uintptr_t first = (uintptr_t)pool + ALIGNED, at = (uintptr_t)block;
    return at >= first && at < (uintptr_t)pool + cut && at % ALIGNED == 0 && head_of(block)->state == IN_USE;
}

static void *cut_off(unsigned class) {
    const head whose = {(uint8_t)class, last, WAITS};
    void *block;
    if (size_of(class) > RUDLAYOG_POOL_END - cut) {
        return NULL;
    }
    block = pool + cut + sizeof(head);
    *head_of(block) = whose;
    cut += size_of(class);
    last = whose.class;
    return block;
}

static void put_waiting(void *block) {
    const unsigned class = head_of(block)->class;
    const links its = {waiting[class], NULL};
    if (its.next != NULL) {
        ((links *)its.next)->previous = block;
    }
    *(links *)block = its;
    waiting[class] = block;
    head_of(block)->state = WAITS;
}

static void take_out(void *block) {
    const links its = *(links *)block;
    if (its.next != NULL) {
        ((links *)its.next)->previous = its.previous;
    }
    if (its.previous != NULL) {
        ((links *)its.previous)->next = its.next;
    } else {
        waiting[head_of(block)->class] = its.next;
    }
}

static void *take_waiting(unsigned class) {
    void *block = waiting[class];
    if (block != NULL) {
        take_out(block);
    }
    return block;
}

/* Joins the last blocks that are cut with the rest of the array, while they wait: at most this many. */
static void join(size_t most) {
    for (; most != 0 && last != 0; most--) {
        void *block = pool + (cut - size_of(last)) + sizeof(head);
        if (head_of(block)->state != WAITS) {
            return;
        }
        take_out(block);
        cut -= size_of(last);
        last = head_of(block)->before;
    }
}

/* The array is whole: no block is in use. */
static void make_whole(void) {
    cut = FIRST;
    last = 0;
    for (unsigned class = 0; class < CLASSES; class++) {
        waiting[class] = NULL;
    }
}

/* A block that waits, one that is cut off, or a larger one that waits. */
static void *find(size_t size) {
    const unsigned class = class_of(size);
    void *block = take_waiting(class);
    if (block == NULL) {
        join(JOINED);
        block = cut_off(class);
    }
    if (block == NULL) {
        join(SIZE_MAX);
        block = cut_off(class);
    }
    for (unsigned larger = class + 1; block == NULL && larger < CLASSES; larger++) {
        block = take_waiting(larger);
    }
    return block;
}

static struct rudlayog_block take(size_t size) {
    void *block = size <= sizeof pool ? find(size) : NULL;
    const struct rudlayog_block taken = {block != NULL, block != NULL ? block : pool};
    if (!taken.is_there) {
        use.refused++;
        return taken;
    }
    head_of(block)->state = IN_USE;
    use.octets += size_of(head_of(block)->class);
    use.blocks++;
    use.most = use.octets > use.most ? use.octets : use.most;
    use.cut = cut > use.cut ? cut : use.cut;
    return taken;
}

struct rudlayog_block rattle_alloc(size_t size, size_t align) {
    (void)align;
    return take(size);
}

struct rudlayog_block rattle_realloc(void *block, size_t kept, size_t size, size_t align) {
    struct rudlayog_block moved = {is_in_use(block), block};
    (void)align;
    if (!moved.is_there) {
        use.wrong++;
        return moved;
    }
    if (size <= size_of(head_of(block)->class) - sizeof(head)) {
        return moved;
    }
    moved = take(size);
    if (moved.is_there) {
        memcpy(moved.at, block, kept);
        rattle_dealloc(block);
    }
    return moved;
}

void rattle_dealloc(void *block) {
    if (!is_in_use(block)) {
        use.wrong++;
        return;
    }
    use.octets -= size_of(head_of(block)->class);
    use.blocks--;
    put_waiting(block);
    if (use.blocks == 0) {
        make_whole();
    } else {
        join(JOINED);
    }
}

struct rudlayog_pool_use rudlayog_pool_use(void) { return use; }
