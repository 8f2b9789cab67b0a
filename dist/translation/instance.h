/* ---- An instance: its array and its heap. */
/* The end of the array, as an address. */
#define RUD_END(m) (RUD_FIRST + (m)->size)

#ifndef RUDLAYOG_ARRAY
#ifndef RUDLAYOG_MALLOC
#include <stdlib.h>
#define RUDLAYOG_MALLOC malloc
#define RUDLAYOG_FREE free
#endif

/* Makes the array longer, twice as long where that is to be had. What is before the top of the stack is not kept. */
static bool rud_grow(rud *m, u64 end) {
    const u64 most = 0xFFFF0000u - RUD_FIRST, least = end - RUD_FIRST;
    const u32 kept = (u32)RUD_G0 - RUD_FIRST;
    u64 size = m->size;
    u8 *data;
    while (size < least) size *= 2;
    if (size > most) size = most;
    if (kept > m->size || size < least || size + RUD_MARGIN > SIZE_MAX) return false;
    data = (u8 *)RUDLAYOG_MALLOC((size_t)size + RUD_MARGIN);
    if (data == NULL && size != least) {
        size = least;
        data = (u8 *)RUDLAYOG_MALLOC((size_t)size + RUD_MARGIN);
    }
    if (data == NULL) return false;
    memcpy(data + kept, m->data + kept, m->size - kept);
    RUDLAYOG_FREE(m->data);
    m->data = data;
    m->size = (u32)size;
    return true;
}
#endif

/* ---- The heap: that of bindings/c/pool.c. A block of class k has 2^k octets, of which the first 8 are its head; one
 * that is given back waits for the next of its class. */
static u32 rud_class(u64 size) {
    u32 it;
    if (size >= 0x80000000u) return RUD_CLASSES;
    it = 32u - rud_clz32((u32)size + 7u);
    return it < 5 ? 5 : it;
}

static u32 rud_take_waiting(RUD_IT u32 it) {
    RUD_HERE
    const u32 at = RUD_ME->waiting[it];
    if (at != 0) RUD_ME->waiting[it] = GET32(at, 0);
    return at;
}

static u32 rud_cut(RUD_IT u32 it) {
    const u32 at = RUD_ME->cut;
    const u64 end = (u64)at + ((u64)1 << it);
#ifdef RUDLAYOG_ARRAY
    if (end > RUD_END(RUD_ME)) return 0;
#else
    if (end > RUD_END(m) && !rud_grow(m, end)) return 0;
#endif
    {
        RUD_HERE
        PUT64(at, 0, it);
    }
    RUD_ME->cut = (u32)end;
    return at + 8;
}

/* A block of the heap, or 0. */
static u32 rud_take(RUD_IT u64 size) {
    u32 it = rud_class(size), at = 0;
    if (it < RUD_CLASSES) at = rud_take_waiting(RUD_AS it);
    if (it < RUD_CLASSES && at == 0) at = rud_cut(RUD_AS it);
    for (it++; at == 0 && it < RUD_CLASSES; it++) at = rud_take_waiting(RUD_AS it);
    return at;
}

/* The class of a block that is in use. */
static u32 rud_class_of(RUD_IT u32 at) {
    RUD_HERE
    return GET32(at - 8u, 0) & (RUD_CLASSES - 1u);
}

static void rud_give_back(RUD_IT u32 at) {
    const u32 it = rud_class_of(RUD_AS at);
    RUD_HERE
    PUT32(at, 0, RUD_ME->waiting[it]);
    RUD_ME->waiting[it] = at;
}

/* Tells the functions of a block, or that there is none. */
static void rud_tell(RUD_IT u64 out, u32 at) {
    RUD_HERE
    PUT64((u32)out, 0, at != 0);
    PUT64((u32)out, 8, at != 0 ? at : 16u);
}

static void rud_alloc(RUD_IT u64 out, u64 size, u64 align) {
    (void)align;
    rud_tell(RUD_AS out, rud_take(RUD_AS size));
}

static void rud_realloc(RUD_IT u64 out, u64 old, u64 kept, u64 size, u64 align) {
    u32 at = (u32)old;
    (void)align;
    if (size > ((u64)1 << rud_class_of(RUD_AS at)) - 8) {
        at = rud_take(RUD_AS size);
        if (at != 0) {
            RUD_HERE
            COPY(at, (u32)old, (u32)kept);
            rud_give_back(RUD_AS (u32)old);
        }
    }
    rud_tell(RUD_AS out, at);
}

static void rud_dealloc(RUD_IT u64 at) { rud_give_back(RUD_AS (u32)at); }
