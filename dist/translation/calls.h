/* ---- What a call takes in and out. */
static void rud_start(rud *it, u8 *data, u32 size) {
    u32 k;
    memset(it, 0, sizeof *it);
    it->data = data;
    it->size = size;
    it->cut = RUD_HEAP + 8u;
    memset(data + (RUD_STACK - RUD_FIRST), 0, RUD_BOUNCE - RUD_STACK);
    for (k = 0; k < sizeof rud_data / sizeof rud_data[0]; k++) {
        memcpy(data + (rud_data[k].at - RUD_FIRST), rud_data[k].octets, rud_data[k].count);
    }
    RUD_START_GLOBALS(it)
}

/* What a call has of an array. */
struct rud_call {
    u32 bounce, count, handle;
    bool fails;
    u32 blocks[8];
};

#ifdef RUDLAYOG_ARRAY
typedef char rud_array_is_too_small[(RUDLAYOG_ARRAY) >= RUD_HEAP - RUD_FIRST + 64u ? 1 : -1];
#define RUD_BEGIN(handle) rud_begin(&call, handle)

static void rud_begin(struct rud_call *call, const struct rudlayog_memory *memory) {
    call->bounce = RUD_BOUNCE;
    call->count = 0;
    call->handle = RUD_HANDLE;
    call->fails = false;
    if (rud_one.size == 0) rud_start(&rud_one, rud_array.octets, RUD_SIZE);
    if (memory == NULL) return;
    if (memory->is_open) {
        call->handle = (u32)(uintptr_t)memory->at;
    } else {
        call->handle = rud_take(16);
        call->fails = call->handle == 0;
        if (!call->fails) FILL(call->handle, 0, 16);
    }
}
#else
#define RUD_BEGIN(handle) rud *m = rud_begin(&call, handle)

static rud *rud_new(void) {
    const u32 size = (RUD_HEAP - RUD_FIRST + 0x4FFFFu) & ~(u32)0xFFFF;
    rud *it = (rud *)RUDLAYOG_MALLOC(sizeof *it);
    u8 *data = it != NULL ? (u8 *)RUDLAYOG_MALLOC((size_t)size + RUD_MARGIN) : NULL;
    if (data != NULL) {
        rud_start(it, data, size);
    } else if (it != NULL) {
        RUDLAYOG_FREE(it);
        it = NULL;
    }
    return it;
}

static rud *rud_begin(struct rud_call *call, const struct rudlayog_memory *memory) {
    rud *it = memory != NULL && memory->is_open ? (rud *)memory->at : rud_new();
    call->bounce = RUD_BOUNCE;
    call->count = 0;
    call->handle = RUD_HANDLE;
    call->fails = it == NULL;
    return it;
}
#endif

/* Room for what a call takes or gives. */
static u32 rud_room(RUD_IT struct rud_call *call, u64 size) {
    u32 at = call->bounce;
    if (call->fails) return 0;
    if (size <= RUD_HEAP - at) {
        call->bounce += RUD_ROUND(size);
        return at;
    }
    at = rud_take(RUD_AS size);
    if (at == 0) {
        call->fails = true;
    } else {
        call->blocks[call->count++] = at;
    }
    return at;
}

static u32 rud_rooms(RUD_IT struct rud_call *call, u64 count, u32 size) {
    if (count > 0xFFFFFFFFu / size) call->fails = true;
    return rud_room(RUD_AS call, count * size);
}

static u32 rud_text(RUD_IT struct rud_call *call, const void *octets, size_t count) {
    const u32 at = rud_room(RUD_AS call, count);
    if (!call->fails && count != 0) {
        RUD_HERE
        memcpy(rud_range(RUD_WHERE at, (u32)count), octets, count);
    }
    return at;
}

static void rud_out(RUD_IT void *to, u32 at, u64 count) {
    if (count != 0) {
        RUD_HERE
        memcpy(to, rud_range(RUD_WHERE at, (u32)count), (size_t)count);
    }
}

/* Gives the room back, and the whole array where no memory is open in it. */
static void rud_end(RUD_IT struct rud_call *call, struct rudlayog_memory *memory) {
    bool is_open = false;
#ifndef RUDLAYOG_ARRAY
    if (m == NULL) return;
#endif
    while (call->count != 0) rud_give_back(RUD_AS call->blocks[--call->count]);
    if (memory != NULL && call->handle != 0) {
        RUD_HERE
        is_open = GET8(call->handle, 8) != 0;
    }
#ifdef RUDLAYOG_ARRAY
    if (memory != NULL) {
        memory->at = is_open ? (void *)(uintptr_t)call->handle : NULL;
        memory->is_open = is_open;
        if (!is_open && call->handle != 0) rud_give_back(call->handle);
    }
#else
    if (memory != NULL) {
        memory->at = is_open ? m : NULL;
        memory->is_open = is_open;
    }
    if (!is_open) {
        RUDLAYOG_FREE(m->data);
        RUDLAYOG_FREE(m);
    }
#endif
}
