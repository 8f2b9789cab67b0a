/* `pools [MEMORIES]` lives the lives of 200 memories in a pool of exactly RUDLAYOG_POOL_FOR octets: stores are filled
 * to their end with packets of each length, emptied, filled again, resized, changed, deleted and created; reports
 * wait up to their bound. No call may be refused for memory. Then each life once more in pools that are too small,
 * where calls are refused for memory: nothing else may change, no block may stay in use, and a memory can be opened
 * again. At last 300 wrong setups are refused before the right one is opened, in an empty pool and beside a memory, and
 * the pool is tried by itself. Linked without the C library's heap. */
#include <rudlayog.h>
#include <rudlayog_heap.h>
#include <stdio.h>
#include <stdlib.h>
#include <string.h>

#define RUDLAYOG_POOL ((size_t)64 << 20)
#define RUDLAYOG_POOL_END pool_end
static size_t pool_end;
#include "../pool.c"

enum { MOST_STORES = 16, MOST_BLOCKS = 3000, MOST_ROUTES = 16, LEAST_PACKET = 21 };

/* A memory that is made: its stores with their sizes, and what its pool is for. */
struct made {
    uint32_t stores, sizes[MOST_STORES], blocks;
    uint64_t reports;
    char setup[65536];
    size_t length;
};

static struct made made;
static struct rudlayog_memory memory;
static struct rudlayog_answer answer;
static uint8_t packet[RUDLAYOG_BLOCK], request[RUDLAYOG_REQUEST_ROOM], each[RUDLAYOG_INSTRUCTIONS];
static uint8_t out[RUDLAYOG_PACKET];
static uint64_t drawn, now, calls, refusals, poor;

static uint64_t below(uint64_t bound) {
    uint64_t z = drawn += 0x9E3779B97F4A7C15u;
    z = (z ^ (z >> 30)) * 0xBF58476D1CE4E5B9u;
    z = (z ^ (z >> 27)) * 0x94D049BB133111EBu;
    return (z ^ (z >> 31)) % bound;
}

static void reset_pool(size_t end) {
    pool_end = end;
    make_whole();
    memset(&use, 0, sizeof use);
}

static void add_text(const char *format, uint32_t first, uint32_t second, uint32_t third) {
    made.length += (size_t)sprintf(made.setup + made.length, format, first, second, third);
}

/* Stores S00, S01 .., which have all blocks but those that a store needs anew where its kind or size changes. */
static void make_memory(void) {
    uint32_t most = 0;
    memset(&made, 0, sizeof made);
    made.stores = 1 + (uint32_t)below(MOST_STORES);
    made.reports = below(40);
    for (uint32_t k = 0; k < made.stores; k++) {
        made.sizes[k] = 1 + (uint32_t)below(below(4) == 0 ? MOST_BLOCKS / made.stores : 40);
        made.blocks += made.sizes[k];
        most = made.sizes[k] > most ? made.sizes[k] : most;
        add_text("[[store]]\nid = \"S%02u\"\nsize = %u\nchannel = %u\n", k, made.sizes[k], k % 8);
        add_text(below(2) == 0 ? "type = \"bounded\"\n" : "type = \"circular\"\n", 0, 0, 0);
    }
    made.blocks += most;
    for (uint32_t k = (uint32_t)below(MOST_ROUTES * made.stores + 1); k > 0; k--) {
        add_text("[[route]]\napid = %u\nservice = 3\nsubtype = 25\n", 1 + k / made.stores, 0, 0);
        add_text("store = \"S%02u\"\n", k % made.stores, 0, 0);
    }
}

static void note_call(void) {
    calls++;
    refusals += answer.status == RUDLAYOG_REFUSED && answer.refused.number == RUDLAYOG_REFUSAL_NO_MEMORY;
}

static void name_store(uint8_t *id, uint32_t store) {
    id[0] = 'S';
    id[1] = (uint8_t)('0' + store / 10);
    id[2] = (uint8_t)('0' + store % 10);
}

/* Telemetry of this length. */
static void make_packet(size_t length) {
    const size_t last = length - 7;
    const uint8_t apid = (uint8_t)(1 + below(32));
    const uint8_t fields[] = {0x08, apid, 0xC0, 0, (uint8_t)(last >> 8), (uint8_t)last, 0x20, 3, 25};
    memset(packet, 0x5A, sizeof packet);
    memcpy(packet, fields, sizeof fields);
}

static void offer(uint32_t store, size_t length) {
    struct rudlayog_fate fate;
    uint8_t id[3];
    name_store(id, store);
    make_packet(length);
    rudlayog_memory_offer(&memory, id, sizeof id, ++now, packet, length, &fate, &answer);
    note_call();
}

static void record(size_t length) {
    struct rudlayog_tally tally;
    make_packet(length);
    rudlayog_memory_record(&memory, ++now, packet, length, &tally, &answer);
    note_call();
}

/* A request with an instruction of each store, again and again up to this count. */
static void ask(uint8_t subtype, size_t count, const struct rudlayog_instruction *fields, uint32_t first) {
    static struct rudlayog_instruction instructions[RUDLAYOG_INSTRUCTIONS];
    const struct rudlayog_request asked = {.apid = 1, .subtype = subtype};
    for (size_t k = 0; k < count; k++) {
        instructions[k] = *fields;
        name_store(instructions[k].id, (first + (uint32_t)k) % made.stores);
    }
    rudlayog_request_write(&asked, instructions, count, request, sizeof request, &answer);
    note_call();
    if (answer.status == RUDLAYOG_WRITTEN) {
        rudlayog_memory_apply(&memory, ++now, request, answer.length, each, sizeof each, &answer);
        note_call();
    }
}

/* This length, or a random one for 0. */
static size_t some(size_t length) {
    return length != 0 ? length : LEAST_PACKET + (size_t)below(RUDLAYOG_BLOCK - LEAST_PACKET + 1);
}

/* Each store is filled to its end with packets of this length, and beyond. */
static void fill(size_t length) {
    for (uint32_t store = 0; store < made.stores; store++) {
        for (uint32_t k = 0; k < made.sizes[store] + 2; k++) {
            offer(store, some(length));
        }
    }
    for (int k = 0; k < 20; k++) {
        record(some(length));
    }
}

/* Takes all packets of each store, and deletes them. */
static void dump(void) {
    const struct rudlayog_instruction all = {.from = 0, .to = UINT64_MAX};
    uint64_t time;
    ask(RUDLAYOG_START_RETRIEVAL, made.stores, &all, 0);
    for (uint32_t store = 0; store < made.stores; store++) {
        uint8_t id[3];
        name_store(id, store);
        do {
            rudlayog_memory_next(&memory, id, sizeof id, out, sizeof out, &time, &answer);
            note_call();
        } while (answer.status == RUDLAYOG_WRITTEN);
    }
    ask(RUDLAYOG_START_RETRIEVAL, made.stores, &all, 0);
    ask(RUDLAYOG_ABORT_RETRIEVAL, made.stores, &all, 0);
    ask(RUDLAYOG_DELETE_CONTENT, RUDLAYOG_INSTRUCTIONS, &all, 0);
}

/* As many reports wait as may, of each kind; then they are taken. */
static void ask_for_reports(void) {
    static const uint8_t subtypes[] = {RUDLAYOG_REPORT_CONTROL, RUDLAYOG_SUMMARISE_CONTENT, RUDLAYOG_REPORT_STATUS,
                                       RUDLAYOG_REPORT_CONFIGURATION};
    static const size_t counts[] = {16, RUDLAYOG_INSTRUCTIONS, 0, 0};
    const struct rudlayog_instruction none = {.id = {0}};
    for (size_t kind = 0; kind < sizeof subtypes; kind++) {
        const size_t most = counts[kind];
        uint64_t before, after = 0;
        do {
            before = after;
            /* Where they may not wait, the request is refused as out of memory is: the pool tells the two from each
             * other. */
            const uint64_t refused_before = refusals;
            ask(subtypes[kind], most, &none, 0);
            refusals = refused_before;
            rudlayog_memory_waiting(&memory, &after, &answer);
            note_call();
        } while (after != before);
        do {
            rudlayog_memory_report(&memory, out, sizeof out, &answer);
            note_call();
        } while (answer.status == RUDLAYOG_WRITTEN);
    }
}

/* Each store is of the other kind and back again, smaller and as large as before, gone and there again. */
static void change(void) {
    struct rudlayog_instruction fields = {.apid = 1, .service = 3, .subtype = 25};
    ask(RUDLAYOG_DISABLE_STORAGE, RUDLAYOG_INSTRUCTIONS, &fields, 0);
    for (uint32_t store = 0; store < made.stores; store++) {
        ask(RUDLAYOG_CHANGE_TO_CIRCULAR, 1, &fields, store);
        ask(RUDLAYOG_CHANGE_TO_BOUNDED, 1, &fields, store);
        for (fields.size = made.sizes[store]; fields.size > 1; fields.size /= 2) {
            ask(RUDLAYOG_RESIZE_STORES, 1, &fields, store);
        }
        fields.size = made.sizes[store];
        ask(RUDLAYOG_RESIZE_STORES, 1, &fields, store);
        if (below(2) == 0) {
            ask(RUDLAYOG_CHANGE_TO_CIRCULAR, 1, &fields, store);
        }
        if (below(2) == 0) {
            ask(RUDLAYOG_DELETE_STORES, 1, &fields, store);
            fields.type = (uint8_t)below(2);
            ask(RUDLAYOG_CREATE_STORES, 1, &fields, store);
        }
        ask(RUDLAYOG_DELETE_REPORT_TYPES, 1, &fields, store);
        ask(RUDLAYOG_ADD_REPORT_TYPES, 1, &fields, store);
        ask(RUDLAYOG_CHANGE_CHANNEL, 1, &fields, store);
    }
    ask(RUDLAYOG_ENABLE_STORAGE, RUDLAYOG_INSTRUCTIONS, &fields, 0);
}

/* The sizes of all stores are dealt anew. */
static void deal(void) {
    struct rudlayog_instruction fields = {.id = {0}};
    ask(RUDLAYOG_DISABLE_STORAGE, RUDLAYOG_INSTRUCTIONS, &fields, 0);
    const uint32_t first = made.sizes[0];
    for (uint32_t store = 0; store < made.stores; store++) {
        fields.size = 1;
        ask(RUDLAYOG_RESIZE_STORES, 1, &fields, store);
    }
    for (uint32_t store = 0; store < made.stores; store++) {
        made.sizes[store] = store + 1 < made.stores ? made.sizes[store + 1] : first;
        fields.size = made.sizes[store];
        ask(RUDLAYOG_RESIZE_STORES, 1, &fields, store);
    }
    ask(RUDLAYOG_ENABLE_STORAGE, RUDLAYOG_INSTRUCTIONS, &fields, 0);
}

/* Lives a memory's life, if it can be opened. */
static int live(void) {
    static const size_t lengths[] = {LEAST_PACKET + 1, 60, 100, 200, 400, 700, RUDLAYOG_BLOCK, 0};
    rudlayog_memory_open(&memory, (const uint8_t *)made.setup, made.length, &answer);
    if (answer.status != RUDLAYOG_WRITTEN) {
        return 0;
    }
    now = refusals = 0;
    rudlayog_memory_bound(&memory, made.reports, &answer);
    for (size_t k = 0; k < sizeof lengths / sizeof lengths[0]; k++) {
        fill(lengths[k]);
        ask_for_reports();
        if (k % 3 == 1) {
            fill(0);
        }
        dump();
        change();
        deal();
    }
    fill(RUDLAYOG_BLOCK);
    change();
    rudlayog_memory_close(&memory);
    return 1;
}

static int fail(int k, const char *what) {
    printf("pools: memory %d of %u stores, %u blocks, %llu reports: %s\n", k, made.stores, made.blocks,
           (unsigned long long)made.reports, what);
    printf("pools: of %zu octets at most %zu in use, %zu cut, %zu refusals\n", pool_end, use.most, use.cut,
           use.refused);
    return 1;
}

/* In pools that are too small, too. */
static int live_poorly(int k) {
    const size_t enough = pool_end;
    for (size_t part = 1; part < 4; part++) {
        reset_pool(enough / 4 * part);
        live();
        poor += use.refused;
        if (use.blocks != 0 || use.octets != 0) {
            return fail(k, "a block stays in use in a small pool");
        }
        rudlayog_memory_open(&memory, (const uint8_t *)made.setup, made.length, &answer);
        rudlayog_memory_close(&memory);
        if (use.blocks != 0) {
            return fail(k, "a block stays in use after the second opening");
        }
    }
    return 0;
}

enum { WRONG = 300, LONG = 17280, HELD = 400, ROUNDS = 200000 };

/* A text of this length that is no setup, since its last line is none: tables with keys and texts of each length. */
static size_t make_wrong(uint8_t *text, size_t length) {
    size_t at = 0;
    while (at + 64 < length) {
        const size_t wide = 1 + (size_t)below(24);
        at += (size_t)sprintf((char *)text + at, below(3) == 0 ? "[[store]]\nid = \"%.*s\"\n" : "k%.*s = [1, {a = 2}]\n",
                              (int)wide, "ABCDEFGHIJKLMNOPQRSTUVWXYZ");
    }
    memset(text + at, '=', length - at);
    return length;
}

static uint32_t refused_setup(struct rudlayog_memory *handle, size_t length) {
    static uint8_t text[LONG];
    rudlayog_memory_open(handle, text, make_wrong(text, length), &answer);
    return answer.status == RUDLAYOG_REFUSED ? answer.refused.number : UINT32_MAX;
}

/* Setups that are wrong leave the pool as it was, and then the right one is opened: where nothing else is in the pool,
 * and beside a memory, which is opened first and goes on. */
static int open_after_wrong(int is_beside) {
    static const char small[] = "[[store]]\nid = \"A\"\nsize = 5\ntype = \"bounded\"\nchannel = 0\n";
    struct rudlayog_memory beside = RUDLAYOG_MEMORY_CLOSED;
    size_t before, blocks;
    drawn = 5;
    make_memory();
    reset_pool(RUDLAYOG_POOL_FOR(made.stores, made.blocks, made.reports) + (is_beside ? RUDLAYOG_POOL_FOR(1, 5, 0) : 0));
    if (is_beside) {
        rudlayog_memory_open(&beside, (const uint8_t *)small, sizeof small - 1, &answer);
    }
    before = cut;
    blocks = use.blocks;
    for (int k = 0; k < WRONG; k++) {
        const uint32_t number = refused_setup(&memory, k % 2 == 0 ? LONG : 64 + (size_t)below(LONG - 64));
        if (number != RUDLAYOG_REFUSAL_SETUP_TEXT || use.blocks != blocks || cut > before) {
            return fail(k, "a wrong setup does not leave the pool as it was");
        }
    }
    if (!live() || use.refused != 0 || refusals != 0) {
        return fail(WRONG, "the right setup is not opened after wrong ones");
    }
    rudlayog_memory_close(&beside);
    return use.blocks != 0 || cut != FIRST ? fail(WRONG, "the pool is not whole at the end") : 0;
}

/* Blocks are taken, moved and given back at random: each keeps its octets, stands at a multiple of 16, and is out of
 * the way of others; what is given back twice is found; and where all are given back the pool is whole. */
static int try_pool(void) {
    static uint8_t *blocks[HELD];
    static size_t sizes[HELD];
    size_t wrong = 0;
    reset_pool((size_t)1 << 20);
    drawn = 9;
    for (int k = 0; k < ROUNDS; k++) {
        const size_t at = (size_t)below(HELD), size = (size_t)below(below(8) == 0 ? 9000 : 200);
        const int is_last = k % 20000 == 19999;
        if (blocks[at] == NULL) {
            const struct rudlayog_block taken = rattle_alloc(size, ALIGNED);
            blocks[at] = taken.is_there ? taken.at : NULL;
        } else if (below(2) == 0 && size > sizes[at]) {
            const struct rudlayog_block taken = rattle_realloc(blocks[at], sizes[at], size, ALIGNED);
            for (size_t n = 0; n < sizes[at] && taken.is_there; n++) {
                if (((uint8_t *)taken.at)[n] != (uint8_t)at) {
                    return fail(k, "a block loses its octets");
                }
            }
            if (!taken.is_there) {
                continue;
            }
            blocks[at] = taken.at;
        } else {
            rattle_dealloc(blocks[at]);
            rattle_dealloc(blocks[at]);
            wrong++;
            blocks[at] = NULL;
        }
        if (blocks[at] != NULL) {
            sizes[at] = size;
            memset(blocks[at], (int)at, size);
        }
        for (size_t n = 0; is_last && n < HELD; n++) {
            for (size_t octet = 0; blocks[n] != NULL && octet < sizes[n]; octet++) {
                if (blocks[n][octet] != (uint8_t)n) {
                    return fail(k, "two blocks overlap");
                }
            }
            if (blocks[n] != NULL) {
                rattle_dealloc(blocks[n]);
                blocks[n] = NULL;
            }
        }
        if ((uintptr_t)blocks[at] % ALIGNED != 0 || use.wrong != wrong || cut > pool_end) {
            return fail(k, "a block stands elsewhere, or one that is given back twice is not found");
        }
        if (is_last && (use.blocks != 0 || use.octets != 0 || cut != FIRST || last != 0)) {
            return fail(k, "the pool is not whole");
        }
    }
    return use.most == 0 ? fail(0, "nothing was taken") : 0;
}

int main(int count, char **words) {
    const int memories = count > 1 ? atoi(words[1]) : 200;
    double share, worst = 0;
    uint64_t enough_calls;
    for (int k = 0; k < memories; k++) {
        drawn = (uint64_t)k;
        make_memory();
        reset_pool(RUDLAYOG_POOL_FOR(made.stores, made.blocks, made.reports));
        if (pool_end > sizeof pool || !live() || use.refused != 0 || refusals != 0) {
            return fail(k, "a call is refused for memory");
        }
        if (use.blocks != 0) {
            return fail(k, "a block stays in use");
        }
        share = (double)use.cut / (double)pool_end;
        worst = share > worst ? share : worst;
    }
    if (try_pool() || open_after_wrong(0) || open_after_wrong(1)) {
        return 1;
    }
    enough_calls = calls;
    for (int k = 0; k < memories; k += 20) {
        drawn = (uint64_t)k;
        make_memory();
        reset_pool(RUDLAYOG_POOL_FOR(made.stores, made.blocks, made.reports));
        if (live_poorly(k)) {
            return 1;
        }
    }
    printf("pools: %d memories, %llu calls, none refused for memory; up to %.0f %% of the pool were cut\n", memories,
           (unsigned long long)enough_calls, 100 * worst);
    printf("pools: in pools that are too small memory was refused %llu times, and no block stayed in use\n",
           (unsigned long long)poor);
    printf("pools: %d wrong setups are refused, and then the right one is opened, twice\n", WRONG);
    return poor == 0;
}
