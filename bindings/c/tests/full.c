/* A memory whose allocator has nothing left: what the header says, 'Out of memory'. Packets of each length go into a full
 * circular store without a block of the allocator's, and are given again; others are refused and counted; storage is
 * switched off, content deleted and a retrieval aborted, in what the memory kept for that; and stores whose clock is at
 * its end use up nothing. Linked with `-Wl,--wrap=malloc,--wrap=realloc,--wrap=free`. */
#include <rudlayog.h>
#include <stdio.h>
#include <stdlib.h>
#include <string.h>

void *__real_malloc(size_t size);
void __real_free(void *block);
void *__wrap_malloc(size_t size);
void *__wrap_realloc(void *block, size_t size);
void __wrap_free(void *block);

/* The octets of blocks that are in use, and how many may be: with 0 no block is given. */
static size_t in_use, most = SIZE_MAX, refusals;

enum { HEAD = 16 };

static size_t size_of(const void *block) {
    size_t size;
    memcpy(&size, (const char *)block - HEAD, sizeof size);
    return size;
}

void *__wrap_malloc(size_t size) {
    char *block = most >= in_use && most - in_use >= size ? __real_malloc(HEAD + size) : NULL;
    if (block == NULL) {
        refusals++;
        return NULL;
    }
    in_use += size;
    memcpy(block, &size, sizeof size);
    return block + HEAD;
}

void __wrap_free(void *block) {
    if (block != NULL) {
        in_use -= size_of(block);
        __real_free((char *)block - HEAD);
    }
}

void *__wrap_realloc(void *block, size_t size) {
    void *moved = __wrap_malloc(size);
    if (moved != NULL && block != NULL) {
        const size_t old = size_of(block);
        memcpy(moved, block, old < size ? old : size);
        __wrap_free(block);
    }
    return moved;
}

enum { CIR = 1, BND, BIG, CIR_BIG, MIRROR, NONE, LEAST = 21, SHARED = 4 };

static const char setup[] = "[[store]]\nid = \"CIR\"\nsize = 4\ntype = \"circular\"\nchannel = 0\n"
                            "[[store]]\nid = \"BND\"\nsize = 4\ntype = \"bounded\"\nchannel = 0\n"
                            "[[store]]\nid = \"BIG\"\nsize = 1000\ntype = \"circular\"\nchannel = 0\n"
                            "[[store]]\nid = \"ONE\"\nsize = 4\ntype = \"circular\"\nchannel = 0\n"
                            "[[store]]\nid = \"TWO\"\nsize = 4\ntype = \"circular\"\nchannel = 0\n"
                            "[[route]]\napid = 5\nservice = 3\nsubtype = 25\nstore = \"ONE\"\n"
                            "[[route]]\napid = 5\nservice = 3\nsubtype = 25\nstore = \"TWO\"\n"
                            "[[route]]\napid = 1\nservice = 3\nsubtype = 25\nstore = \"CIR\"\n"
                            "[[route]]\napid = 2\nservice = 3\nsubtype = 25\nstore = \"BND\"\n"
                            "[[route]]\napid = 3\nservice = 3\nsubtype = 25\nstore = \"BIG\"\n"
                            "[[route]]\napid = 4\nservice = 3\nsubtype = 25\nstore = \"CIR\"\n"
                            "[[route]]\napid = 4\nservice = 3\nsubtype = 25\nstore = \"BIG\"\n";
static struct rudlayog_memory memory;
static struct rudlayog_answer answer;
static uint8_t packet[RUDLAYOG_BLOCK], out[RUDLAYOG_PACKET], each[RUDLAYOG_INSTRUCTIONS];
static uint64_t now = 1;
static int failures;

static void expect(int holds, const char *what, size_t length) {
    if (!holds) {
        printf("full: %s, at %zu\n", what, length);
        failures++;
    }
}

/* Telemetry of this length, whose data tell it. */
static void make_packet(uint8_t apid, size_t length) {
    const size_t last = length - 7;
    const uint8_t fields[] = {0x08, apid, 0xC0, 0, (uint8_t)(last >> 8), (uint8_t)last, 0x20, 3, 25};
    memset(packet, (int)(length % 251), sizeof packet);
    memcpy(packet, fields, sizeof fields);
}

static struct rudlayog_tally record(uint8_t apid, size_t length) {
    struct rudlayog_tally tally;
    make_packet(apid, length);
    rudlayog_memory_record(&memory, now++, packet, length, &tally, &answer);
    return tally;
}

static uint32_t offer(const char *id, size_t length) {
    struct rudlayog_fate fate;
    make_packet(1, length);
    rudlayog_memory_offer(&memory, (const uint8_t *)id, strlen(id), now++, packet, length, &fate, &answer);
    return fate.kind;
}

static int is_out_of_memory(void) {
    return answer.status == RUDLAYOG_REFUSED && answer.refused.number == RUDLAYOG_REFUSAL_NO_MEMORY;
}

static uint64_t refused(void) {
    uint64_t packets = 99;
    rudlayog_memory_refused(&memory, &packets, &answer);
    expect(answer.status == RUDLAYOG_WRITTEN && answer.length == 0, "rudlayog_memory_refused: another answer", 0);
    return packets;
}

/* Whether a request with this many instructions on a store is carried out, where the allocator gives what it is given. */
static int is_done(enum rudlayog_request_subtype subtype, const char *id, size_t count) {
    static struct rudlayog_instruction instructions[RUDLAYOG_INSTRUCTIONS];
    static uint8_t request[RUDLAYOG_REQUEST_ROOM];
    const struct rudlayog_request fields = {.apid = 1, .subtype = subtype};
    size_t length;
    for (size_t k = 0; k < count; k++) {
        memset(&instructions[k], 0, sizeof instructions[k]);
        memcpy(instructions[k].id, id, strlen(id));
        instructions[k].to = UINT64_MAX;
        instructions[k].apid = BND;
        instructions[k].service = 3;
        instructions[k].subtype = 25;
    }
    most = SIZE_MAX;
    rudlayog_request_write(&fields, instructions, count, request, sizeof request, &answer);
    length = answer.length;
    most = in_use;
    rudlayog_memory_apply(&memory, now++, request, length, each, sizeof each, &answer);
    most = 0;
    return answer.status == RUDLAYOG_WRITTEN && answer.length == count && each[0] == RUDLAYOG_DONE;
}

static struct rudlayog_state state_of(const char *id) {
    struct rudlayog_state state;
    rudlayog_memory_state(&memory, (const uint8_t *)id, strlen(id), &state, &answer);
    return state;
}

/* The store is full of short packets: packets of each length take the place of the oldest, recorded and offered. */
static void try_full_circular(void) {
    for (size_t length = LEAST + 1; length <= RUDLAYOG_BLOCK; length++) {
        const struct rudlayog_tally tally = record(CIR, length);
        expect(answer.status == RUDLAYOG_WRITTEN && tally.kept == 1 && tally.lost == 1 && tally.refused == 0,
               "a full circular store refuses what is recorded", length);
        expect(offer("CIR", length) == RUDLAYOG_KEPT_OVER, "a full circular store refuses what is offered", length);
    }
    expect(refused() == 0, "a packet is counted as refused", 0);
}

/* What no store keeps needs no memory. */
static void try_lost(void) {
    struct rudlayog_tally tally = record(BND, 700);
    expect(answer.status == RUDLAYOG_WRITTEN && tally.lost == 1 && tally.kept == 0, "a full bounded store", 0);
    expect(offer("BND", 700) == RUDLAYOG_LOST, "an offer to a full bounded store", 0);
    tally = record(NONE, 700);
    expect(answer.status == RUDLAYOG_WRITTEN && tally.lost + tally.kept + tally.refused == 0, "a packet without a route", 0);
    expect(refused() == 0, "a packet is counted as refused", 1);
}

/* A store that is not full has no memory for a packet: it is refused and counted, and the store is as it was. */
static void try_refused(void) {
    const struct rudlayog_state before = state_of("BIG");
    struct rudlayog_state after;
    record(BIG, 30);
    expect(is_out_of_memory(), "a packet is recorded without memory", 0);
    offer("BIG", 30);
    expect(is_out_of_memory(), "a packet is offered without memory", 0);
    expect(refused() == 2, "refusals are not counted", 0);
    after = state_of("BIG");
    expect(memcmp(&before, &after, sizeof before) == 0, "a refusal changes a store", 0);
    expect(offer("CIR", 500) == RUDLAYOG_KEPT_OVER, "a refusal uses up what is kept", 0);
}

/* What is kept serves a packet that a full store and another share, while what is given up is not shared; then it is
 * kept until it is not. */
static void try_shared(void) {
    for (size_t k = 0; k < SHARED; k++) {
        const struct rudlayog_tally tally = record(CIR_BIG, 40 + k);
        expect(tally.kept == 2 && tally.lost == 1, "a packet for two stores is refused", k);
    }
    record(CIR_BIG, 50);
    expect(is_out_of_memory(), "shared memory is used again", 0);
    record(CIR, 50);
    expect(is_out_of_memory(), "shared memory is used again", 1);
    expect(refused() == 4, "refusals are not counted", 1);
}

/* Two full circular stores share each of their packets, and so give up each together. */
static void try_mirrored(void) {
    for (size_t length = LEAST + 1; length <= RUDLAYOG_BLOCK; length++) {
        const struct rudlayog_tally tally = record(MIRROR, length);
        expect(tally.kept == 2 && tally.lost == 2, "two full circular stores refuse a packet", length);
    }
}

/* Each request of which nothing stays is carried out; others are refused. */
static void try_requests(void) {
    static const enum rudlayog_request_subtype done[] = {
        RUDLAYOG_DISABLE_STORAGE, RUDLAYOG_START_RETRIEVAL, RUDLAYOG_ABORT_RETRIEVAL,     RUDLAYOG_DELETE_CONTENT,
        RUDLAYOG_CHANGE_CHANNEL,  RUDLAYOG_ENABLE_STORAGE,  RUDLAYOG_DELETE_REPORT_TYPES,
    };
    expect(!is_done(RUDLAYOG_SUMMARISE_CONTENT, "BIG", 1) && is_out_of_memory(), "a report waits without memory", 0);
    for (size_t k = 0; k < sizeof done / sizeof done[0]; k++) {
        expect(is_done(done[k], "BND", 1), "a request is not carried out", done[k]);
    }
    for (size_t k = 0; k < sizeof done / sizeof done[0]; k++) {
        expect(is_done(done[k], "BND", RUDLAYOG_INSTRUCTIONS) || done[k] == RUDLAYOG_DELETE_REPORT_TYPES,
               "a request with all instructions is not carried out", done[k]);
        expect(answer.status == RUDLAYOG_WRITTEN && answer.length == RUDLAYOG_INSTRUCTIONS, "a long request is refused", done[k]);
    }
    expect(is_done(RUDLAYOG_DELETE_CONTENT, "BIG", 1), "content is not deleted", 0);
    expect(state_of("BIG").held == 0, "content stays", 0);
}

/* The packets of a store, as they were recorded last. */
static void try_given(void) {
    uint64_t time;
    expect(is_done(RUDLAYOG_START_RETRIEVAL, "CIR", 1), "no retrieval is started", 0);
    for (size_t length = RUDLAYOG_BLOCK - SHARED + 1; length <= RUDLAYOG_BLOCK; length++) {
        rudlayog_memory_next(&memory, (const uint8_t *)"CIR", 3, out, sizeof out, &time, &answer);
        make_packet(CIR, length);
        expect(answer.status == RUDLAYOG_WRITTEN && answer.length == length && memcmp(out, packet, length) == 0,
               "another packet is given", length);
    }
    rudlayog_memory_next(&memory, (const uint8_t *)"CIR", 3, out, sizeof out, &time, &answer);
    expect(answer.status == RUDLAYOG_END, "a packet too many is given", 0);
}

/* Stores whose clock is at its end, where the allocator has nothing left: END and ENDED are circular and full, the
 * first alone and the second sharing its packets; LAST is bounded and has room. They refuse each packet, and say why.
 * BIG has room and its clock goes; CIR is circular and full. A packet that is routed to END and to BIG is refused out of
 * memory, since BIG would keep it, and END gives none up: what is kept is left for CIR, and for what has no route. */
static void try_clock_end(void) {
    static const char stores[] = "[[store]]\nid = \"END\"\nsize = 2\ntype = \"circular\"\nchannel = 0\n"
                                 "[[store]]\nid = \"ENDED\"\nsize = 2\ntype = \"circular\"\nchannel = 0\n"
                                 "[[store]]\nid = \"OTHER\"\nsize = 9\ntype = \"circular\"\nchannel = 0\n"
                                 "[[store]]\nid = \"LAST\"\nsize = 4\ntype = \"bounded\"\nchannel = 0\n"
                                 "[[store]]\nid = \"BIG\"\nsize = 1000\ntype = \"bounded\"\nchannel = 0\n"
                                 "[[store]]\nid = \"CIR\"\nsize = 4\ntype = \"circular\"\nchannel = 0\n"
                                 "[[route]]\napid = 1\nservice = 3\nsubtype = 25\nstore = \"CIR\"\n"
                                 "[[route]]\napid = 2\nservice = 3\nsubtype = 25\nstore = \"END\"\n"
                                 "[[route]]\napid = 2\nservice = 3\nsubtype = 25\nstore = \"BIG\"\n"
                                 "[[route]]\napid = 3\nservice = 3\nsubtype = 25\nstore = \"ENDED\"\n"
                                 "[[route]]\napid = 3\nservice = 3\nsubtype = 25\nstore = \"OTHER\"\n"
                                 "[[route]]\napid = 4\nservice = 3\nsubtype = 25\nstore = \"END\"\n"
                                 "[[route]]\napid = 4\nservice = 3\nsubtype = 25\nstore = \"LAST\"\n";
    static const char *const ended[] = {"END", "ENDED", "LAST"};
    struct rudlayog_tally tally;
    most = SIZE_MAX;
    rudlayog_memory_open(&memory, (const uint8_t *)stores, sizeof stores - 1, &answer);
    for (size_t k = 0; k < 4; k++) {
        record(CIR, LEAST + 1);
        record(3, LEAST + 1);
        offer("END", LEAST + 1);
    }
    now = UINT64_MAX;
    for (size_t k = 0; k < 3; k++) {
        expect(offer(ended[k], LEAST + 1) != RUDLAYOG_NO_FATE && state_of(ended[k]).newest == UINT64_MAX, "no clock is at its end", k);
        now = UINT64_MAX;
    }
    most = 0;
    now = 100;
    for (size_t k = 0; k < 3; k++) {
        for (int again = 0; again < 2; again++) {
            offer(ended[k], 700);
            expect(answer.status == RUDLAYOG_REFUSED && answer.refused.number == RUDLAYOG_REFUSAL_CLOCK_END,
                   "the end of a clock is not told", k);
        }
    }
    tally = record(4, 700);
    expect(answer.status == RUDLAYOG_WRITTEN && tally.refused == 2 && tally.kept == 0, "two clocks at their end", 0);
    for (int again = 0; again < 2; again++) {
        record(2, 700);
        expect(is_out_of_memory(), "a packet is kept without memory", 2);
        expect(record(CIR, 700).kept == 1 && answer.status == RUDLAYOG_WRITTEN, "a refusal uses up what is kept", 2);
        record(9, 700);
        expect(answer.status == RUDLAYOG_WRITTEN, "a packet without a route is refused", 2);
    }
    expect(refused() == 2, "refusals are not counted", 2);
    rudlayog_memory_close(&memory);
}

/* Adds or deletes the route of an APID to a store. */
static void change_route(enum rudlayog_request_subtype subtype, const char *id, uint16_t apid) {
    static uint8_t request[RUDLAYOG_REQUEST_ROOM];
    const struct rudlayog_request fields = {.apid = 1, .subtype = subtype};
    struct rudlayog_instruction row = {.apid = apid, .service = 3, .subtype = 25};
    memcpy(row.id, id, strlen(id));
    rudlayog_request_write(&fields, &row, 1, request, sizeof request, &answer);
    rudlayog_memory_apply(&memory, now++, request, answer.length, each, sizeof each, &answer);
    expect(answer.status == RUDLAYOG_WRITTEN && each[0] == RUDLAYOG_DONE, "a route is not changed", apid);
}

/* Four full circular stores, where the allocator has nothing left: A and B share a packet, and C and D another one that is
 * equal to it. A packet for A and C is refused, since B and D keep what it would take the place of; what is kept is left for
 * CIR. */
static void try_equal(void) {
    static const char stores[] = "[[store]]\nid = \"A\"\nsize = 1\ntype = \"circular\"\nchannel = 0\n"
                                 "[[store]]\nid = \"B\"\nsize = 1\ntype = \"circular\"\nchannel = 0\n"
                                 "[[store]]\nid = \"C\"\nsize = 1\ntype = \"circular\"\nchannel = 0\n"
                                 "[[store]]\nid = \"D\"\nsize = 1\ntype = \"circular\"\nchannel = 0\n"
                                 "[[store]]\nid = \"CIR\"\nsize = 1\ntype = \"circular\"\nchannel = 0\n"
                                 "[[route]]\napid = 1\nservice = 3\nsubtype = 25\nstore = \"CIR\"\n"
                                 "[[route]]\napid = 2\nservice = 3\nsubtype = 25\nstore = \"A\"\n"
                                 "[[route]]\napid = 2\nservice = 3\nsubtype = 25\nstore = \"B\"\n";
    most = SIZE_MAX;
    rudlayog_memory_open(&memory, (const uint8_t *)stores, sizeof stores - 1, &answer);
    record(CIR, 30);
    expect(record(2, 30).kept == 2, "a packet for two stores is not kept", 0);
    change_route(RUDLAYOG_DELETE_REPORT_TYPES, "A", 2);
    change_route(RUDLAYOG_DELETE_REPORT_TYPES, "B", 2);
    change_route(RUDLAYOG_ADD_REPORT_TYPES, "C", 2);
    change_route(RUDLAYOG_ADD_REPORT_TYPES, "D", 2);
    expect(record(2, 30).kept == 2, "a packet for two stores is not kept", 1);
    change_route(RUDLAYOG_DELETE_REPORT_TYPES, "D", 2);
    change_route(RUDLAYOG_ADD_REPORT_TYPES, "A", 2);
    most = 0;
    for (size_t again = 0; again < 2; again++) {
        record(2, 30);
        expect(is_out_of_memory(), "equal packets are taken for one", again);
        expect(record(CIR, 30).kept == 1, "a refusal uses up what is kept", again);
    }
    expect(refused() == 2, "refusals are not counted", 3);
    rudlayog_memory_close(&memory);
}

int main(void) {
    rudlayog_memory_open(&memory, (const uint8_t *)setup, sizeof setup - 1, &answer);
    for (size_t k = 0; k < 4; k++) {
        record(CIR, LEAST + 1);
        record(BND, LEAST + 1);
        record(MIRROR, LEAST + 1);
    }
    most = 0;
    try_full_circular();
    try_lost();
    try_mirrored();
    try_refused();
    try_shared();
    try_requests();
    most = in_use;
    for (size_t length = RUDLAYOG_BLOCK - SHARED + 1; length <= RUDLAYOG_BLOCK; length++) {
        expect(record(CIR, length).kept == 1, "no packet is recorded after content was deleted", length);
    }
    try_given();
    rudlayog_memory_close(&memory);
    try_clock_end();
    try_equal();
    expect(in_use == 0, "a block stays in use", in_use);
    printf("full: %zu allocations refused, %d faults\n", refusals, failures);
    return failures != 0;
}
