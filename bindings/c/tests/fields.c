/* Requests made of their fields, and reports read into theirs: each subtype against octets that are written here by hand after
 * docs/PACKETS.md, and requests also against their words there; with a buffer that is null, too small, and large enough; and each
 * allocation refused once. Linked with `-Wl,--wrap=malloc,--wrap=realloc,--wrap=free`. */
#include <rudlayog.h>
#include <stdio.h>
#include <stdlib.h>
#include <string.h>

void *__real_malloc(size_t size);
void *__real_realloc(void *block, size_t size);
void __real_free(void *block);
void *__wrap_malloc(size_t size);
void *__wrap_realloc(void *block, size_t size);
void __wrap_free(void *block);

/* How many allocations were asked for, which of them is refused (0: none), and how many blocks are allocated. */
static long asked, refused, held;

void *__wrap_malloc(size_t size) {
    void *block = ++asked == refused ? NULL : __real_malloc(size);
    held += block != NULL;
    return block;
}

void *__wrap_realloc(void *block, size_t size) {
    void *moved = ++asked == refused ? NULL : __real_realloc(block, size);
    held += block == NULL && moved != NULL;
    return moved;
}

void __wrap_free(void *block) {
    held -= block != NULL;
    __real_free(block);
}

#define ROOM 4096
#define TEXT(text) (const uint8_t *)(text), strlen(text)
#define SCI 'S', 'C', 'I', ' ', ' ', ' ', ' ', ' '
#define HK 'H', 'K', ' ', ' ', ' ', ' ', ' ', ' '

static int failed;

static void expect(int is_so, unsigned subtype, const char *what) {
    if (!is_so) {
        printf("fields: subtype %u, allocation %ld refused: %s\n", subtype, refused, what);
        failed = 1;
    }
}

static int is_all(const void *octets, size_t length, uint8_t octet) {
    const uint8_t *at = octets;
    for (size_t k = 0; k < length; k++) {
        if (at[k] != octet) {
            return 0;
        }
    }
    return 1;
}

static int is_no_memory(const struct rudlayog_answer *answer) {
    return answer->status == RUDLAYOG_REFUSED && answer->refused.number == RUDLAYOG_REFUSAL_NO_MEMORY && answer->length == 0;
}

/* The instructions of a request, the octets of its data, and its words. */
struct request {
    uint8_t subtype;
    size_t count;
    struct rudlayog_instruction instructions[2];
    size_t length;
    uint8_t data[64];
    const char *words;
};

#define NO_DATA                                                                                                                            \
    0, {{{0}, 0, 0, 0, 0, 0, 0, 0, 0}}, 0, { 0 }
#define DATA(...)                                                                                                                          \
    sizeof(uint8_t[]){__VA_ARGS__}, { __VA_ARGS__ }
#define OF_SCI(subtype, words)                                                                                                             \
    { subtype, 1, {{.id = "SCI"}}, DATA(1, SCI), words }

/* Each subtype of a request, in the order of docs/PACKETS.md, 'Requests of the storage service'. */
static const struct request requests[] = {
    OF_SCI(RUDLAYOG_ENABLE_STORAGE, "  enable storage\n    1.1 SCI\n"),
    {RUDLAYOG_DISABLE_STORAGE, 2, {{.id = "SCI"}, {.id = {HK}}}, DATA(2, SCI, HK), "  disable storage\n    1.1 SCI\n    1.2 HK\n"},
    {RUDLAYOG_ADD_REPORT_TYPES,
     2,
     {{.id = "SCI", .apid = 0x0102, .service = 3, .subtype = 25}, {.id = "HK", .apid = 4, .service = 5, .subtype = 6}},
     DATA(2, SCI, 1, 2, 3, 25, HK, 0, 4, 5, 6),
     "  add report types\n    1.1 SCI apid 258 service 3 subtype 25\n    1.2 HK apid 4 service 5 subtype 6\n"},
    {RUDLAYOG_DELETE_REPORT_TYPES,
     1,
     {{.id = "SCI", .apid = 0x0102, .service = 3, .subtype = 25}},
     DATA(1, SCI, 1, 2, 3, 25),
     "  delete report types\n    1.1 SCI apid 258 service 3 subtype 25\n"},
    OF_SCI(RUDLAYOG_REPORT_CONTROL, "  report the storage control\n    1.1 SCI\n"),
    {RUDLAYOG_START_RETRIEVAL,
     1,
     {{.id = "SCI", .from = 0x0102030405060708, .to = 0x1112131415161718}},
     DATA(1, SCI, 1, 2, 3, 4, 5, 6, 7, 8, 0x11, 0x12, 0x13, 0x14, 0x15, 0x16, 0x17, 0x18),
     "  start retrieval\n    1.1 SCI from 72623859790382856 to 1230066625199609624\n"},
    {RUDLAYOG_DELETE_CONTENT,
     1,
     {{.id = "SCI", .from = 99, .to = 0x1112131415161718}},
     DATA(1, SCI, 0x11, 0x12, 0x13, 0x14, 0x15, 0x16, 0x17, 0x18),
     "  delete content\n    1.1 SCI up to 1230066625199609624\n"},
    OF_SCI(RUDLAYOG_SUMMARISE_CONTENT, "  summarise content\n    1.1 SCI\n"),
    OF_SCI(RUDLAYOG_ABORT_RETRIEVAL, "  abort retrieval\n    1.1 SCI\n"),
    {RUDLAYOG_REPORT_STATUS, NO_DATA, "  report the status of each store\n"},
    {RUDLAYOG_CREATE_STORES,
     2,
     {{.id = "SCI", .size = 0x01020304, .type = RUDLAYOG_TYPE_BOUNDED, .channel = 7},
      {.id = "HK", .size = 5, .type = RUDLAYOG_TYPE_CIRCULAR, .channel = 1}},
     DATA(2, SCI, 1, 2, 3, 4, 1, 7, HK, 0, 0, 0, 5, 0, 1),
     "  create stores\n    1.1 SCI size 16909060 type bounded channel 7\n    1.2 HK size 5 type circular channel 1\n"},
    OF_SCI(RUDLAYOG_DELETE_STORES, "  delete stores\n    1.1 SCI\n"),
    {RUDLAYOG_REPORT_CONFIGURATION, NO_DATA, "  report the configuration of each store\n"},
    {RUDLAYOG_RESIZE_STORES,
     1,
     {{.id = "SCI", .size = 0x01020304}},
     DATA(1, SCI, 1, 2, 3, 4),
     "  resize stores\n    1.1 SCI size 16909060\n"},
    OF_SCI(RUDLAYOG_CHANGE_TO_CIRCULAR, "  change to circular\n    1.1 SCI\n"),
    OF_SCI(RUDLAYOG_CHANGE_TO_BOUNDED, "  change to bounded\n    1.1 SCI\n"),
    {RUDLAYOG_CHANGE_CHANNEL, 1, {{.id = "SCI", .channel = 5}}, DATA(1, SCI, 5), "  change the channel\n    1.1 SCI channel 5\n"},
};

/* The octets of the request's telecommand, with APID 0x364, sequence count 0x1203, source identifier 0x0708 and acknowledgement flags 9. */
static size_t telecommand(const struct request *request, uint8_t *out) {
    const uint8_t headers[11] = {0x1B, 0x64, 0xD2, 0x03, 0, (uint8_t)(4 + request->length), 0x29, 15, request->subtype, 7, 8};
    memcpy(out, headers, sizeof headers);
    memcpy(out + sizeof headers, request->data, request->length);
    return sizeof headers + request->length;
}

static void write_request(const struct request *request, uint8_t *out, size_t room, struct rudlayog_answer *answer) {
    const struct rudlayog_request fields = {
        .apid = 0x364, .count = 0x1203, .source = 0x0708, .acknowledgement = 9, .subtype = request->subtype};
    memset(answer, 0xA5, sizeof *answer);
    rudlayog_request_write(&fields, request->instructions, request->count, out, room, answer);
}

/* A buffer of each size up to two octets more than the request has. */
static void try_rooms(const struct request *request, const uint8_t *wanted, size_t length) {
    uint8_t out[ROOM];
    struct rudlayog_answer answer;
    write_request(request, NULL, 0, &answer);
    expect(answer.status == RUDLAYOG_TOO_SMALL && answer.length == length, request->subtype, "another answer with a null buffer");
    for (size_t room = 0; room <= length + 2; room++) {
        const int fits = room >= length;
        memset(out, 0xA5, sizeof out);
        write_request(request, out, room, &answer);
        expect(answer.status == (fits ? RUDLAYOG_WRITTEN : RUDLAYOG_TOO_SMALL), request->subtype, "another status");
        expect(answer.length == length && answer.refused.number == 0, request->subtype, "another answer");
        expect(!fits || memcmp(out, wanted, length) == 0, request->subtype, "other octets");
        expect(is_all(out + (fits ? length : 0), sizeof out - (fits ? length : 0), 0xA5), request->subtype, "octets after them");
    }
}

/* The words of the telecommand, in the lines after that of its headers. */
static void try_words(const struct request *request, const uint8_t *octets, size_t length) {
    char digits[2 * ROOM + 2] = "";
    uint8_t out[ROOM] = {0};
    uint32_t outcome;
    struct rudlayog_answer answer;
    const char *words;
    for (size_t k = 0; k < length; k++) {
        sprintf(digits + 2 * k, "%02X", octets[k]);
    }
    strcat(digits, "\n");
    rudlayog_read(TEXT(digits), out, sizeof out - 1, &outcome, &answer);
    words = strchr((const char *)out, '\n');
    expect(outcome == RUDLAYOG_ALL_DONE && words != NULL && strcmp(words + 1, request->words) == 0, request->subtype, "other words");
}

/* Refuses each allocation of the call in turn: out of memory is told, and the buffer is as it was. */
static void try_request_refused(const struct request *request) {
    uint8_t out[ROOM];
    struct rudlayog_answer answer;
    long all;
    asked = 0;
    write_request(request, out, sizeof out, &answer);
    all = asked;
    for (refused = 1; refused <= all; refused++) {
        asked = 0;
        memset(out, 0xA5, sizeof out);
        write_request(request, out, sizeof out, &answer);
        expect(is_no_memory(&answer) && is_all(out, sizeof out, 0xA5), request->subtype, "out of memory is not told");
        expect(held == 0, request->subtype, "a block stays allocated");
    }
    refused = 0;
    expect(all > 0, request->subtype, "no allocation");
}

static void try_request(const struct request *request) {
    uint8_t wanted[ROOM];
    const size_t length = telecommand(request, wanted);
    try_rooms(request, wanted, length);
    try_words(request, wanted, length);
    try_request_refused(request);
}

/* A request that is refused: its answer has the number, and the buffer is as it was. */
static void try_refused(const struct rudlayog_request *fields, size_t count, uint32_t number) {
    static const struct rudlayog_instruction instructions[256];
    uint8_t out[ROOM];
    struct rudlayog_answer answer;
    memset(out, 0xA5, sizeof out);
    rudlayog_request_write(fields, instructions, count, out, sizeof out, &answer);
    expect(answer.status == RUDLAYOG_REFUSED && answer.refused.number == number && answer.refused.place == RUDLAYOG_WHOLE, fields->subtype,
           "another refusal");
    expect(answer.length == 0 && is_all(out, sizeof out, 0xA5), fields->subtype, "octets where it is refused");
}

static void try_refusals(void) {
    const struct rudlayog_request none = {.apid = 2046, .count = 16383, .acknowledgement = 15, .subtype = RUDLAYOG_REPORT_STATUS};
    struct rudlayog_request fields = none;
    for (unsigned subtype = 0; subtype < 256; subtype++) {
        size_t known = 0;
        for (size_t k = 0; k < sizeof requests / sizeof requests[0]; k++) {
            known += requests[k].subtype == subtype;
        }
        fields.subtype = (uint8_t)subtype;
        if (known == 0) {
            try_refused(&fields, 1, RUDLAYOG_REFUSAL_UNKNOWN_SUBTYPE);
        }
    }
    fields = none;
    try_refused(&fields, 1, RUDLAYOG_REFUSAL_COUNT_MISMATCH);
    fields.subtype = RUDLAYOG_ENABLE_STORAGE;
    try_refused(&fields, 0, RUDLAYOG_REFUSAL_COUNT_MISMATCH);
    try_refused(&fields, 256, RUDLAYOG_REFUSAL_COUNT_MISMATCH);
    fields.acknowledgement = 16;
    try_refused(&fields, 1, RUDLAYOG_REFUSAL_LIMIT);
    fields = none;
    fields.count = 16384;
    try_refused(&fields, 0, RUDLAYOG_REFUSAL_LIMIT);
    fields.apid = 2047;
    try_refused(&fields, 0, RUDLAYOG_REFUSAL_IDLE_PACKET);
}

/* 255 instructions, the most that a request has. */
static void try_most(void) {
    static struct rudlayog_instruction instructions[255];
    const struct rudlayog_request fields = {.apid = 1, .subtype = RUDLAYOG_RESIZE_STORES};
    uint8_t out[ROOM];
    struct rudlayog_answer answer;
    for (size_t k = 0; k < 255; k++) {
        instructions[k].size = (uint32_t)k;
    }
    rudlayog_request_write(&fields, instructions, 255, out, sizeof out, &answer);
    expect(answer.status == RUDLAYOG_WRITTEN && answer.length == 12 + 255 * 12 && out[11] == 255, fields.subtype, "another count");
    for (size_t k = 0; k < 255; k++) {
        expect(is_all(out + 12 + 12 * k, 8, ' ') && out[12 + 12 * k + 11] == k, fields.subtype, "another instruction");
    }
}

/* A report: its octets, and what its fields are. Telemetry with APID 0x364, sequence count 0x1203, time reference status 9, message type
 * counter 0x0506, destination identifier 0x0708 and the moment 0x1112131415161718. */
struct report {
    uint8_t subtype;
    size_t length;
    uint8_t data[64];
    uint8_t id[8];
    size_t count;
    struct rudlayog_entry entries[2];
};

#define TIME 1, 2, 3, 4, 5, 6, 7, 8
#define LATER 0x21, 0x22, 0x23, 0x24, 0x25, 0x26, 0x27, 0x28

/* Each subtype of a report, in the order of docs/PACKETS.md, 'Reports of the storage service'. */
static const struct report reports[] = {
    {RUDLAYOG_CONTROL,
     DATA(SCI, 0, 2, 1, 2, 3, 25, 0, 4, 5, 6),
     {SCI},
     2,
     {{.apid = 0x0102, .service = 3, .subtype = 25}, {.apid = 4, .service = 5, .subtype = 6}}},
    {RUDLAYOG_CONTROL, DATA(HK, 0, 0), {HK}, 0, {{{0}, 0, 0, 0, 0, 0, 0, 0, 0, 0, 0, 0}}},
    {RUDLAYOG_SUMMARIES,
     DATA(2, SCI, TIME, LATER, 0x31, 0x32, 0x33, 0x34, HK, 0, 0, 0, 0, 0, 0, 0, 0, 0, 0, 0, 0, 0, 0, 0, 0, 0, 0, 0, 0),
     {0},
     2,
     {{.id = {SCI}, .oldest = 0x0102030405060708, .newest = 0x2122232425262728, .held = 0x31323334}, {.id = {HK}}}},
    {RUDLAYOG_STATUSES, DATA(2, SCI, 1, 0, HK, 0, 1), {0}, 2, {{.id = {SCI}, .storage = 1}, {.id = {HK}, .retrieval = 1}}},
    {RUDLAYOG_CONFIGURATIONS,
     DATA(2, SCI, 1, 2, 3, 4, 1, 7, HK, 0, 0, 0, 5, 0, 1),
     {0},
     2,
     {{.id = {SCI}, .size = 0x01020304, .type = RUDLAYOG_TYPE_BOUNDED, .channel = 7},
      {.id = {HK}, .size = 5, .type = RUDLAYOG_TYPE_CIRCULAR, .channel = 1}}},
};

static size_t telemetry(const struct report *report, uint8_t *out) {
    const uint8_t headers[21] = {
        0x0B, 0x64, 0xD2, 0x03, 0,   (uint8_t)(14 + report->length), 0x29, 15, report->subtype, 5, 6, 7, 8, 0x11, 0x12, 0x13,
        0x14, 0x15, 0x16, 0x17, 0x18};
    memcpy(out, headers, sizeof headers);
    memcpy(out + sizeof headers, report->data, report->length);
    return sizeof headers + report->length;
}

static int is_entry(const struct rudlayog_entry *a, const struct rudlayog_entry *b) {
    return memcmp(a->id, b->id, 8) == 0 && a->oldest == b->oldest && a->newest == b->newest && a->held == b->held && a->size == b->size &&
           a->apid == b->apid && a->service == b->service && a->subtype == b->subtype && a->storage == b->storage &&
           a->retrieval == b->retrieval && a->type == b->type && a->channel == b->channel;
}

static void expect_fields(const struct report *report, const struct rudlayog_report *told) {
    expect(told->subtype == report->subtype && told->moment == 0x1112131415161718, report->subtype, "another subtype or moment");
    expect(told->apid == 0x364 && told->count == 0x1203 && told->reference == 9, report->subtype, "another header");
    expect(told->counter == 0x0506 && told->destination == 0x0708, report->subtype, "another counter or destination");
    expect(memcmp(told->id, report->id, 8) == 0, report->subtype, "another identifier");
}

/* Room for no entry, for one, and for more than there are. */
static void try_report_rooms(const struct report *report, const uint8_t *octets, size_t length) {
    struct rudlayog_entry entries[4];
    struct rudlayog_report told;
    struct rudlayog_answer answer;
    for (size_t room = 0; room <= 4; room++) {
        const int fits = room >= report->count;
        const size_t written = fits ? report->count : 0;
        memset(entries, 0xA5, sizeof entries);
        memset(&told, 0xA5, sizeof told);
        memset(&answer, 0xA5, sizeof answer);
        rudlayog_report_read(octets, length, &told, room == 0 ? NULL : entries, room, &answer);
        expect(answer.status == (fits ? RUDLAYOG_WRITTEN : RUDLAYOG_TOO_SMALL), report->subtype, "another status");
        expect(answer.length == report->count && answer.refused.number == 0, report->subtype, "another number of entries");
        expect_fields(report, &told);
        for (size_t k = 0; k < written; k++) {
            expect(is_entry(&entries[k], &report->entries[k]), report->subtype, "another entry");
        }
        expect(is_all(entries + written, (4 - written) * sizeof entries[0], 0xA5), report->subtype, "entries after them");
    }
}

/* Octets that are no report: the refusal has this number, no field is told, and the buffer is as it was. */
static void try_no_report(const uint8_t *octets, size_t length, uint32_t number) {
    const struct rudlayog_report none = {.moment = 0};
    struct rudlayog_entry entries[4];
    struct rudlayog_report told;
    struct rudlayog_answer answer;
    memset(entries, 0xA5, sizeof entries);
    memset(&told, 0xA5, sizeof told);
    rudlayog_report_read(octets, length, &told, entries, 4, &answer);
    expect(answer.status == RUDLAYOG_REFUSED && answer.refused.number == number && answer.length == 0, octets[8], "another refusal");
    expect(told.moment == none.moment && told.subtype == 0 && told.apid == 0 && told.count == 0 && told.counter == 0 &&
               told.destination == 0 && told.reference == 0 && is_all(told.id, 8, 0),
           octets[8], "fields where it is refused");
    expect(is_all(entries, sizeof entries, 0xA5), octets[8], "entries where it is refused");
}

static void try_bad_reports(const struct report *report, uint8_t *octets, size_t length) {
    try_no_report(octets, length - 1, RUDLAYOG_REFUSAL_SHORT);
    octets[length] = 0;
    try_no_report(octets, length + 1, RUDLAYOG_REFUSAL_HEX_LINE);
    octets[5]++;
    try_no_report(octets, length + 1, RUDLAYOG_REFUSAL_COUNT_MISMATCH);
    octets[5]--;
    octets[7] = 14;
    try_no_report(octets, length, RUDLAYOG_REFUSAL_NOT_ST15);
    octets[7] = 15;
    octets[8] = 12;
    try_no_report(octets, length, RUDLAYOG_REFUSAL_UNKNOWN_SUBTYPE);
    octets[8] = report->subtype;
    octets[0] |= 0x10;
    try_no_report(octets, length, RUDLAYOG_REFUSAL_NOT_ST15);
    octets[0] &= 0xEF;
}

static void try_report_refused(const struct report *report, const uint8_t *octets, size_t length) {
    struct rudlayog_entry entries[4];
    struct rudlayog_report told;
    struct rudlayog_answer answer;
    long all;
    asked = 0;
    rudlayog_report_read(octets, length, &told, entries, 4, &answer);
    all = asked;
    for (refused = 1; refused <= all; refused++) {
        asked = 0;
        memset(entries, 0xA5, sizeof entries);
        rudlayog_report_read(octets, length, &told, entries, 4, &answer);
        expect(is_no_memory(&answer) && told.subtype == 0 && told.moment == 0, report->subtype, "out of memory is not told");
        expect(is_all(entries, sizeof entries, 0xA5) && held == 0, report->subtype, "something is left");
    }
    refused = 0;
    expect(all > 0, report->subtype, "no allocation");
}

static void try_report(const struct report *report) {
    uint8_t octets[ROOM];
    const size_t length = telemetry(report, octets);
    try_report_rooms(report, octets, length);
    try_bad_reports(report, octets, length);
    try_report_refused(report, octets, length);
}

/* A storage control of more rows than any other report has entries. */
static void try_many_rows(void) {
    enum { ROWS = 16377 };
    static uint8_t octets[21 + 10 + 4 * ROWS];
    static struct rudlayog_entry entries[ROWS];
    const uint8_t headers[31] = {0x08,
                                 1,
                                 0xC0,
                                 0,
                                 (sizeof octets - 7) >> 8,
                                 (sizeof octets - 7) & 255,
                                 0x20,
                                 15,
                                 6,
                                 [21] = 'H',
                                 'K',
                                 ' ',
                                 ' ',
                                 ' ',
                                 ' ',
                                 ' ',
                                 ' ',
                                 ROWS >> 8,
                                 ROWS & 255};
    struct rudlayog_report told;
    struct rudlayog_answer answer;
    memcpy(octets, headers, sizeof headers);
    for (size_t k = 0; k < ROWS; k++) {
        octets[31 + 4 * k] = (uint8_t)(k >> 8);
        octets[32 + 4 * k] = (uint8_t)k;
    }
    rudlayog_report_read(octets, sizeof octets, &told, entries, ROWS - 1, &answer);
    expect(answer.status == RUDLAYOG_TOO_SMALL && answer.length == ROWS, 6, "another answer with little room");
    rudlayog_report_read(octets, sizeof octets, &told, entries, ROWS, &answer);
    expect(answer.status == RUDLAYOG_WRITTEN && answer.length == ROWS && told.subtype == RUDLAYOG_CONTROL, 6, "another answer");
    for (size_t k = 0; k < ROWS; k++) {
        expect(entries[k].apid == k && entries[k].service == 0 && is_all(entries[k].id, 8, 0), 6, "another row");
    }
}

/* A memory carries out what was written, and its report is read. */
static void try_memory(void) {
    static const char setup[] = "[[store]]\nid = \"SCI\"\nsize = 4\ntype = \"bounded\"\nchannel = 0\n";
    const struct rudlayog_request create = {.apid = 1, .subtype = RUDLAYOG_CREATE_STORES};
    const struct rudlayog_request ask = {.apid = 1, .source = 9, .subtype = RUDLAYOG_REPORT_CONFIGURATION};
    const struct rudlayog_instruction store = {.id = "CAM", .size = 6, .type = RUDLAYOG_TYPE_CIRCULAR, .channel = 3};
    const struct rudlayog_entry wanted = {
        .id = {'C', 'A', 'M', ' ', ' ', ' ', ' ', ' '}, .size = 6, .type = RUDLAYOG_TYPE_CIRCULAR, .channel = 3};
    struct rudlayog_memory memory = RUDLAYOG_MEMORY_CLOSED;
    struct rudlayog_entry entries[4];
    struct rudlayog_report told;
    struct rudlayog_answer answer;
    uint8_t packet[ROOM], each[RUDLAYOG_INSTRUCTIONS];
    rudlayog_memory_open(&memory, TEXT(setup), &answer);
    rudlayog_request_write(&create, &store, 1, packet, sizeof packet, &answer);
    rudlayog_memory_apply(&memory, 7, packet, answer.length, each, sizeof each, &answer);
    expect(answer.length == 1 && each[0] == RUDLAYOG_DONE, create.subtype, "it is not carried out");
    rudlayog_request_write(&ask, NULL, 0, packet, sizeof packet, &answer);
    rudlayog_memory_apply(&memory, 8, packet, answer.length, each, sizeof each, &answer);
    rudlayog_memory_report(&memory, packet, sizeof packet, &answer);
    rudlayog_report_read(packet, answer.length, &told, entries, 4, &answer);
    expect(answer.status == RUDLAYOG_WRITTEN && answer.length == 2 && is_entry(&entries[1], &wanted), told.subtype, "another entry");
    expect(told.moment == 8 && told.destination == 9 && told.subtype == RUDLAYOG_CONFIGURATIONS, told.subtype, "another report");
    rudlayog_memory_close(&memory);
}

int main(void) {
    for (size_t k = 0; k < sizeof requests / sizeof requests[0]; k++) {
        try_request(&requests[k]);
    }
    try_refusals();
    try_most();
    for (size_t k = 0; k < sizeof reports / sizeof reports[0]; k++) {
        try_report(&reports[k]);
    }
    try_many_rows();
    try_memory();
    expect(held == 0, 0, "a block stays allocated");
    printf("fields: %zu requests, %zu reports\n", sizeof requests / sizeof requests[0], sizeof reports / sizeof reports[0]);
    return failed;
}
