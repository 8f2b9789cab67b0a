/* Measures each call on a memory: how many instructions it takes, and how deep its stack is. Memories of 1 and of 16
 * stores have 10, 1,000 and 1,000,000 blocks in all; they are empty, and full. Packets have as many octets as a block,
 * but where the name of the call says another number. One memory more has as many routes as there may be.
 * bindings/c/measure_bounds builds this for each processor, runs it, and prints a table.
 *
 * A machine of bindings/c/bare counts instructions itself. With `-DHOSTED` callgrind counts them, for whom each call
 * is marked. */
#include "../bare/machine.h"
#include <rudlayog.h>

#define TEXT(text) (const uint8_t *)(text), sizeof(text) - 1

enum { MOST_STORES = 16, MOST_ROUTES = 256, SHORT = 64, LAST = 4 };

static struct rudlayog_memory memory = RUDLAYOG_MEMORY_CLOSED;
static struct rudlayog_answer answer;
static uint8_t out[RUDLAYOG_PACKET], request[RUDLAYOG_REQUEST_ROOM];
static size_t request_length;
static uint64_t now;
static uint32_t stores, blocks;
static bool is_full;
static const char *name;

/* Telemetry of APID 1, which is routed to the last store, or of APID 2, which is routed to all. */
static uint8_t packet[RUDLAYOG_BLOCK];
static size_t packet_length;

static void make_packet(uint8_t apid, size_t length) {
    const size_t last = length - 7;
    const uint8_t fields[] = {0x08, apid, 0xC0, 0, (uint8_t)(last >> 8), (uint8_t)last, 0x20, 3, 25};
    for (size_t octet = 0; octet < sizeof fields; octet++) {
        packet[octet] = fields[octet];
    }
    packet_length = length;
}

static void write_text(const char *text) {
    while (*text != 0) {
        machine_write(*text++);
    }
}

static void write_number(uint64_t number) {
    char digits[20];
    int count = 0;
    do {
        digits[count++] = (char)('0' + number % 10);
        number /= 10;
    } while (number != 0);
    for (machine_write(' '); count > 0;) {
        machine_write(digits[--count]);
    }
}

/* Makes a call, and writes its line: the memory, the state, the call, the instructions and the stack. */
static void measure(void (*call)(void)) {
    uint64_t instructions, stack;
    machine_measure(call, name, &instructions, &stack);
    write_text("bound");
    write_number(stores);
    write_number(blocks);
    write_text(is_full ? " full " : " empty ");
    write_text(name);
    write_number(instructions);
    write_number(stack);
    if (answer.status == RUDLAYOG_REFUSED || answer.status > RUDLAYOG_END) {
        write_text(" refused");
        write_number(answer.refused.number);
    }
    machine_write('\n');
}

/* Room for the rows of 16 stores and 256 routes. */
static char setup[20480];
static size_t setup_length;

static void put(const char *text) {
    while (*text != 0) {
        setup[setup_length++] = *text++;
    }
}

static void put_number(uint32_t number) {
    if (number >= 10) {
        put_number(number / 10);
    }
    setup[setup_length++] = (char)('0' + number % 10);
}

static void put_id(uint32_t store) {
    const char id[] = {'"', (char)('A' + store), '"', '\n', 0};
    put(id);
}

static void put_route(uint32_t apid, uint32_t store) {
    put("[[route]]\napid = ");
    put_number(apid);
    put("\nservice = 3\nsubtype = 25\nstore = ");
    put_id(store);
}

/* The last store is circular and is retrieved from; the others are bounded and circular in turn. */
static void make_setup(void) {
    setup_length = 0;
    for (uint32_t store = 0; store < stores; store++) {
        put("[[store]]\nid = ");
        put_id(store);
        put("size = ");
        put_number(blocks / stores != 0 ? blocks / stores : 1);
        put((stores - store) % 2 != 0 ? "\ntype = \"circular\"" : "\ntype = \"bounded\"");
        put("\nchannel = 1\n");
    }
    for (uint32_t store = 0; store < stores; store++) {
        put_route(2, store);
    }
    put_route(1, stores - 1);
}

/* As many report types as there may be go into the one store. */
static void make_routes(void) {
    for (uint32_t apid = 3; apid <= MOST_ROUTES; apid++) {
        put_route(apid, 0);
    }
}

static uint8_t last_id(void) { return (uint8_t)('A' + stores - 1); }

static void call_open(void) { rudlayog_memory_open(&memory, (const uint8_t *)setup, setup_length, &answer); }

static void call_close(void) { rudlayog_memory_close(&memory); }

/* Not each tick has a packet, so that the place of a time has to be searched for. */
enum { TICKS = 3 };

static void call_record(void) {
    struct rudlayog_tally tally;
    rudlayog_memory_record(&memory, now += TICKS, packet, packet_length, &tally, &answer);
}

static void offer_to(uint8_t id) {
    struct rudlayog_fate fate;
    rudlayog_memory_offer(&memory, &id, 1, now += TICKS, packet, packet_length, &fate, &answer);
}

static void call_offer(void) { offer_to(last_id()); }

/* The store before the last is bounded. */
static void call_offer_to_bounded(void) { offer_to((uint8_t)(last_id() - 1)); }

static void call_next(void) {
    uint64_t time;
    const uint8_t id = last_id();
    rudlayog_memory_next(&memory, &id, 1, out, sizeof out, &time, &answer);
}

static void call_state(void) {
    struct rudlayog_state state;
    const uint8_t id = last_id();
    rudlayog_memory_state(&memory, &id, 1, &state, &answer);
}

static void call_store(void) {
    struct rudlayog_store store;
    rudlayog_memory_store(&memory, stores - 1, &store, &answer);
}

static void call_waiting(void) {
    uint64_t reports;
    rudlayog_memory_waiting(&memory, &reports, &answer);
}

static void call_refused(void) {
    uint64_t packets;
    rudlayog_memory_refused(&memory, &packets, &answer);
}

static void call_bound(void) { rudlayog_memory_bound(&memory, 300, &answer); }

static void call_report(void) { rudlayog_memory_report(&memory, out, sizeof out, &answer); }

static void call_apply(void) { rudlayog_memory_apply(&memory, now, request, request_length, out, sizeof out, &answer); }

/* Measures a request with this many instructions, all alike. */
static void measure_request(const char *called, uint8_t subtype, size_t count, struct rudlayog_instruction fields) {
    const struct rudlayog_request head = {.apid = 1, .subtype = subtype};
    struct rudlayog_answer written;
    static struct rudlayog_instruction instructions[RUDLAYOG_INSTRUCTIONS];
    for (size_t k = 0; k < count; k++) {
        instructions[k] = fields;
    }
    rudlayog_request_write(&head, instructions, count, request, sizeof request, &written);
    request_length = written.length;
    name = called;
    measure(call_apply);
}

static void measure_one(const char *called, void (*call)(void)) {
    name = called;
    measure(call);
}

/* With short packets, which take less time to be made; the last ones are as long as may be. */
static void fill(void) {
    const uint32_t each = blocks / stores != 0 ? blocks / stores : 1;
    for (uint32_t k = 0; is_full && k < each; k++) {
        make_packet(2, k + LAST < each ? SHORT : sizeof packet);
        call_record();
    }
    make_packet(1, sizeof packet);
}

static void open_again(void) {
    call_close();
    call_open();
    fill();
}

static void measure_requests(void) {
    struct rudlayog_instruction of_last = {.id = {last_id()}, .to = UINT64_MAX, .apid = 9, .service = 3, .subtype = 25};
    of_last.size = blocks / stores != 0 ? blocks / stores : 1;
    of_last.from = now - 2 * TICKS;
    measure_request("start-retrieval", RUDLAYOG_START_RETRIEVAL, 1, of_last);
    measure_one("next,-the-first-of-a-retrieval", call_next);
    measure_one("next", call_next);
    measure_request("abort-retrieval", RUDLAYOG_ABORT_RETRIEVAL, 1, of_last);
    measure_request("add-report-type", RUDLAYOG_ADD_REPORT_TYPES, 1, of_last);
    measure_request("delete-report-type", RUDLAYOG_DELETE_REPORT_TYPES, 1, of_last);
    measure_request("report-control", RUDLAYOG_REPORT_CONTROL, 1, of_last);
    measure_one("report", call_report);
    measure_request("summarise-content", RUDLAYOG_SUMMARISE_CONTENT, 1, of_last);
    measure_one("report", call_report);
    measure_request("report-status", RUDLAYOG_REPORT_STATUS, 0, of_last);
    measure_one("report", call_report);
    measure_request("report-configuration", RUDLAYOG_REPORT_CONFIGURATION, 0, of_last);
    measure_one("report", call_report);
    measure_request("255-summaries", RUDLAYOG_SUMMARISE_CONTENT, RUDLAYOG_INSTRUCTIONS, of_last);
    measure_one("report", call_report);
    measure_request("disable-storage", RUDLAYOG_DISABLE_STORAGE, 1, of_last);
    measure_request("255-enable-storage", RUDLAYOG_ENABLE_STORAGE, RUDLAYOG_INSTRUCTIONS, of_last);
    measure_request("disable-storage", RUDLAYOG_DISABLE_STORAGE, 1, of_last);
    measure_request("change-channel", RUDLAYOG_CHANGE_CHANNEL, 1, of_last);
    measure_request("change-to-bounded", RUDLAYOG_CHANGE_TO_BOUNDED, 1, of_last);
    measure_request("change-to-circular", RUDLAYOG_CHANGE_TO_CIRCULAR, 1, of_last);
    measure_request("resize-store", RUDLAYOG_RESIZE_STORES, 1, of_last);
    measure_request("delete-content", RUDLAYOG_DELETE_CONTENT, 1, of_last);
}

/* A store is deleted with all that it holds, and another one is made. */
static void measure_stores(void) {
    const struct rudlayog_instruction of_last = {.id = {last_id()}};
    const struct rudlayog_instruction other = {.id = "NEW", .size = 10, .channel = 1};
    measure_request("disable-storage", RUDLAYOG_DISABLE_STORAGE, 1, of_last);
    measure_request("delete-store", RUDLAYOG_DELETE_STORES, 1, of_last);
    measure_request("create-store", RUDLAYOG_CREATE_STORES, 1, other);
}

static void measure_memory(void) {
    make_setup();
    measure_one("open", call_open);
    fill();
    make_packet(1, SHORT);
    measure_one("record-of-64-octets", call_record);
    make_packet(2, sizeof packet);
    measure_one("record-to-all", call_record);
    make_packet(1, sizeof packet);
    measure_one("record", call_record);
    measure_one("offer", call_offer);
    if (stores > 1) {
        measure_one("offer-to-a-bounded-store", call_offer_to_bounded);
    }
    measure_one("state", call_state);
    measure_one("store", call_store);
    measure_one("waiting", call_waiting);
    measure_one("refused", call_refused);
    measure_one("bound", call_bound);
    measure_requests();
    open_again();
    measure_stores();
    open_again();
    measure_one("close", call_close);
}

/* Requests that tell the storage control of a store with all routes, and a report that does. */
static void measure_routes(void) {
    const struct rudlayog_instruction of_last = {.id = {last_id()}, .apid = 9, .service = 3, .subtype = 25};
    is_full = false;
    make_setup();
    make_routes();
    call_open();
    measure_request("255-report-controls-of-256-routes", RUDLAYOG_REPORT_CONTROL, RUDLAYOG_INSTRUCTIONS, of_last);
    measure_one("report-of-256-routes", call_report);
    measure_request("255-delete-report-types-of-256", RUDLAYOG_DELETE_REPORT_TYPES, RUDLAYOG_INSTRUCTIONS, of_last);
    call_close();
}

int main(void) {
    static const uint32_t sizes[] = {10, 1000, 1000000};
    for (stores = 1; stores <= MOST_STORES; stores += MOST_STORES - 1) {
        for (int k = 0; k < 3; k++) {
            blocks = sizes[k];
            is_full = false;
            measure_memory();
            is_full = true;
            measure_memory();
            if (stores == 1) {
                measure_routes();
            }
        }
    }
    return 0;
}
