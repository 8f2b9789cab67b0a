/* A flight of 100,000 packets without an operating system. The timer's interrupt records packets; meanwhile the main
 * loop dumps what was recorded: it starts a retrieval by telecommand, takes the packets, deletes what it took, and
 * has reports made and read. Both use one handle, with interrupts masked around each call. Each packet goes into
 * three stores:
 *
 *   SCI  bounded, and dumped: the instrument waits where it has no room, so that nothing is lost
 *   HK   circular, never dumped: the last 500 packets stay
 *   EV   bounded, never dumped: the first 100 packets stay
 *
 * So what is printed is the same wherever interrupts come, but for the last two lines. */
#include "machine.h"
#include <rudlayog.h>
#include <rudlayog_heap.h>

enum { PACKETS = 100000, PASS = 400, SIZE = 2000, LENGTH = 64, COUNT_AT = 21, EACH = 4 };

#define TEXT(text) (const uint8_t *)(text), sizeof(text) - 1

static const char setup[] = "[[store]]\nid = \"SCI\"\nsize = 2000\ntype = \"bounded\"\nchannel = 0\n"
                            "[[store]]\nid = \"HK\"\nsize = 500\ntype = \"circular\"\nchannel = 1\n"
                            "[[store]]\nid = \"EV\"\nsize = 100\ntype = \"bounded\"\nchannel = 2\n"
                            "[[route]]\napid = 1\nservice = 3\nsubtype = 25\nstore = \"SCI\"\n"
                            "[[route]]\napid = 1\nservice = 3\nsubtype = 25\nstore = \"HK\"\n"
                            "[[route]]\napid = 1\nservice = 3\nsubtype = 25\nstore = \"EV\"\n";

static struct rudlayog_memory memory = RUDLAYOG_MEMORY_CLOSED;
/* Changed by the interrupt, and looked at with interrupts masked. */
static uint32_t recorded, deleted, kept, lost, interrupts, meanwhile, faults;
/* Of the main loop alone. */
static uint32_t sent, requests, reports;
static bool is_waiting;
static uint64_t digest = 14695981039346656037u;
static uint8_t out[RUDLAYOG_PACKET];

static void write_text(const char *text) {
    while (*text != 0) {
        machine_write(*text++);
    }
}

static void write_number(uint64_t number) {
    char digits[20];
    int count = 0;
    do {
        digits[count++] = (char)('0' + number % 10);
        number /= 10;
    } while (number != 0);
    while (count > 0) {
        machine_write(digits[--count]);
    }
}

static void write_value(const char *name, uint64_t value) {
    write_text(name);
    write_number(value);
}

/* Takes a number into the digest. */
static void digest_number(uint64_t number) {
    for (int octet = 0; octet < 8; octet++) {
        digest = (digest ^ (uint8_t)(number >> (8 * octet))) * 1099511628211u;
    }
}

static void expect(bool is_so, const char *what) {
    if (!is_so) {
        faults++;
        write_text("fault: ");
        write_text(what);
        write_text("\n");
    }
}

/* Telemetry of APID 1, service 3, subtype 25, with its number as data. */
static void record_one(void) {
    uint8_t packet[LENGTH] = {0x08, 1, 0xC0, 0, 0, LENGTH - 7, 0x20, 3, 25};
    struct rudlayog_tally tally;
    struct rudlayog_answer answer;
    for (int octet = 0; octet < 4; octet++) {
        packet[COUNT_AT + octet] = (uint8_t)(recorded >> (24 - 8 * octet));
    }
    recorded++;
    rudlayog_memory_record(&memory, recorded, packet, LENGTH, &tally, &answer);
    kept += tally.kept;
    lost += tally.lost;
    faults += answer.status != RUDLAYOG_WRITTEN || tally.refused != 0;
}

/* The handler of the timer's interrupt. */
static void on_timer(void) {
    interrupts++;
    meanwhile += !is_waiting;
    for (int k = 0; k < EACH && recorded < PACKETS && recorded - deleted < SIZE; k++) {
        record_one();
    }
}

static void wait_for(uint32_t count) {
    machine_mask();
    is_waiting = true;
    while (recorded < count) {
        machine_wait();
    }
    is_waiting = false;
    machine_unmask();
}

/* Makes the telecommand of a request, and applies it. */
static void apply(uint64_t now, uint8_t subtype, const struct rudlayog_instruction *instruction) {
    const struct rudlayog_request request = {.apid = 100, .source = 7, .subtype = subtype};
    static uint8_t packet[RUDLAYOG_REQUEST_ROOM], each[RUDLAYOG_INSTRUCTIONS];
    const size_t count = instruction != NULL;
    struct rudlayog_answer answer;
    machine_mask();
    rudlayog_request_write(&request, instruction, count, packet, sizeof packet, &answer);
    rudlayog_memory_apply(&memory, now, packet, answer.length, each, sizeof each, &answer);
    machine_unmask();
    expect(answer.status == RUDLAYOG_WRITTEN && answer.length == count, "a request");
    expect(count == 0 || each[0] == RUDLAYOG_DONE, "an instruction");
    requests++;
}

/* Takes all packets of the retrieval from SCI. */
static void dump(void) {
    struct rudlayog_answer answer;
    uint64_t time;
    do {
        machine_mask();
        rudlayog_memory_next(&memory, TEXT("SCI"), out, sizeof out, &time, &answer);
        machine_unmask();
        if (answer.status == RUDLAYOG_WRITTEN) {
            digest_number(time);
            for (size_t k = 0; k < answer.length; k++) {
                digest_number(out[k]);
            }
            sent++;
        }
    } while (answer.status == RUDLAYOG_WRITTEN);
    expect(answer.status == RUDLAYOG_END, "the end of a retrieval");
}

/* Takes the reports that wait. What they tell is the same whatever was recorded meanwhile. */
static void take_reports(void) {
    static struct rudlayog_entry entries[16];
    struct rudlayog_report report;
    struct rudlayog_answer answer;
    for (;;) {
        machine_mask();
        rudlayog_memory_report(&memory, out, sizeof out, &answer);
        if (answer.status == RUDLAYOG_WRITTEN) {
            rudlayog_report_read(out, answer.length, &report, entries, 16, &answer);
        }
        machine_unmask();
        if (answer.status != RUDLAYOG_WRITTEN) {
            break;
        }
        digest_number(report.subtype);
        digest_number(report.moment);
        for (size_t k = 0; k < answer.length; k++) {
            digest_number(entries[k].id[0]);
            digest_number(entries[k].size);
            digest_number(entries[k].storage);
            digest_number(entries[k].apid);
        }
        reports++;
    }
    expect(answer.status == RUDLAYOG_END, "the end of the reports");
}

/* Dumps and deletes what was recorded up to this packet, and asks for reports. */
static void pass(uint32_t last) {
    const struct rudlayog_instruction of_sci = {.id = "SCI", .from = 0, .to = last};
    wait_for(last);
    apply(last, RUDLAYOG_START_RETRIEVAL, &of_sci);
    dump();
    apply(last, RUDLAYOG_DELETE_CONTENT, &of_sci);
    machine_mask();
    deleted = last;
    machine_unmask();
    apply(last, RUDLAYOG_REPORT_STATUS, NULL);
    apply(last, RUDLAYOG_REPORT_CONFIGURATION, NULL);
    apply(last, RUDLAYOG_REPORT_CONTROL, &of_sci);
    take_reports();
}

static void show(const char *name, const uint8_t *id, size_t length) {
    struct rudlayog_state state;
    struct rudlayog_answer answer;
    rudlayog_memory_state(&memory, id, length, &state, &answer);
    expect(answer.status == RUDLAYOG_WRITTEN, "a state");
    write_text(name);
    write_value(": offered ", state.offered);
    write_value(", held ", state.held);
    write_value(", lost ", state.lost);
    write_value(", deleted ", state.deleted);
    write_value(", oldest ", state.oldest);
    write_value(", newest ", state.newest);
    write_text("\n");
}

#ifndef WITHOUT_PLANNER
static void plan(void) {
    static const char two_steps[] = "[[store]]\nid = \"SCI\"\nsize = 4\ntype = \"bounded\"\nchannel = 0\n";
    struct rudlayog_answer answer;
    rudlayog_plan(TEXT(two_steps), TEXT("step,window,SCI\n1,2,5\n2,3,3\n"), out, sizeof out, &answer);
    expect(answer.status == RUDLAYOG_WRITTEN, "a plan");
    for (size_t k = 0; k < answer.length; k++) {
        machine_write((char)out[k]);
    }
}
#endif

int main(void) {
    struct rudlayog_answer answer;
    struct rudlayog_pool_use use;
    rudlayog_memory_open(&memory, TEXT(setup), &answer);
    expect(answer.status == RUDLAYOG_WRITTEN, "opening");
    rudlayog_memory_bound(&memory, 8, &answer);
    machine_start_timer(on_timer);
    for (uint32_t last = PASS; last <= PACKETS; last += PASS) {
        pass(last);
    }
    machine_mask();
    write_value("recorded ", recorded);
    write_value(", kept ", kept);
    write_value(", lost ", lost);
    write_value(", sent ", sent);
    write_value(", requests ", requests);
    write_value(", reports ", reports);
    write_value(", digest ", digest);
    write_text("\n");
    show("SCI", TEXT("SCI"));
    show("HK", TEXT("HK"));
    show("EV", TEXT("EV"));
#ifndef WITHOUT_PLANNER
    plan();
#endif
    use = rudlayog_pool_use();
    expect(use.refused == 0, "memory was refused");
    rudlayog_memory_close(&memory);
    expect(rudlayog_pool_use().blocks == 0, "a block stays in use");
    write_value("faults ", faults);
    write_value("\npool: most in use ", use.most);
    write_value(", cut ", use.cut);
    write_value(" of ", RUDLAYOG_POOL);
    write_value("\ninterrupts ", interrupts);
    write_value(", while the main loop was at work ", meanwhile);
    write_text("\n");
    return faults != 0;
}
