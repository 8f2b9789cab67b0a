/* Makes random calls on a memory, `calls [CALLS] [SEED]`, and prints how they ended and one digest of all that they
 * wrote: the same on each processor. Packets, requests and identifiers are good and bad; the memory is closed and
 * opened again now and then. With `-DCALLS=..` it writes to the serial port of a machine of bindings/c/bare. */
#include <rudlayog.h>

enum { STORES = 6, STATUSES = 6 };

static const char setup[] = "[[store]]\nid = \"A\"\nsize = 20\ntype = \"bounded\"\nchannel = 0\n"
                            "[[store]]\nid = \"B\"\nsize = 7\ntype = \"circular\"\nchannel = 1\n"
                            "[[store]]\nid = \"C\"\nsize = 1\ntype = \"circular\"\nchannel = 1\n"
                            "[[route]]\napid = 1\nservice = 3\nsubtype = 25\nstore = \"A\"\n"
                            "[[route]]\napid = 1\nservice = 3\nsubtype = 25\nstore = \"B\"\n"
                            "[[route]]\napid = 2\nservice = 3\nsubtype = 25\nstore = \"C\"\n";

/* What the calls wrote: how many ended in each way, how many instructions were carried out, and how many packets and
 * reports were given. */
struct summary {
    uint64_t ends[STATUSES];
    uint64_t done, packets, reports, digest;
};

static struct summary sum;
static struct rudlayog_memory memory = RUDLAYOG_MEMORY_CLOSED;
static struct rudlayog_answer answer;
static uint64_t drawn, now;
static uint8_t packet[RUDLAYOG_PACKET], out[RUDLAYOG_PACKET];

/* A number below a bound, by Steele, Lea and Flood's SplitMix64. No two are drawn in one expression, whose order
 * would be the compiler's. */
static uint64_t below(uint64_t bound) {
    uint64_t z = drawn += 0x9E3779B97F4A7C15u;
    z = (z ^ (z >> 30)) * 0xBF58476D1CE4E5B9u;
    z = (z ^ (z >> 27)) * 0x94D049BB133111EBu;
    return (z ^ (z >> 31)) % bound;
}

static void digest_octet(uint8_t octet) { sum.digest = (sum.digest ^ octet) * 1099511628211u; }

static void digest_number(uint64_t number) {
    for (int octet = 0; octet < 8; octet++) {
        digest_octet((uint8_t)(number >> (8 * octet)));
    }
}

static void digest_octets(const uint8_t *octets, size_t count) {
    for (size_t k = 0; k < count; k++) {
        digest_octet(octets[k]);
    }
}

static void digest_answer(void) {
    sum.ends[answer.status < STATUSES ? answer.status : 0]++;
    digest_number(answer.status);
    digest_number(answer.length);
    digest_number(answer.refused.number);
    digest_number(answer.refused.place);
    digest_number(answer.refused.row);
    digest_number(answer.refused.column);
    digest_number(answer.refused.line);
    digest_number(answer.refused.name);
}

/* An identifier of a store, which may be none that is there, or none at all. */
static size_t draw_id(uint8_t *id) {
    if (below(50) == 0) {
        id[0] = (uint8_t)below(256);
        return (size_t)below(2);
    }
    id[0] = (uint8_t)('A' + below(STORES));
    return 1;
}

/* Telemetry, mostly. Gives its length. */
static size_t draw_packet(void) {
    const size_t length = below(40) == 0 ? (size_t)below(1100) : 21 + (size_t)below(below(8) == 0 ? 1004 : 60);
    for (size_t k = 0; k < length; k++) {
        packet[k] = (uint8_t)below(256);
    }
    if (length >= 21 && below(40) != 0) {
        const size_t last = length - 7;
        const uint8_t apid = (uint8_t)(1 + below(3));
        const uint8_t second = 0xC0 | (packet[2] & 63);
        const uint8_t head[] = {0x08, apid, second, packet[3], (uint8_t)(last >> 8), (uint8_t)last, 0x20, 3, 25};
        for (size_t k = 0; k < sizeof head; k++) {
            packet[k] = head[k];
        }
    }
    return length;
}

static void make_record(void) {
    struct rudlayog_tally tally;
    const size_t length = draw_packet();
    rudlayog_memory_record(&memory, now, packet, length, &tally, &answer);
    digest_number(tally.kept);
    digest_number(tally.lost);
    digest_number(tally.refused);
}

static void make_offer(void) {
    struct rudlayog_fate fate;
    uint8_t id[8] = {0};
    const size_t length = draw_packet(), id_length = draw_id(id);
    rudlayog_memory_offer(&memory, id, id_length, now, packet, length, &fate, &answer);
    digest_number(fate.kind);
    digest_number(fate.time);
}

static struct rudlayog_instruction draw_instruction(void) {
    struct rudlayog_instruction drawn_one = {.id = {0}};
    (void)draw_id(drawn_one.id);
    drawn_one.from = now > 200 ? now - below(200) : 0;
    drawn_one.to = drawn_one.from + below(200);
    drawn_one.size = below(20) == 0 ? 1000001 : (uint32_t)below(40);
    drawn_one.apid = (uint16_t)(1 + below(3));
    drawn_one.service = 3;
    drawn_one.subtype = (uint8_t)(25 + below(2));
    drawn_one.type = (uint8_t)below(below(20) == 0 ? 256 : 2);
    drawn_one.channel = (uint8_t)below(below(20) == 0 ? 256 : 8);
    return drawn_one;
}

static struct rudlayog_request draw_request(void) {
    struct rudlayog_request drawn_one;
    drawn_one.apid = (uint16_t)below(2048);
    drawn_one.count = (uint16_t)below(16384);
    drawn_one.source = (uint16_t)below(9);
    drawn_one.acknowledgement = (uint8_t)below(16);
    drawn_one.subtype = (uint8_t)below(30);
    return drawn_one;
}

/* A request of any subtype, with up to five instructions; now and then its octets are changed or cut. */
static void make_apply(void) {
    struct rudlayog_instruction instructions[5];
    const struct rudlayog_request request = draw_request();
    const int has_none = request.subtype == RUDLAYOG_REPORT_STATUS || request.subtype == RUDLAYOG_REPORT_CONFIGURATION;
    const size_t count = has_none ? 0 : 1 + (size_t)below(5);
    for (size_t k = 0; k < count; k++) {
        instructions[k] = draw_instruction();
    }
    rudlayog_request_write(&request, instructions, count, packet, sizeof packet, &answer);
    digest_answer();
    if (answer.status == RUDLAYOG_WRITTEN) {
        const size_t length = answer.length - (below(60) == 0);
        digest_octets(packet, answer.length);
        if (below(60) == 0) {
            const size_t at = (size_t)below(length);
            packet[at] = (uint8_t)below(256);
        }
        rudlayog_memory_apply(&memory, now, packet, length, out, sizeof out, &answer);
        for (size_t k = 0; answer.status == RUDLAYOG_WRITTEN && k < answer.length; k++) {
            sum.done += out[k] == RUDLAYOG_DONE;
            digest_octet(out[k]);
        }
    }
}

static void make_next(void) {
    uint64_t time;
    uint8_t id[8] = {0};
    const size_t id_length = draw_id(id);
    rudlayog_memory_next(&memory, id, id_length, out, below(90) == 0 ? 1023 : sizeof out, &time, &answer);
    digest_number(time);
    if (answer.status == RUDLAYOG_WRITTEN) {
        digest_octets(out, answer.length);
        sum.packets++;
    }
}

static void make_report(void) {
    static struct rudlayog_entry entries[16];
    struct rudlayog_report report;
    rudlayog_memory_report(&memory, out, below(20) == 0 ? 30 : sizeof out, &answer);
    if (answer.status == RUDLAYOG_WRITTEN) {
        digest_octets(out, answer.length);
        sum.reports++;
        rudlayog_report_read(out, answer.length, &report, entries, 16, &answer);
        for (size_t k = 0; answer.status == RUDLAYOG_WRITTEN && k < answer.length; k++) {
            digest_octets(entries[k].id, 8);
            digest_number(entries[k].oldest);
            digest_number(entries[k].newest);
            digest_number(entries[k].held);
            digest_number(entries[k].size);
            digest_number(entries[k].apid);
        }
    }
}

static void make_state(void) {
    struct rudlayog_state state;
    struct rudlayog_store store;
    uint8_t id[8] = {0};
    const size_t id_length = draw_id(id);
    rudlayog_memory_store(&memory, below(RUDLAYOG_STORES + 1), &store, &answer);
    digest_octets(store.id, 8);
    digest_number(store.id_length);
    digest_number(store.channel);
    digest_number(store.state.kind);
    digest_number(store.state.held);
    rudlayog_memory_state(&memory, id, id_length, &state, &answer);
    digest_number(state.kind);
    digest_number(state.size);
    digest_number(state.held);
    digest_number(state.storage);
    digest_number(state.retrieval);
    digest_number(state.offered);
    digest_number(state.lost);
    digest_number(state.deleted);
    digest_number(state.oldest);
    digest_number(state.newest);
    digest_number(state.from);
    digest_number(state.to);
    digest_number(state.after);
}

static void make_waiting(void) {
    uint64_t reports;
    rudlayog_memory_waiting(&memory, &reports, &answer);
    digest_number(reports);
    if (below(4) == 0) {
        digest_answer();
        rudlayog_memory_bound(&memory, below(60), &answer);
    }
}

static void make_open(void) {
    if (below(2) == 0) {
        rudlayog_memory_close(&memory);
    }
    rudlayog_memory_open(&memory, (const uint8_t *)setup, sizeof setup - 1 - (below(9) == 0), &answer);
}

static const struct summary *make_calls(uint64_t count, uint64_t seed) {
    static void (*const calls[])(void) = {
        make_record, make_record, make_record, make_record, make_record, make_record, make_offer,
        make_offer,  make_apply,  make_apply,  make_apply,  make_apply,  make_next,   make_next,
        make_next,   make_next,   make_report, make_report, make_state,  make_waiting,
    };
    sum.digest = 14695981039346656037u;
    drawn = seed;
    for (uint64_t k = 0; k < count; k++) {
        now += below(3);
        if (k == 0 || below(5000) == 0) {
            make_open();
        } else {
            calls[below(sizeof calls / sizeof calls[0])]();
        }
        digest_answer();
    }
    rudlayog_memory_close(&memory);
    return &sum;
}

static void write_summary(const struct summary *of, void (*write)(const char *name, uint64_t value)) {
    static const char *const names[STATUSES] = {"written", "too small", "refused", "closed", "open", "end"};
    for (int k = 0; k < STATUSES; k++) {
        write(names[k], of->ends[k]);
    }
    write("instructions carried out", of->done);
    write("packets", of->packets);
    write("reports", of->reports);
    write("digest", of->digest);
}

#ifdef CALLS
#include "../bare/machine.h"

static void write_line(const char *name, uint64_t value) {
    char digits[20];
    int count = 0;
    while (*name != 0) {
        machine_write(*name++);
    }
    do {
        digits[count++] = (char)('0' + value % 10);
        value /= 10;
    } while (value != 0);
    for (machine_write(' '); count > 0;) {
        machine_write(digits[--count]);
    }
    machine_write('\n');
}

int main(void) {
    write_summary(make_calls(CALLS, 1), write_line);
    return 0;
}
#else
#include <stdio.h>
#include <stdlib.h>

static void write_line(const char *name, uint64_t value) { printf("%s %llu\n", name, (unsigned long long)value); }

int main(int count, char **words) {
    const uint64_t many = count > 1 ? strtoull(words[1], NULL, 10) : 200000;
    const uint64_t seed = count > 2 ? strtoull(words[2], NULL, 10) : 1;
    write_summary(make_calls(many, seed), write_line);
    return sum.ends[RUDLAYOG_WRITTEN] == 0 || sum.packets == 0 || sum.reports == 0;
}
#endif
