/* A memory in flight: packets are recorded by the routes of a setup, ground asks for a retrieval and a report by telecommand, and the
 * packets of both are given one by one. Telecommands are made of their fields, and the report is read into its fields. */
#include <rudlayog.h>
#include <stdio.h>
#include <string.h>

#define TEXT(text) (const uint8_t *)(text), strlen(text)

static const char setup[] = "[[store]]\nid = \"SCI\"\nsize = 4\ntype = \"bounded\"\nchannel = 0\n"
                            "[[store]]\nid = \"HK\"\nsize = 2\ntype = \"circular\"\nchannel = 1\n"
                            "[[route]]\napid = 1\nservice = 3\nsubtype = 25\nstore = \"HK\"\n";

/* Telemetry of APID 1, service 3, subtype 25: housekeeping, with the sequence count in its fourth octet and no data. */
static uint8_t housekeeping[] = {0x08, 1, 0xC0, 0, 0, 14, 0x20, 3, 25, 0, 0, 0, 0, 0, 0, 0, 0, 0, 0, 0, 0};

/* All times of HK up to 255. A summary reads the identifier alone. */
static const struct rudlayog_instruction of_hk = {.id = "HK", .from = 0, .to = 255};

static int complain(const char *what, const struct rudlayog_answer *answer) {
    uint8_t words[1024];
    struct rudlayog_answer told;
    if (answer->status != RUDLAYOG_REFUSED) {
        fprintf(stderr, "%s: status %u\n", what, answer->status);
        return 1;
    }
    rudlayog_words(&answer->refused, words, sizeof words, &told);
    fprintf(stderr, "%s: %.*s\n", what, told.status == RUDLAYOG_WRITTEN ? (int)told.length : 0, (const char *)words);
    return 1;
}

static int record(struct rudlayog_memory *memory, uint64_t now) {
    struct rudlayog_tally tally;
    struct rudlayog_answer answer;
    housekeeping[3] = (uint8_t)now;
    rudlayog_memory_record(memory, now, housekeeping, sizeof housekeeping, &tally, &answer);
    if (answer.status != RUDLAYOG_WRITTEN) {
        return complain("record", &answer);
    }
    printf("%u kept, %u lost, %u refused\n", tally.kept, tally.lost, tally.refused);
    return 0;
}

/* Makes the telecommand of a request with one instruction, and applies it. */
static int apply(struct rudlayog_memory *memory, uint64_t now, uint8_t subtype, const struct rudlayog_instruction *instruction) {
    const struct rudlayog_request request = {.apid = 100, .source = 7, .subtype = subtype};
    uint8_t packet[RUDLAYOG_REQUEST_ROOM], each[RUDLAYOG_INSTRUCTIONS];
    struct rudlayog_answer answer;
    rudlayog_request_write(&request, instruction, 1, packet, sizeof packet, &answer);
    if (answer.status != RUDLAYOG_WRITTEN) {
        return complain("request", &answer);
    }
    rudlayog_memory_apply(memory, now, packet, answer.length, each, sizeof each, &answer);
    if (answer.status != RUDLAYOG_WRITTEN || answer.length != 1 || each[0] != RUDLAYOG_DONE) {
        return complain("apply", &answer);
    }
    return 0;
}

/* Reads a report, and prints its entries: the stores with what they hold. */
static int show(const uint8_t *packet, size_t length) {
    struct rudlayog_report report;
    struct rudlayog_entry entries[4];
    struct rudlayog_answer answer;
    rudlayog_report_read(packet, length, &report, entries, sizeof entries / sizeof entries[0], &answer);
    if (answer.status != RUDLAYOG_WRITTEN) {
        return complain("report", &answer);
    }
    printf("TM[15,%u] of the moment %llu\n", report.subtype, (unsigned long long)report.moment);
    for (size_t k = 0; k < answer.length; k++) {
        printf("%.8s holds %u packets, of the times %llu to %llu\n", (const char *)entries[k].id, entries[k].held,
               (unsigned long long)entries[k].oldest, (unsigned long long)entries[k].newest);
    }
    return 0;
}

static int fly(struct rudlayog_memory *memory) {
    uint8_t out[RUDLAYOG_BLOCK];
    uint64_t time;
    struct rudlayog_answer answer;
    struct rudlayog_fate fate;

    for (uint64_t now = 1; now <= 3; now++) {
        if (record(memory, now)) {
            return 1;
        }
    }
    rudlayog_memory_offer(memory, TEXT("SCI"), 4, housekeeping, sizeof housekeeping, &fate, &answer);
    if (answer.status != RUDLAYOG_WRITTEN || fate.kind != RUDLAYOG_KEPT) {
        return complain("offer", &answer);
    }
    if (apply(memory, 5, RUDLAYOG_SUMMARISE_CONTENT, &of_hk) || apply(memory, 6, RUDLAYOG_START_RETRIEVAL, &of_hk)) {
        return 1;
    }
    rudlayog_memory_report(memory, out, 10, &answer);
    printf("a report of %zu octets waits\n", answer.length);
    for (rudlayog_memory_report(memory, out, sizeof out, &answer); answer.status == RUDLAYOG_WRITTEN;
         rudlayog_memory_report(memory, out, sizeof out, &answer)) {
        if (show(out, answer.length)) {
            return 1;
        }
    }
    if (answer.status != RUDLAYOG_END) {
        return complain("report", &answer);
    }
    for (rudlayog_memory_next(memory, TEXT("HK"), out, sizeof out, &time, &answer); answer.status == RUDLAYOG_WRITTEN;
         rudlayog_memory_next(memory, TEXT("HK"), out, sizeof out, &time, &answer)) {
        printf("the packet of time %llu, sequence count %u\n", (unsigned long long)time, out[3]);
    }
    return answer.status == RUDLAYOG_END ? 0 : complain("next", &answer);
}

int main(void) {
    struct rudlayog_memory memory = RUDLAYOG_MEMORY_CLOSED;
    struct rudlayog_answer answer;
    int status;
    rudlayog_memory_open(&memory, TEXT(setup), &answer);
    if (answer.status != RUDLAYOG_WRITTEN) {
        return complain("open", &answer);
    }
    status = fly(&memory);
    rudlayog_memory_close(&memory);
    rudlayog_memory_close(&memory);
    return status;
}
