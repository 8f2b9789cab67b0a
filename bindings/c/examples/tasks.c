/* A recorder task and a dump task of a flight program, over one memory: `tasks [PACKETS]`, 1,000,000 packets if omitted. An instrument puts
 * packets into a ring; the recorder task takes them out and records them; the dump task waits until something was recorded, asks for a
 * retrieval of all that is stored, sends the packets, and deletes what was sent. No two calls on the handle are made at once: the recorder
 * holds the lock for one call at a time, the dump task for up to 64 packets. A task that has nothing to do waits; none spins.
 *
 * The store is bounded: what does not fit is lost, and what was sent stays until it is deleted. So each packet is sent once, in order, or
 * it is lost. */
#include <pthread.h>
#include <rudlayog.h>
#include <semaphore.h>
#include <stdatomic.h>
#include <stdio.h>
#include <stdlib.h>
#include <string.h>
#include <time.h>

enum { SLOTS = 1024, LENGTH = 25, COUNT_AT = 21, BATCH = 64 };

#define TEXT(text) (const uint8_t *)(text), strlen(text)

static const char setup[] = "[[store]]\nid = \"SCI\"\nsize = 65536\ntype = \"bounded\"\nchannel = 0\n"
                            "[[route]]\napid = 1\nservice = 3\nsubtype = 25\nstore = \"SCI\"\n";

/* TC[15,9] starts a retrieval of all times, TC[15,11] deletes up to a time. Each names the store, and ends with 16 or 8 octets of time. */
static const uint8_t retrieve[] = {0x18, 100, 0xC0, 0, 0, 29, 0x20, 15, 9, 0, 7, 1, 'S', 'C', 'I', ' ', ' ', ' ', ' ', ' '};
static const uint8_t delete_up_to[] = {0x18, 100, 0xC0, 0, 0, 21, 0x20, 15, 11, 0, 7, 1, 'S', 'C', 'I', ' ', ' ', ' ', ' ', ' '};

/* The ring between the instrument, which puts, and the recorder task, which takes: how many slots are free, and how many hold a packet. */
static uint8_t ring[SLOTS][LENGTH];
static sem_t unused, filled;

/* The lock is that of the memory, and of how many packets were recorded; the dump task waits for more of them. */
static struct rudlayog_memory memory = RUDLAYOG_MEMORY_CLOSED;
static pthread_mutex_t lock = PTHREAD_MUTEX_INITIALIZER;
static pthread_cond_t more = PTHREAD_COND_INITIALIZER;
static size_t packets = 1000000, recorded, lost, sent;
static atomic_int failed;

static void fail(const char *what, const struct rudlayog_answer *answer) {
    uint8_t words[RUDLAYOG_WORDS_ROOM];
    struct rudlayog_answer told;
    rudlayog_words(&answer->refused, words, sizeof words, &told);
    fprintf(stderr, "%s: status %u, %.*s\n", what, answer->status, (int)told.length, (const char *)words);
    failed = 1;
}

/* Waits until there is one, and takes it; a signal does not end the wait. */
static void wait_for(sem_t *one) {
    while (sem_wait(one) != 0) {
    }
}

/* The instrument: telemetry of APID 1, service 3, subtype 25, with its number as data. */
static void *measure(void *none) {
    for (size_t k = 0; k < packets; k++) {
        uint8_t packet[LENGTH] = {0x08, 1, 0xC0, 0, 0, LENGTH - 7, 0x20, 3, 25};
        for (size_t octet = 0; octet < 4; octet++) {
            packet[COUNT_AT + octet] = (uint8_t)(k >> (24 - 8 * octet));
        }
        wait_for(&unused);
        memcpy(ring[k % SLOTS], packet, LENGTH);
        sem_post(&filled);
    }
    return none;
}

static void *record(void *none) {
    for (size_t k = 0; k < packets; k++) {
        struct rudlayog_tally tally;
        struct rudlayog_answer answer;
        wait_for(&filled);
        pthread_mutex_lock(&lock);
        rudlayog_memory_record(&memory, k, ring[k % SLOTS], LENGTH, &tally, &answer);
        recorded = k + 1;
        pthread_cond_signal(&more);
        pthread_mutex_unlock(&lock);
        sem_post(&unused);
        if (answer.status != RUDLAYOG_WRITTEN || tally.refused != 0) {
            fail("record", &answer);
        }
        lost += tally.lost;
    }
    return none;
}

/* Waits until more packets were recorded than these, and gives how many. */
static size_t recorded_beyond(size_t count) {
    size_t now;
    pthread_mutex_lock(&lock);
    while (recorded == count) {
        pthread_cond_wait(&more, &lock);
    }
    now = recorded;
    pthread_mutex_unlock(&lock);
    return now;
}

/* Applies a telecommand whose times, from the octet 20 on, are 0 but for the last. */
static void apply(const uint8_t *head, size_t length, uint64_t last) {
    uint8_t request[36] = {0}, each[RUDLAYOG_INSTRUCTIONS];
    struct rudlayog_answer answer;
    memcpy(request, head, 20);
    for (size_t octet = 0; octet < 8; octet++) {
        request[length - 1 - octet] = (uint8_t)(last >> (8 * octet));
    }
    pthread_mutex_lock(&lock);
    rudlayog_memory_apply(&memory, 0, request, length, each, sizeof each, &answer);
    pthread_mutex_unlock(&lock);
    if (answer.status != RUDLAYOG_WRITTEN || each[0] != RUDLAYOG_DONE) {
        fail("apply", &answer);
    }
}

/* Sends a packet: here it is looked at, whether the numbers rise. */
static void send_packet(const uint8_t *packet, const struct rudlayog_answer *answer) {
    static int64_t number_before = -1;
    int64_t number = 0;
    for (size_t octet = 0; octet < 4; octet++) {
        number = number << 8 | packet[COUNT_AT + octet];
    }
    if (answer->length != LENGTH || number <= number_before) {
        fail("another packet", answer);
    }
    number_before = number;
    sent++;
}

/* Sends all that a retrieval gives. Gives the time of the last packet, or 0. */
static uint64_t send_all(void) {
    uint64_t last = 0, time;
    uint8_t out[RUDLAYOG_BLOCK];
    struct rudlayog_answer answer;
    do {
        pthread_mutex_lock(&lock);
        for (int k = 0; k < BATCH; k++) {
            rudlayog_memory_next(&memory, TEXT("SCI"), out, sizeof out, &time, &answer);
            if (answer.status != RUDLAYOG_WRITTEN) {
                break;
            }
            last = time;
            send_packet(out, &answer);
        }
        pthread_mutex_unlock(&lock);
    } while (answer.status == RUDLAYOG_WRITTEN);
    if (answer.status != RUDLAYOG_END) {
        fail("next", &answer);
    }
    return last;
}

static void *dump(void *none) {
    size_t seen = 0;
    while (seen < packets && !failed) {
        seen = recorded_beyond(seen);
        apply(retrieve, 36, UINT64_MAX);
        apply(delete_up_to, 28, send_all());
    }
    return none;
}

int main(int count, char **words) {
    void *(*const tasks[])(void *) = {measure, record, dump};
    pthread_t threads[3];
    struct rudlayog_answer answer;
    struct timespec begin, end;
    if (count > 1) {
        packets = strtoul(words[1], NULL, 10);
    }
    rudlayog_memory_open(&memory, TEXT(setup), &answer);
    if (answer.status != RUDLAYOG_WRITTEN) {
        fail("open", &answer);
        return 1;
    }
    sem_init(&unused, 0, SLOTS);
    sem_init(&filled, 0, 0);
    clock_gettime(CLOCK_MONOTONIC, &begin);
    for (size_t k = 0; k < 3; k++) {
        if (pthread_create(&threads[k], NULL, tasks[k], NULL) != 0) {
            fprintf(stderr, "no thread\n");
            exit(1);
        }
    }
    for (size_t k = 0; k < 3; k++) {
        pthread_join(threads[k], NULL);
    }
    clock_gettime(CLOCK_MONOTONIC, &end);
    rudlayog_memory_close(&memory);
    printf("%zu packets: %zu sent, %zu lost\n", packets, sent, lost);
    fprintf(stderr, "%.2f s\n", (double)(end.tv_sec - begin.tv_sec) + (double)(end.tv_nsec - begin.tv_nsec) / 1e9);
    return failed || sent + lost != packets;
}
