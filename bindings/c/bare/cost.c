/* What calls on a memory take on `cortexm4` and `leon3`, in stack and instructions, over `portable/rudlayog_memory.c`:
 * each call once on a stack that is filled first, and then some times beside a timer. Under `-icount shift=0` each
 * instruction of QEMU takes a nanosecond, of which a tick of the timer is 40 on the one machine and 100 on the other.
 * On PowerPC, with `hosted.c`, no timer counts instructions: they are those that qemu-ppc logs between two calls of
 * `ticks`. */
#include "machine.h"
#include <rudlayog.h>

#define FILL 0xA5A5A5A5u

static const char setup[] = "[[store]]\nid = \"HK\"\nsize = 100\ntype = \"circular\"\nchannel = 1\n"
                            "[[route]]\napid = 100\nservice = 3\nsubtype = 25\nstore = \"HK\"\n";
static struct rudlayog_memory memory = RUDLAYOG_MEMORY_CLOSED;
static struct rudlayog_answer answer;
static uint8_t packet[200] = {0x08, 100, 0xC0, 0, 0, 193, 0x20, 3, 25};
static uint8_t out[RUDLAYOG_PACKET], each[255], request[RUDLAYOG_REQUEST_ROOM];
static size_t request_length;
static uint64_t now = 1, time;

#ifdef __arm__
enum { NANOSECONDS = 40 };
#define SYSTICK ((volatile uint32_t *)0xE000E010)
#define STACK_END(at) __asm__ volatile("mov %0, sp" : "=r"(at))
static void start_timer(void) { SYSTICK[1] = 0xFFFFFF, SYSTICK[2] = 0, SYSTICK[0] = 5; }
static uint32_t ticks(void) { return 0xFFFFFF - SYSTICK[2]; }
#elif defined(__powerpc__)
enum { NANOSECONDS = 0 };
#define STACK_END(at) __asm__ volatile("mr %0, 1" : "=r"(at))
static void start_timer(void) {}
static __attribute__((noinline)) uint32_t ticks(void) {
    __asm__ volatile("");
    return 0;
}
#else
enum { NANOSECONDS = 100 };
#define TIMER ((volatile uint32_t *)0x80000300)
#define STACK_END(at) __asm__ volatile("mov %%sp, %0" : "=r"(at))
static void start_timer(void) {
    TIMER[0] = 3, TIMER[1] = 3;
    TIMER[5] = 0xFFFFFFFF, TIMER[4] = 0xFFFFFFFF, TIMER[6] = 7;
}
static uint32_t ticks(void) { return 0xFFFFFFFF - TIMER[4]; }
#endif

static void say(const char *name, uint64_t value) {
    char digits[20];
    int count = 0;
    while (*name != 0) {
        machine_write(*name++);
    }
    do {
        digits[count++] = (char)('0' + value % 10);
        value /= 10;
    } while (value != 0);
    while (count > 0) {
        machine_write(digits[--count]);
    }
}

static __attribute__((noinline)) void measure(const char *name, void (*call)(void), uint32_t times) {
    enum { WORDS = 8192 };
    uint32_t *end, *at, begun;
    STACK_END(end);
    end -= 8;
    for (at = end - WORDS; at < end; at++) {
        *at = FILL;
    }
    call();
    for (at = end - WORDS; at < end && *at == FILL;) {
        at++;
    }
    begun = ticks();
    for (uint32_t k = 0; k < times; k++) {
        call();
    }
    begun = ticks() - begun;
    say(name, (uint64_t)begun * NANOSECONDS / times);
    say(" instructions, stack ", (uint64_t)(end - at) * sizeof *at);
    say(", status ", answer.status);
    machine_write('\n');
}

static void nothing(void) {}

static void open_memory(void) {
    rudlayog_memory_close(&memory);
    rudlayog_memory_open(&memory, (const uint8_t *)setup, sizeof setup - 1, &answer);
}

static void record(void) {
    struct rudlayog_tally tally;
    rudlayog_memory_record(&memory, now++, packet, sizeof packet, &tally, &answer);
}

static void state(void) {
    struct rudlayog_state of;
    rudlayog_memory_state(&memory, (const uint8_t *)"HK", 2, &of, &answer);
}

static void next(void) { rudlayog_memory_next(&memory, (const uint8_t *)"HK", 2, out, sizeof out, &time, &answer); }

static void apply(void) { rudlayog_memory_apply(&memory, now, request, request_length, each, sizeof each, &answer); }

int main(void) {
    const struct rudlayog_request ask = {.subtype = RUDLAYOG_START_RETRIEVAL};
    const struct rudlayog_instruction all = {.id = "HK", .from = 0, .to = UINT64_MAX};
    start_timer();
    measure("nothing ", nothing, 1000);
    measure("open ", open_memory, 3);
    measure("record of 200 octets ", record, 100);
    measure("state ", state, 100);
    rudlayog_request_write(&ask, &all, 1, request, sizeof request, &answer);
    request_length = answer.length;
    apply();
    measure("next ", next, 90);
    measure("start retrieval ", apply, 10);
    return 0;
}
