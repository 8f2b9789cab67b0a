/* The same for a program of an operating system, whose instructions callgrind counts: each call leaves a file that
 * has its name, and the stack is one of its own. */
#define _GNU_SOURCE
#include "machine.h"
#include <string.h>
#include <ucontext.h>
#include <valgrind/callgrind.h>

enum { STACK = 262144 };

static uint8_t stack[STACK];
static void (*measured)(void);

static void nothing(void) {}

static void counted(void) {
    CALLGRIND_TOGGLE_COLLECT;
    measured();
    CALLGRIND_TOGGLE_COLLECT;
}

static uint64_t taken(void (*call)(void)) {
    static ucontext_t inner, outer;
    uint64_t free = 0;
    memset(stack, 0xA5, STACK);
    measured = call;
    getcontext(&inner);
    inner.uc_stack.ss_sp = stack;
    inner.uc_stack.ss_size = STACK;
    inner.uc_link = &outer;
    makecontext(&inner, counted, 0);
    swapcontext(&outer, &inner);
    while (free < STACK && stack[free] == 0xA5) {
        free++;
    }
    return STACK - free;
}

void machine_measure(void (*call)(void), const char *name, uint64_t *instructions, uint64_t *stack_taken) {
    const uint64_t rest = taken(nothing);
    CALLGRIND_START_INSTRUMENTATION;
    CALLGRIND_ZERO_STATS;
    *stack_taken = taken(call) - rest;
    CALLGRIND_DUMP_STATS_AT(name);
    CALLGRIND_STOP_INSTRUMENTATION;
    *instructions = 0;
}
