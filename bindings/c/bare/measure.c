/* How many instructions and how much stack a call takes, on a machine without an operating system: what it leaves of
 * a stack that is filled first. */
#include "machine.h"
#include <stdint.h>

#define FILL 0xA5A5A5A5A5A5A5A5u

/* The stack, from its end on: it grows towards it. aarch64.ld and riscv64.ld place it. */
extern uint64_t stack[];

/* Where the stack ends now. */
#ifdef __riscv
#define END(at) __asm__ volatile("mv %0, sp" : "=r"(at))
#else
#define END(at) __asm__ volatile("mov %0, sp" : "=r"(at))
#endif

static void nothing(void) {}

static __attribute__((noinline)) uint64_t taken(void (*call)(void), uint64_t *instructions) {
    uint64_t *end, *at = stack;
    uint64_t before;
    END(end);
    while (at < end) {
        *at++ = FILL;
    }
    before = machine_instructions();
    call();
    *instructions = machine_instructions() - before;
    for (at = stack; at < end && *at == FILL;) {
        at++;
    }
    return (uint64_t)(end - at) * sizeof *at;
}

void machine_measure(void (*call)(void), const char *name, uint64_t *instructions, uint64_t *stack_taken) {
    uint64_t rest;
    (void)name;
    (void)taken(nothing, &rest);
    *stack_taken = taken(call, instructions);
    *instructions -= rest;
}
