/* Makes one fault, for tests/on_targets: -DFAULT says which. Each is told, and ends the machine with status 2; with 6
 * main ends the machine with status 1, and with 0 nothing is wrong. Before it the timer's handler is called. */
#include "machine.h"

enum { NONE, NO_INSTRUCTION, STACK_END, CODE_WRITTEN, DATA_RUN, DEVICE_RUN, OTHER_STATUS, NO_MEMORY_THERE };

#ifdef __riscv
#define DEVICE 0x10000000u
#define NOWHERE 0xC0000000u
#else
#define DEVICE 0x09000000u
#define NOWHERE 0xC0000000u
#endif

static volatile uint32_t ticks, nothing[4];

static void on_timer(void) { ticks++; }

/* Takes 1,024 octets of stack again and again. */
static uint32_t deeper(uint32_t times) {
    volatile uint8_t room[1024];
    room[0] = (uint8_t)times;
    return times == 0 ? 0 : deeper(times - 1) + room[0];
}

static void run(uintptr_t address) { ((void (*)(void))address)(); }

int main(void) {
    machine_start_timer(on_timer);
    while (ticks < 3) {
    }
    switch (FAULT) {
    case NO_INSTRUCTION:
        __asm__ volatile(".word 0");
        break;
    case STACK_END:
        return (int)deeper(1000);
    case CODE_WRITTEN:
        *(volatile uint32_t *)(uintptr_t)main = 0;
        break;
    case DATA_RUN:
        run((uintptr_t)nothing);
        break;
    case DEVICE_RUN:
        run(DEVICE);
        break;
    case OTHER_STATUS:
        return 7;
    case NO_MEMORY_THERE:
        *(volatile uint32_t *)(uintptr_t)NOWHERE = 0;
        break;
    default:
        break;
    }
    return 0;
}
