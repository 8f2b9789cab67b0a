/* The machine `virt` of qemu-system-riscv64: a serial port of kind 16550, and the timer of the first processor. */
#include "machine.h"
#include <stdint.h>

#define SERIAL ((volatile uint8_t *)0x10000000)
#define NEXT (*(volatile uint64_t *)0x2004000)
#define NOW (*(volatile uint64_t *)0x200BFF8)

enum { STATUS = 5, IS_EMPTY = 0x20, INTERVAL = 1000 };

static void (*on_timer)(void);

void machine_write(char octet) {
    while ((SERIAL[STATUS] & IS_EMPTY) == 0) {
    }
    SERIAL[0] = (uint8_t)octet;
}

/* Called by riscv64.S. */
void machine_interrupt(void);
void machine_interrupt(void) {
    NEXT = NOW + INTERVAL;
    on_timer();
}

void machine_start_timer(void (*handler)(void)) {
    on_timer = handler;
    NEXT = NOW + INTERVAL;
    __asm__ volatile("csrs mie, %0" : : "r"(1 << 7));
    machine_unmask();
}

void machine_mask(void) { __asm__ volatile("csrci mstatus, 8" : : : "memory"); }

void machine_unmask(void) { __asm__ volatile("csrsi mstatus, 8" : : : "memory"); }

void machine_wait(void) {
    __asm__ volatile("wfi");
    machine_unmask();
    machine_mask();
}

uint64_t machine_instructions(void) {
    uint64_t count;
    __asm__ volatile("csrr %0, minstret" : "=r"(count));
    return count;
}
