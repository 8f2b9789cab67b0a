/* The machine `virt` of qemu-system-aarch64 with a Cortex-A53: a serial port of kind PL011, an interrupt controller
 * of kind GICv2, and the processor's own timer. */
#include "machine.h"
#include <stdint.h>

#define WORD(at) (*(volatile uint32_t *)(at))
#define SERIAL 0x09000000u
#define DISTRIBUTOR 0x08000000u
#define INTERFACE 0x08010000u

enum { FLAGS = 0x18, IS_FULL = 0x20, TIMER = 30, NONE = 1023, INTERVAL = 6250 };

static void (*on_timer)(void);

void machine_write(char octet) {
    while ((WORD(SERIAL + FLAGS) & IS_FULL) != 0) {
    }
    WORD(SERIAL) = (uint8_t)octet;
}

/* The timer's interrupt is over before what comes next. */
static void set_timer(void) { __asm__ volatile("msr cntp_tval_el0, %0\n isb" : : "r"((uint64_t)INTERVAL) : "memory"); }

/* Called by aarch64.S. */
void machine_interrupt(void);
void machine_interrupt(void) {
    const uint32_t taken = WORD(INTERFACE + 0xC), number = taken & 1023;
    if (number == NONE) {
        return;
    }
    if (number == TIMER) {
        set_timer();
        on_timer();
    }
    WORD(INTERFACE + 0x10) = taken;
}

void machine_start_timer(void (*handler)(void)) {
    on_timer = handler;
    WORD(DISTRIBUTOR) = 1;
    WORD(DISTRIBUTOR + 0x100) = 1u << TIMER;
    WORD(INTERFACE + 4) = 0xFF;
    WORD(INTERFACE) = 1;
    set_timer();
    __asm__ volatile("msr cntp_ctl_el0, %0" : : "r"((uint64_t)1));
    machine_unmask();
}

void machine_mask(void) { __asm__ volatile("msr daifset, #2" : : : "memory"); }

void machine_unmask(void) { __asm__ volatile("msr daifclr, #2" : : : "memory"); }

void machine_wait(void) {
    __asm__ volatile("wfi");
    machine_unmask();
    __asm__ volatile("isb");
    machine_mask();
}

/* The first counter of events counts instructions, event 8, in 32 bits. */
uint64_t machine_instructions(void) {
    static uint64_t count, is_counting;
    uint64_t seen;
    if (!is_counting) {
        is_counting = 1;
        __asm__ volatile("msr pmevtyper0_el0, %0" : : "r"((uint64_t)8));
        __asm__ volatile("msr pmcntenset_el0, %0\n msr pmcr_el0, %0\n isb" : : "r"((uint64_t)1));
    }
    __asm__ volatile("isb\n mrs %0, pmevcntr0_el0" : "=r"(seen));
    count += (uint32_t)(seen - count);
    return count;
}
