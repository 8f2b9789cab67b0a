/* The machine `mps2-an386` of qemu-system-arm, with a Cortex-M4: how it starts, and what it writes, by semihosting. */
#include "machine.h"
#include <stdint.h>

#define ACCESS_OF_COPROCESSORS (*(volatile uint32_t *)0xE000ED88)

enum { WRITE_OCTET = 3, EXIT = 0x18, WELL = 0x20026, FAULT = 0x20023 };

extern uint32_t data_start[], data_end[], data_load[], bss_start[], bss_end[], stack_top[];

int main(void);
void abort(void);
void reset(void);

static void ask(uint32_t what, const void *with) {
    register uint32_t r0 __asm__("r0") = what;
    register const void *r1 __asm__("r1") = with;
    __asm__ volatile("bkpt 0xab" : "+r"(r0) : "r"(r1) : "memory");
}

void machine_write(char octet) { ask(WRITE_OCTET, &octet); }

void abort(void) {
    ask(EXIT, (const void *)FAULT);
    for (;;) {
    }
}

void reset(void) {
    const uint32_t *from = data_load;
    for (uint32_t *to = data_start; to < data_end;) {
        *to++ = *from++;
    }
    for (uint32_t *to = bss_start; to < bss_end;) {
        *to++ = 0;
    }
    ACCESS_OF_COPROCESSORS |= 0xF << 20; /* floating point */
    ask(EXIT, (const void *)(main() == 0 ? WELL : FAULT));
    for (;;) {
    }
}

__attribute__((section(".vectors"), used)) static void *const vectors[] = {stack_top, (void *)reset, (void *)abort,
                                                                           (void *)abort, (void *)abort, (void *)abort};
