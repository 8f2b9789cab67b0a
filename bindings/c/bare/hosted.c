/* The same for a program of an operating system: its timer comes where the program waits, and each third time that
 * interrupts are unmasked. */
#include "machine.h"
#include <stdio.h>

static void (*on_timer)(void);

void machine_write(char octet) { putchar(octet); }

void machine_start_timer(void (*handler)(void)) { on_timer = handler; }

void machine_mask(void) {}

void machine_unmask(void) {
    static unsigned times;
    if (on_timer != NULL && ++times % 3 == 0) {
        on_timer();
    }
}

void machine_wait(void) { on_timer(); }
