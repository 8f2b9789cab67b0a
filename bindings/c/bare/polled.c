/* The timer of a machine whose interrupts are not used: it comes where the program waits, and each third time that
 * interrupts are unmasked. And the heap of the memory as C (portable/README.md): no block of a pool is in use. */
#include "machine.h"
#include <rudlayog_heap.h>
#include <stddef.h>

static void (*on_timer)(void);

void machine_start_timer(void (*handler)(void)) { on_timer = handler; }

void machine_mask(void) {}

void machine_unmask(void) {
    static unsigned times;
    if (on_timer != NULL && ++times % 3 == 0) {
        on_timer();
    }
}

void machine_wait(void) { on_timer(); }

struct rudlayog_pool_use rudlayog_pool_use(void) {
    const struct rudlayog_pool_use none = {0, 0, 0, 0, 0};
    return none;
}
