/* Tells a fault: what the processor says of it, where the code is, and the address. Called by aarch64.S and riscv64.S,
 * which then end the machine. */
#include "machine.h"

static void write_text(const char *text) {
    while (*text != 0) {
        machine_write(*text++);
    }
}

static void write_hexadecimal(const char *name, uint64_t number) {
    write_text(name);
    for (int shift = 60; shift >= 0; shift -= 4) {
        machine_write("0123456789abcdef"[number >> shift & 15]);
    }
}

void machine_fault(uint64_t cause, uint64_t at, uint64_t address);
void machine_fault(uint64_t cause, uint64_t at, uint64_t address) {
    write_hexadecimal("fault: cause ", cause);
    write_hexadecimal(", code at ", at);
    write_hexadecimal(", address ", address);
    write_text("\n");
}
