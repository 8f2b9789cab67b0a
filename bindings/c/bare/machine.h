/* What the programs of this folder ask of a machine. Each of aarch64.c, riscv64.c and hosted.c has it. */
#ifndef MACHINE_H
#define MACHINE_H

#include <stdint.h>

/* Writes an octet to the serial port. */
void machine_write(char octet);

/* Has the timer call this function from now on, again and again, wherever the program is: as a handler of an
 * interrupt, with interrupts masked. */
void machine_start_timer(void (*handler)(void));

/* No interrupt is taken from here on, and then they are again. */
void machine_mask(void);
void machine_unmask(void);

/* To be called with interrupts masked: waits until there is one, and takes it. */
void machine_wait(void);

/* How many instructions the processor has carried out: qemu counts them with `-icount shift=0`. */
uint64_t machine_instructions(void);

/* Makes a call, and tells how many instructions it takes and how many octets of stack. The name is for whom the
 * program counts them. */
void machine_measure(void (*call)(void), const char *name, uint64_t *instructions, uint64_t *stack);

#endif
