/* The machine `leon3_generic` of qemu-system-sparc: its serial port, and what gcc calls of its own library on a
 * processor of 32 bits, which Debian's compiler for SPARC has for 64 bits alone. */
#include "machine.h"
#include <stdint.h>

#define SERIAL ((volatile uint32_t *)0x80000100)

void abort(void);
void machine_end(void);

void machine_write(char octet) {
    SERIAL[2] = 3; /* it sends and receives */
    SERIAL[0] = (uint8_t)octet;
}

/* A trap while traps are off ends the emulator, which says `Trap 0x02`. */
void machine_end(void) {
    for (;;) {
        __asm__ volatile("ta 0");
    }
}

void abort(void) {
    for (const char *text = "trap\n"; *text != 0;) {
        machine_write(*text++);
    }
    machine_end();
}

/* ---- What gcc calls, by its names. A number of 64 bits is two halves, so that no function below calls itself. */
union halves {
    uint64_t whole;
    struct {
        uint32_t high, low;
    } half;
};

uint64_t __ashldi3(uint64_t x, int by);
uint64_t __lshrdi3(uint64_t x, int by);
int64_t __ashrdi3(int64_t x, int by);
int __clzsi2(uint32_t x);
uint64_t __udivdi3(uint64_t x, uint64_t y);
uint64_t __umoddi3(uint64_t x, uint64_t y);
int64_t __divdi3(int64_t x, int64_t y);
int64_t __moddi3(int64_t x, int64_t y);
uint64_t __muldi3(uint64_t x, uint64_t y);
double __floatundidf(uint64_t x);

/* Both halves are exact, so that only the sum is rounded. */
double __floatundidf(uint64_t x) { return (double)(uint32_t)(x >> 32) * 4294967296.0 + (double)(uint32_t)x; }

uint64_t __ashldi3(uint64_t x, int by) {
    union halves it = {x};
    if (by >= 32) {
        it.half.high = it.half.low << (by - 32);
        it.half.low = 0;
    } else if (by != 0) {
        it.half.high = it.half.high << by | it.half.low >> (32 - by);
        it.half.low <<= by;
    }
    return it.whole;
}

uint64_t __lshrdi3(uint64_t x, int by) {
    union halves it = {x};
    if (by >= 32) {
        it.half.low = it.half.high >> (by - 32);
        it.half.high = 0;
    } else if (by != 0) {
        it.half.low = it.half.low >> by | it.half.high << (32 - by);
        it.half.high >>= by;
    }
    return it.whole;
}

int64_t __ashrdi3(int64_t x, int by) {
    union halves it = {(uint64_t)x};
    const uint32_t sign = (uint32_t)((int32_t)it.half.high >> 31);
    if (by >= 32) {
        it.half.low = (uint32_t)((int32_t)it.half.high >> (by - 32));
        it.half.high = sign;
    } else if (by != 0) {
        it.half.low = it.half.low >> by | it.half.high << (32 - by);
        it.half.high = (uint32_t)((int32_t)it.half.high >> by);
    }
    return (int64_t)it.whole;
}

int __clzsi2(uint32_t x) {
    int count = 0;
    for (; (x & 0x80000000u) == 0; x <<= 1) {
        count++;
    }
    return count;
}

/* The quotient; what is left stays in x. A digit of two at a time. */
static uint64_t divide(uint64_t *x, uint64_t y) {
    uint64_t quotient = 0, rest = 0;
    union halves from = {*x};
    for (int k = 63; k >= 0; k--) {
        rest = rest << 1 | from.half.high >> 31;
        from.half.high = from.half.high << 1 | from.half.low >> 31;
        from.half.low <<= 1;
        quotient <<= 1;
        if (rest >= y) {
            rest -= y;
            quotient |= 1;
        }
    }
    *x = rest;
    return quotient;
}

uint64_t __udivdi3(uint64_t x, uint64_t y) { return divide(&x, y); }

uint64_t __umoddi3(uint64_t x, uint64_t y) {
    divide(&x, y);
    return x;
}

int64_t __divdi3(int64_t x, int64_t y) {
    const uint64_t it = __udivdi3(x < 0 ? -(uint64_t)x : (uint64_t)x, y < 0 ? -(uint64_t)y : (uint64_t)y);
    return (x < 0) != (y < 0) ? (int64_t)-it : (int64_t)it;
}

int64_t __moddi3(int64_t x, int64_t y) {
    const uint64_t it = __umoddi3(x < 0 ? -(uint64_t)x : (uint64_t)x, y < 0 ? -(uint64_t)y : (uint64_t)y);
    return x < 0 ? (int64_t)-it : (int64_t)it;
}

/* By halves of 16 bits, whose products have 32. */
uint64_t __muldi3(uint64_t x, uint64_t y) {
    const uint32_t x0 = (uint32_t)x & 0xFFFF, x1 = (uint32_t)x >> 16, y0 = (uint32_t)y & 0xFFFF, y1 = (uint32_t)y >> 16;
    const uint32_t low = x0 * y0, middle = (low >> 16) + (x1 * y0 & 0xFFFF) + (x0 * y1 & 0xFFFF);
    union halves it;
    it.half.low = middle << 16 | (low & 0xFFFF);
    it.half.high = x1 * y1 + (x1 * y0 >> 16) + (x0 * y1 >> 16) + (middle >> 16);
    it.half.high += (uint32_t)x * (uint32_t)(y >> 32) + (uint32_t)(x >> 32) * (uint32_t)y;
    return it.whole;
}
