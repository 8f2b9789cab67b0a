/* The three functions of the C standard that the library calls, where there is no C library: eight octets at a time
 * where all stand at multiples of eight. Compiled with -fno-tree-loop-distribute-patterns, so that no loop becomes a
 * call of them. */
#include <stddef.h>
#include <stdint.h>

typedef uint64_t __attribute__((may_alias)) word;

enum { WIDTH = sizeof(word) };

void *memcpy(void *to, const void *from, size_t count);
void *memmove(void *to, const void *from, size_t count);
void *memset(void *to, int octet, size_t count);

/* From the first octet on. */
void *memcpy(void *to, const void *from, size_t count) {
    uint8_t *out = to;
    const uint8_t *in = from;
    size_t at = 0;
    if (((uintptr_t)out | (uintptr_t)in) % WIDTH == 0) {
        for (; at + WIDTH <= count; at += WIDTH) {
            *(word *)(out + at) = *(const word *)(in + at);
        }
    }
    for (; at < count; at++) {
        out[at] = in[at];
    }
    return to;
}

/* From the last octet on, where the place to copy to begins within what is copied. */
void *memmove(void *to, const void *from, size_t count) {
    uint8_t *out = to;
    const uint8_t *in = from;
    if ((uintptr_t)out - (uintptr_t)in >= count) {
        return memcpy(to, from, count);
    }
    if (((uintptr_t)out | (uintptr_t)in | count) % WIDTH == 0) {
        for (; count != 0; count -= WIDTH) {
            *(word *)(out + count - WIDTH) = *(const word *)(in + count - WIDTH);
        }
    }
    for (; count != 0; count--) {
        out[count - 1] = in[count - 1];
    }
    return to;
}

void *memset(void *to, int octet, size_t count) {
    uint8_t *out = to;
    const uint8_t one = (uint8_t)octet;
    const word eight = one * (word)0x0101010101010101;
    size_t at = 0;
    if ((uintptr_t)out % WIDTH == 0) {
        for (; at + WIDTH <= count; at += WIDTH) {
            *(word *)(out + at) = eight;
        }
    }
    for (; at < count; at++) {
        out[at] = one;
    }
    return to;
}
