@always
/* ---- What the translated functions stand on.
 *
 * The whole memory of an instance is one array of octets. The functions below have no pointer. GET.., PUT.., COPY and
 * FILL test each address against the array's size. AT.. and SET.. do not: the variable in them was tested by TEST or
 * TEST_FAR, which the maker of this file finds on each way to them. A test that fails, and each place that the library
 * never reaches, ends in RUDLAYOG_TRAP(), which must not return. */
#include <stdbool.h>
#include <stddef.h>
#include <stdint.h>
#include <string.h>

#ifndef RUDLAYOG_TRAP
#include <stdlib.h>
#define RUDLAYOG_TRAP() abort()
#endif

typedef uint8_t u8;
typedef uint16_t u16;
typedef uint32_t u32;
typedef uint64_t u64;
typedef int8_t s8;
typedef int16_t s16;
typedef int32_t s32;
typedef int64_t s64;
typedef double f64;

#if defined(__GNUC__) || defined(__clang__)
#define RUD_SELDOM(fact) __builtin_expect((fact), 0)
#define RUD_COLD __attribute__((noreturn, cold, noinline))
#elif defined(_MSC_VER)
#define RUD_SELDOM(fact) (fact)
#define RUD_COLD __declspec(noreturn noinline)
#else
#define RUD_SELDOM(fact) (fact)
#define RUD_COLD
#endif

/* An address: it is as wide as a pointer, if that has 32 bits or more. */
#if UINTPTR_MAX > 0xFFFFFFFFu
typedef u64 rud_address;
#else
typedef u32 rud_address;
#endif

/* RUDLAYOG_SMALL: each access of the memory is a call, which tests its address. The code is smaller, and slower. */
#if defined(RUDLAYOG_SMALL) && defined(__GNUC__)
#define RUD_ACCESS static __attribute__((noinline))
#elif defined(__GNUC__) || defined(__clang__)
#define RUD_ACCESS static inline __attribute__((always_inline))
#elif defined(_MSC_VER)
#define RUD_ACCESS static __forceinline
#else
#define RUD_ACCESS static inline
#endif
#if defined(__GNUC__) || defined(__clang__)
#define RUD_INLINE static inline __attribute__((always_inline))
#else
#define RUD_INLINE static inline
#endif
/* What stands at each access: inline, but where the whole is compiled for size. */
#if defined(__OPTIMIZE_SIZE__)
#define RUD_EACH static __attribute__((noinline))
#else
#define RUD_EACH RUD_INLINE
#endif

static RUD_COLD void rud_trap(void) {
    RUDLAYOG_TRAP();
    for (;;) {
    }
}

/* Of the stack of the functions, at the beginning of the memory, the last RUDLAYOG_STACK octets are in the array. An
 * access before them is found by the tests. */
#ifndef RUDLAYOG_STACK
#ifdef RUDLAYOG_ARRAY
#define RUDLAYOG_STACK 16384
#else
#define RUDLAYOG_STACK RUD_STACK
#endif
#endif
#if RUDLAYOG_STACK > RUD_STACK || RUDLAYOG_STACK % 16 != 0
#error RUDLAYOG_STACK is a multiple of 16, and no more than the whole stack
#endif
/* The first address that is in the array. */
#define RUD_FIRST ((u32)(RUD_STACK - (RUDLAYOG_STACK)))
/* How far behind a tested address an access may end: the array is longer than its size by this. */
#define RUD_MARGIN 1024

/* After the stack and the data of the functions stand the handle of a memory, RUDLAYOG_BOUNCE octets for what calls take
 * and give, and the heap, where also stands what is longer than those. */
#ifndef RUDLAYOG_BOUNCE
#define RUDLAYOG_BOUNCE 24576
#endif
#define RUD_ROUND(size) (((u32)(size) + 15u) & ~(u32)15)
#define RUD_HANDLE RUD_ROUND(RUD_DATA_END)
#define RUD_BOUNCE (RUD_HANDLE + 16u)
#define RUD_HEAP (RUD_BOUNCE + RUD_ROUND(RUDLAYOG_BOUNCE))

/* RUDLAYOG_ARRAY is the size of the one array of a program without an operating system. So many octets are enough for a
 * memory, under what RUDLAYOG_POOL_FOR of rudlayog_heap.h assumes, whose blocks are those of the heap here. */
#define RUDLAYOG_PORTABLE_MEMORY_FOR(stores, blocks, reports)                                                          \
    (RUD_HEAP - RUD_FIRST + 263232u + 21504u * (stores) + RUD_OF_BLOCK(stores) * ((blocks) + 2u) + 33040u * (reports))
#define RUD_OF_BLOCK(stores)                                                                                           \
    (1312u + 112u * (((stores) > 0) + ((stores) > 1) + ((stores) > 3) + ((stores) > 7) + ((stores) > 15)))

typedef struct rud rud;

@instance
/* One array, whose size is given: nothing of the C library is called but memcpy, memmove and memset. */
#ifdef RUDLAYOG_ARRAY
static rud rud_one;
static union {
    u64 aligned;
    u8 octets[(RUDLAYOG_ARRAY) + RUD_MARGIN];
} rud_array;
#define RUD_IT
#define RUD_IT0 void
#define RUD_AS
#define RUD_AS0
#define RUD_HERE
#define RUD_AGAIN
#define RUD_NONE
#define RUD_AT_IT
#define RUD_WHERE
#define RUD_DATA rud_array.octets
#define RUD_SIZE ((u32)(RUDLAYOG_ARRAY))
#define RUD_ME (&rud_one)
#else
#define RUD_IT rud *m,
#define RUD_IT0 rud *m
#define RUD_AS m,
#define RUD_AS0 m
/* Where the array is and how long; it moves where it grows. */
#define RUD_HERE                                                                                                       \
    u8 *d = m->data;                                                                                                   \
    rud_address n = m->size;
#define RUD_AGAIN d = m->data, n = m->size;
#define RUD_NONE (void)m;
#define RUD_AT_IT u8 *d, rud_address n,
#define RUD_WHERE d, n,
#define RUD_DATA d
#define RUD_SIZE n
#define RUD_ME m
#endif

/* Where an access of at most RUD_MARGIN octets from the address on begins. */
RUD_EACH u8 *rud_at(RUD_AT_IT rud_address at) {
    at -= RUD_FIRST;
    if (RUD_SELDOM(at >= RUD_SIZE)) rud_trap();
    return RUD_DATA + at;
}

/* The same where the address is tested; and whether a variable is one. */
#if RUDLAYOG_STACK == RUD_STACK && UINTPTR_MAX > 0xFFFFFFFFu
#define RUD_PLACE(at, more) (RUD_DATA + at + more)
#define RUD_IS_PAST(at) (at >= RUD_SIZE)
#else
#define RUD_PLACE(at, more) (RUD_DATA + ((rud_address)at - RUD_FIRST) + more)
#define RUD_IS_PAST(at) ((rud_address)at - RUD_FIRST >= RUD_SIZE)
#endif

/* Numbers stand in the array with their least octet first, whatever the processor's order is. */
#ifndef RUDLAYOG_SWAPPED
#if defined(_WIN32) || (defined(__BYTE_ORDER__) && __BYTE_ORDER__ == __ORDER_LITTLE_ENDIAN__)
#define RUDLAYOG_SWAPPED 0
#else
#define RUDLAYOG_SWAPPED 1
#endif
#endif

/* Whether a number may be read at any address by a type of its own, which may alias all others. */
#ifndef RUD_TYPED
#if (defined(__GNUC__) || defined(__clang__)) && !defined(__TINYC__) && !RUDLAYOG_SWAPPED
#define RUD_TYPED 1
#else
#define RUD_TYPED 0
#endif
#endif
#if RUD_TYPED
typedef u16 rud_u16 __attribute__((aligned(1), may_alias));
typedef u32 rud_u32 __attribute__((aligned(1), may_alias));
typedef u64 rud_u64 __attribute__((aligned(1), may_alias));
#endif

@TEST
/* Tests a variable: up to RUD_MARGIN octets behind it are then in the array. */
#ifdef RUDLAYOG_SMALL
#define TEST(at) (void)0
#else
#define TEST(at)                                                                                                       \
    if (RUD_IS_PAST(at)) rud_trap()
#endif

@TEST_FAR
/* Up to RUD_MARGIN octets behind what is so far from it, too. */
#ifdef RUDLAYOG_SMALL
#define TEST_FAR(at, far) (void)0
#else
RUD_INLINE bool rud_is_past(rud_address size, rud_address at, u32 far) {
    at -= RUD_FIRST;
    return at >= size || size - at <= far;
}
#define TEST_FAR(at, far)                                                                                              \
    if (RUD_SELDOM(rud_is_past(RUD_SIZE, at, far))) rud_trap()
#endif

@rud_load16
#if RUD_TYPED
#define rud_load16(from) (*(const rud_u16 *)(from))
#else
RUD_EACH u32 rud_load16(const u8 *from) {
#if RUDLAYOG_SWAPPED
    return (u32)from[0] | (u32)from[1] << 8;
#else
    u16 it;
    memcpy(&it, from, sizeof it);
    return it;
#endif
}
#endif

@rud_store16
#if RUD_TYPED
#define rud_store16(to, it) (*(rud_u16 *)(to) = (u16)(it))
#else
RUD_EACH void rud_store16(u8 *to, u32 it) {
#if RUDLAYOG_SWAPPED
    to[0] = (u8)it;
    to[1] = (u8)(it >> 8);
#else
    const u16 half = (u16)it;
    memcpy(to, &half, sizeof half);
#endif
}
#endif

@rud_load32
#if RUD_TYPED
#define rud_load32(from) (*(const rud_u32 *)(from))
#else
RUD_EACH u32 rud_load32(const u8 *from) {
#if RUDLAYOG_SWAPPED
    return (u32)from[0] | (u32)from[1] << 8 | (u32)from[2] << 16 | (u32)from[3] << 24;
#else
    u32 it;
    memcpy(&it, from, sizeof it);
    return it;
#endif
}
#endif

@rud_store32
#if RUD_TYPED
#define rud_store32(to, it) (*(rud_u32 *)(to) = (u32)(it))
#else
RUD_EACH void rud_store32(u8 *to, u32 it) {
#if RUDLAYOG_SWAPPED
    to[0] = (u8)it;
    to[1] = (u8)(it >> 8);
    to[2] = (u8)(it >> 16);
    to[3] = (u8)(it >> 24);
#else
    memcpy(to, &it, sizeof it);
#endif
}
#endif

@rud_load64
#if RUD_TYPED && UINTPTR_MAX > 0xFFFFFFFFu
#define rud_load64(from) (*(const rud_u64 *)(from))
#elif RUD_TYPED
/* gcc passes an argument by the type that it was read with, also past sums and inline functions, and on Arm one of 64
 * bits without alignment goes elsewhere than where the function expects it. */
RUD_INLINE u64 rud_load64(const u8 *from) { return (u64)rud_load32(from + 4) << 32 | rud_load32(from); }
#else
RUD_EACH u64 rud_load64(const u8 *from) {
#if RUDLAYOG_SWAPPED
    const u32 low = (u32)from[0] | (u32)from[1] << 8 | (u32)from[2] << 16 | (u32)from[3] << 24;
    const u32 high = (u32)from[4] | (u32)from[5] << 8 | (u32)from[6] << 16 | (u32)from[7] << 24;
    return (u64)high << 32 | low;
#else
    u64 it;
    memcpy(&it, from, sizeof it);
    return it;
#endif
}
#endif

@rud_store64
#if RUD_TYPED
#define rud_store64(to, it) (*(rud_u64 *)(to) = (u64)(it))
#else
RUD_EACH void rud_store64(u8 *to, u64 it) {
#if RUDLAYOG_SWAPPED
    const u32 low = (u32)it, high = (u32)(it >> 32);
    to[0] = (u8)low;
    to[1] = (u8)(low >> 8);
    to[2] = (u8)(low >> 16);
    to[3] = (u8)(low >> 24);
    to[4] = (u8)high;
    to[5] = (u8)(high >> 8);
    to[6] = (u8)(high >> 16);
    to[7] = (u8)(high >> 24);
#else
    memcpy(to, &it, sizeof it);
#endif
}
#endif

@rud_get8
#ifdef RUDLAYOG_SMALL
RUD_ACCESS u32 rud_get8(RUD_AT_IT rud_address at, u32 more) { return ((u32)*(rud_at(RUD_WHERE at + more))); }
#endif

@rud_put8
#ifdef RUDLAYOG_SMALL
RUD_ACCESS void rud_put8(RUD_AT_IT rud_address at, u32 more, u32 it) { (*(rud_at(RUD_WHERE at + more)) = (u8)(it)); }
#endif

@AT8
#ifdef RUDLAYOG_SMALL
#define AT8(at, more) rud_get8(RUD_WHERE at, more)
#else
#define AT8(at, more) ((u32)*(RUD_PLACE(at, more)))
#endif

@SET8
#ifdef RUDLAYOG_SMALL
#define SET8(at, more, it) rud_put8(RUD_WHERE at, more, it)
#else
#define SET8(at, more, it) (*(RUD_PLACE(at, more)) = (u8)(it))
#endif

@GET8
#ifdef RUDLAYOG_SMALL
#define GET8(at, more) rud_get8(RUD_WHERE at, more)
#else
#define GET8(at, more) ((u32)*(rud_at(RUD_WHERE at) + (more)))
#endif

@PUT8
#ifdef RUDLAYOG_SMALL
#define PUT8(at, more, it) rud_put8(RUD_WHERE at, more, it)
#else
#define PUT8(at, more, it) (*(rud_at(RUD_WHERE at) + (more)) = (u8)(it))
#endif

@rud_get16
#ifdef RUDLAYOG_SMALL
RUD_ACCESS u32 rud_get16(RUD_AT_IT rud_address at, u32 more) { return ((u32)rud_load16(rud_at(RUD_WHERE at + more))); }
#endif

@rud_put16
#ifdef RUDLAYOG_SMALL
RUD_ACCESS void rud_put16(RUD_AT_IT rud_address at, u32 more, u32 it) { rud_store16(rud_at(RUD_WHERE at + more), it); }
#endif

@AT16
#ifdef RUDLAYOG_SMALL
#define AT16(at, more) rud_get16(RUD_WHERE at, more)
#else
#define AT16(at, more) ((u32)rud_load16(RUD_PLACE(at, more)))
#endif

@SET16
#ifdef RUDLAYOG_SMALL
#define SET16(at, more, it) rud_put16(RUD_WHERE at, more, it)
#else
#define SET16(at, more, it) rud_store16(RUD_PLACE(at, more), it)
#endif

@GET16
#ifdef RUDLAYOG_SMALL
#define GET16(at, more) rud_get16(RUD_WHERE at, more)
#else
#define GET16(at, more) ((u32)rud_load16(rud_at(RUD_WHERE at) + (more)))
#endif

@PUT16
#ifdef RUDLAYOG_SMALL
#define PUT16(at, more, it) rud_put16(RUD_WHERE at, more, it)
#else
#define PUT16(at, more, it) rud_store16(rud_at(RUD_WHERE at) + (more), it)
#endif

@rud_get32
#ifdef RUDLAYOG_SMALL
RUD_ACCESS u32 rud_get32(RUD_AT_IT rud_address at, u32 more) { return rud_load32(rud_at(RUD_WHERE at + more)); }
#endif

@rud_put32
#ifdef RUDLAYOG_SMALL
RUD_ACCESS void rud_put32(RUD_AT_IT rud_address at, u32 more, u32 it) { rud_store32(rud_at(RUD_WHERE at + more), it); }
#endif

@AT32
#ifdef RUDLAYOG_SMALL
#define AT32(at, more) rud_get32(RUD_WHERE at, more)
#else
#define AT32(at, more) rud_load32(RUD_PLACE(at, more))
#endif

@SET32
#ifdef RUDLAYOG_SMALL
#define SET32(at, more, it) rud_put32(RUD_WHERE at, more, it)
#else
#define SET32(at, more, it) rud_store32(RUD_PLACE(at, more), it)
#endif

@GET32
#ifdef RUDLAYOG_SMALL
#define GET32(at, more) rud_get32(RUD_WHERE at, more)
#else
#define GET32(at, more) rud_load32(rud_at(RUD_WHERE at) + (more))
#endif

@PUT32
#ifdef RUDLAYOG_SMALL
#define PUT32(at, more, it) rud_put32(RUD_WHERE at, more, it)
#else
#define PUT32(at, more, it) rud_store32(rud_at(RUD_WHERE at) + (more), it)
#endif

@rud_get64
#ifdef RUDLAYOG_SMALL
RUD_ACCESS u64 rud_get64(RUD_AT_IT rud_address at, u32 more) { return rud_load64(rud_at(RUD_WHERE at + more)); }
#endif

@rud_put64
#ifdef RUDLAYOG_SMALL
RUD_ACCESS void rud_put64(RUD_AT_IT rud_address at, u32 more, u64 it) { rud_store64(rud_at(RUD_WHERE at + more), it); }
#endif

@AT64
#ifdef RUDLAYOG_SMALL
#define AT64(at, more) rud_get64(RUD_WHERE at, more)
#else
#define AT64(at, more) rud_load64(RUD_PLACE(at, more))
#endif

@SET64
#ifdef RUDLAYOG_SMALL
#define SET64(at, more, it) rud_put64(RUD_WHERE at, more, it)
#else
#define SET64(at, more, it) rud_store64(RUD_PLACE(at, more), it)
#endif

@GET64
#ifdef RUDLAYOG_SMALL
#define GET64(at, more) rud_get64(RUD_WHERE at, more)
#else
#define GET64(at, more) rud_load64(rud_at(RUD_WHERE at) + (more))
#endif

@PUT64
#ifdef RUDLAYOG_SMALL
#define PUT64(at, more, it) rud_put64(RUD_WHERE at, more, it)
#else
#define PUT64(at, more, it) rud_store64(rud_at(RUD_WHERE at) + (more), it)
#endif

@ATF
#define ATF(at, more) rud_of_octets(AT64(at, more))

@SETF
#define SETF(at, more, it) SET64(at, more, rud_octets_of(it))

@GETF
#define GETF(at, more) rud_of_octets(GET64(at, more))

@PUTF
#define PUTF(at, more, it) PUT64(at, more, rud_octets_of(it))

@rud_far
/* The address of an access that is far behind another one. */
RUD_INLINE rud_address rud_far(rud_address at, u32 more) {
    if (RUD_SELDOM(at > ~(rud_address)0 - more)) rud_trap();
    return at + more;
}

@GET_FAR8
#define GET_FAR8(at, more) GET8(rud_far(at, more), 0)

@PUT_FAR8
#define PUT_FAR8(at, more, it) PUT8(rud_far(at, more), 0, it)

@GET_FAR16
#define GET_FAR16(at, more) GET16(rud_far(at, more), 0)

@PUT_FAR16
#define PUT_FAR16(at, more, it) PUT16(rud_far(at, more), 0, it)

@GET_FAR32
#define GET_FAR32(at, more) GET32(rud_far(at, more), 0)

@PUT_FAR32
#define PUT_FAR32(at, more, it) PUT32(rud_far(at, more), 0, it)

@GET_FAR64
#define GET_FAR64(at, more) GET64(rud_far(at, more), 0)

@PUT_FAR64
#define PUT_FAR64(at, more, it) PUT64(rud_far(at, more), 0, it)

@GET_FARF
#define GET_FARF(at, more) GETF(rud_far(at, more), 0)

@PUT_FARF
#define PUT_FARF(at, more, it) PUTF(rud_far(at, more), 0, it)

@rud_range
/* Where this many octets from the address on are. */
static u8 *rud_range(RUD_AT_IT rud_address at, rud_address count) {
    at -= RUD_FIRST;
    if (RUD_SELDOM(at > RUD_SIZE || count > RUD_SIZE - at)) rud_trap();
    return RUD_DATA + at;
}

@COPY
static void rud_copy(RUD_AT_IT rud_address to, rud_address from, rud_address count) {
    u8 *there = rud_range(RUD_WHERE to, count);
    const u8 *here = rud_range(RUD_WHERE from, count);
    if (count != 0) memmove(there, here, (size_t)count);
}
#define COPY(to, from, count) rud_copy(RUD_WHERE to, from, count)

@FILL
static void rud_fill(RUD_AT_IT rud_address at, u32 octet, rud_address count) {
    u8 *there = rud_range(RUD_WHERE at, count);
    if (count != 0) memset(there, (int)(octet & 255u), (size_t)count);
}
#define FILL(at, octet, count) rud_fill(RUD_WHERE at, octet, count)

@COPY_FEW
/* At most RUD_MARGIN octets. */
#define COPY_FEW(to, from, count) memmove(rud_at(RUD_WHERE to), rud_at(RUD_WHERE from), count)

@FILL_FEW
#define FILL_FEW(at, octet, count) memset(rud_at(RUD_WHERE at), (int)((octet) & 255u), count)

@rud_popcnt64
RUD_INLINE u64 rud_popcnt64(u64 x) {
    x = x - ((x >> 1) & 0x5555555555555555u);
    x = (x & 0x3333333333333333u) + ((x >> 2) & 0x3333333333333333u);
    x = (x + (x >> 4)) & 0x0F0F0F0F0F0F0F0Fu;
    return (x * 0x0101010101010101u) >> 56;
}

@rud_popcnt32
RUD_INLINE u32 rud_popcnt32(u32 x) {
    x = x - ((x >> 1) & 0x55555555u);
    x = (x & 0x33333333u) + ((x >> 2) & 0x33333333u);
    x = (x + (x >> 4)) & 0x0F0F0F0Fu;
    return (x * 0x01010101u) >> 24;
}

@rud_clz32
RUD_INLINE u32 rud_clz32(u32 x) {
#if defined(__GNUC__) || defined(__clang__)
    return x != 0 ? (u32)__builtin_clzl((unsigned long)x) - (u32)(8 * sizeof(unsigned long) - 32) : 32;
#else
    u32 count = 0, half;
    if (x == 0) return 32;
    for (half = 16; half != 0; half /= 2) {
        if (x >> (32 - half) == 0) x <<= half, count += half;
    }
    return count;
#endif
}

@rud_clz64
RUD_INLINE u64 rud_clz64(u64 x) {
    const u32 high = (u32)(x >> 32);
    return high != 0 ? rud_clz32(high) : 32u + rud_clz32((u32)x);
}

@rud_ctz32
RUD_INLINE u32 rud_ctz32(u32 x) { return x != 0 ? 31u - rud_clz32(x & (0u - x)) : 32u; }

@rud_ctz64
RUD_INLINE u64 rud_ctz64(u64 x) {
    const u32 low = (u32)x;
    return low != 0 ? rud_ctz32(low) : 32u + rud_ctz32((u32)(x >> 32));
}

@rud_div_u32
RUD_INLINE u32 rud_div_u32(u32 x, u32 y) {
    if (RUD_SELDOM(y == 0)) rud_trap();
    return x / y;
}

@rud_div_u64
RUD_INLINE u64 rud_div_u64(u64 x, u64 y) {
    if (RUD_SELDOM(y == 0)) rud_trap();
    return x / y;
}

@rud_rem_u32
RUD_INLINE u32 rud_rem_u32(u32 x, u32 y) {
    if (RUD_SELDOM(y == 0)) rud_trap();
    return x % y;
}

@rud_rem_u64
RUD_INLINE u64 rud_rem_u64(u64 x, u64 y) {
    if (RUD_SELDOM(y == 0)) rud_trap();
    return x % y;
}

@rud_div_s32
RUD_INLINE u32 rud_div_s32(u32 x, u32 y) {
    if (RUD_SELDOM(y == 0 || (y == 0xFFFFFFFFu && x == 0x80000000u))) rud_trap();
    return (u32)((s32)x / (s32)y);
}

@rud_div_s64
RUD_INLINE u64 rud_div_s64(u64 x, u64 y) {
    if (RUD_SELDOM(y == 0 || (y == 0xFFFFFFFFFFFFFFFFu && x == 0x8000000000000000u))) rud_trap();
    return (u64)((s64)x / (s64)y);
}

@rud_rem_s32
RUD_INLINE u32 rud_rem_s32(u32 x, u32 y) {
    if (RUD_SELDOM(y == 0)) rud_trap();
    return y == 0xFFFFFFFFu ? 0 : (u32)((s32)x % (s32)y);
}

@rud_rem_s64
RUD_INLINE u64 rud_rem_s64(u64 x, u64 y) {
    if (RUD_SELDOM(y == 0)) rud_trap();
    return y == 0xFFFFFFFFFFFFFFFFu ? 0 : (u64)((s64)x % (s64)y);
}

@rud_rotl32
RUD_INLINE u32 rud_rotl32(u32 x, u32 by) { return x << (by & 31) | x >> ((0u - by) & 31); }

@rud_rotr32
RUD_INLINE u32 rud_rotr32(u32 x, u32 by) { return x >> (by & 31) | x << ((0u - by) & 31); }

@rud_rotl64
RUD_INLINE u64 rud_rotl64(u64 x, u64 by) { return x << (by & 63) | x >> ((0u - by) & 63); }

@rud_rotr64
RUD_INLINE u64 rud_rotr64(u64 x, u64 by) { return x >> (by & 63) | x << ((0u - by) & 63); }

@rud_of_octets
RUD_INLINE f64 rud_of_octets(u64 x) {
    f64 it;
    memcpy(&it, &x, sizeof it);
    return it;
}

@rud_octets_of
RUD_INLINE u64 rud_octets_of(f64 x) {
    u64 it;
    memcpy(&it, &x, sizeof it);
    return it;
}

@rud_abs
RUD_INLINE f64 rud_abs(f64 x) { return rud_of_octets(rud_octets_of(x) & 0x7FFFFFFFFFFFFFFFu); }

@rud_neg
RUD_INLINE f64 rud_neg(f64 x) { return rud_of_octets(rud_octets_of(x) ^ 0x8000000000000000u); }

