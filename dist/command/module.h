/* module.h: the memory of the program's module, and the instructions that program.c uses.
 *
 * An address of the module is a number of 64 bits. Address A is the byte at memory + A, where the sum wraps. So the
 * module reaches its own stack and constants, and also every block of malloc and every text of the system. */

#ifndef MODULE_H
#define MODULE_H

#include <stdint.h>
#include <stdlib.h>
#include <string.h>

typedef uint8_t u8;
typedef int8_t s8;
typedef uint16_t u16;
typedef int16_t s16;
typedef uint32_t u32;
typedef int32_t s32;
typedef uint64_t u64;
typedef int64_t s64;
typedef double f64;

/* TOP is the size of the module's stack and the address of the constants, SIZE that of both. */
#include "program.h"

#ifdef __GNUC__
#define ALIGNED __attribute__((aligned(16)))
#define INLINE static inline __attribute__((unused, always_inline))
#else
#define ALIGNED _Alignas(16)
#define INLINE static inline
#endif
#if defined(__BYTE_ORDER__) ? __BYTE_ORDER__ == __ORDER_BIG_ENDIAN__ : defined(__BIG_ENDIAN__)
#define MODULE_ORDER(value, len) reversed(value, len)
#else
#define MODULE_ORDER(value, len) (value)
#endif

extern const u8 constants[SIZE - TOP];
/* The memory, as a variable: clang 14 takes minutes if it knows that all pointers begin in one array. */
extern u8 *base;
#define POINTER(address) ((u8 *)((uintptr_t)base + (uintptr_t)(address)))
#define ADDRESS(pointer) ((u64)((uintptr_t)(pointer) - (uintptr_t)base))

/* Returns the new top of the module's stack, which grows towards 0. A full stack ends the program. */
INLINE u64 stack_at(u64 top) {
    if (top > TOP) abort();
    return top;
}

/* The bytes of a number in the other order. With the loop gcc takes three times as long for s390x. */
INLINE u64 reversed(u64 value, unsigned len) {
#ifdef __GNUC__
    return __builtin_bswap64(value) >> (64 - 8 * len);
#else
    u64 result = 0;
    for (unsigned i = 0; i < len; i++) result |= (value >> 8 * i & 255) << 8 * (len - 1 - i);
    return result;
#endif
}

/* Loads and stores: each for an address that is a multiple of the width, and for any address. */
#ifdef __GNUC__
#define MULTIPLE(pointer, size) __builtin_assume_aligned(pointer, size)
#else
#define MULTIPLE(pointer, size) (pointer)
#endif
#define ANY(pointer, size) (pointer)
#define LOAD_BY(name, type, result, how)                                            \
    INLINE result name(u32 offset, u64 address) {                                   \
        type value;                                                                 \
        memcpy(&value, how(POINTER(address + offset), sizeof value), sizeof value); \
        return (result)(type)MODULE_ORDER(value, sizeof value);                     \
    }
#define STORE_BY(name, type, given, how)                                            \
    INLINE void name(u32 offset, u64 address, given wide) {                         \
        type value = (type)MODULE_ORDER((type)wide, sizeof value);                  \
        memcpy(how(POINTER(address + offset), sizeof value), &value, sizeof value); \
    }
#define LOAD(name, type, result) \
    LOAD_BY(name, type, result, MULTIPLE) LOAD_BY(name##_any, type, result, ANY)
#define STORE(name, type, given) \
    STORE_BY(name, type, given, MULTIPLE) STORE_BY(name##_any, type, given, ANY)
LOAD(i32_load, u32, u32)
LOAD(i64_load, u64, u64)
LOAD_BY(i32_load8_u, u8, u32, ANY)
LOAD_BY(i32_load8_s, s8, u32, ANY)
LOAD(i32_load16_u, u16, u32)
LOAD(i32_load16_s, s16, u32)
LOAD_BY(i64_load8_u, u8, u64, ANY)
LOAD_BY(i64_load8_s, s8, u64, ANY)
LOAD(i64_load16_u, u16, u64)
LOAD(i64_load16_s, s16, u64)
LOAD(i64_load32_u, u32, u64)
LOAD(i64_load32_s, s32, u64)
STORE(i32_store, u32, u32)
STORE(i64_store, u64, u64)
STORE_BY(i32_store8, u8, u32, ANY)
STORE(i32_store16, u16, u32)
STORE_BY(i64_store8, u8, u64, ANY)
STORE(i64_store16, u16, u64)
STORE(i64_store32, u32, u64)

INLINE f64 f64_reinterpret_i64(u64 bits) {
    f64 value;
    memcpy(&value, &bits, sizeof value);
    return value;
}

INLINE u64 i64_reinterpret_f64(f64 value) {
    u64 bits;
    memcpy(&bits, &value, sizeof bits);
    return bits;
}

#define f64_load(offset, address) f64_reinterpret_i64(i64_load(offset, address))
#define f64_load_any(offset, address) f64_reinterpret_i64(i64_load_any(offset, address))
#define f64_store(offset, address, value) i64_store(offset, address, i64_reinterpret_f64(value))
#define f64_store_any(offset, address, value) \
    i64_store_any(offset, address, i64_reinterpret_f64(value))

INLINE void memory_fill(u64 to, u32 byte, u64 len) {
    if (len > 0) memset(POINTER(to), (int)(byte & 255), (size_t)len);
}

INLINE void memory_copy(u64 to, u64 from, u64 len) {
    if (len > 0) memmove(POINTER(to), POINTER(from), (size_t)len);
}

INLINE u32 i32_rotl(u32 word, u32 by) {
    return word << (by & 31) | word >> (-by & 31);
}

INLINE u64 i64_rotl(u64 word, u64 by) {
    return word << (by & 63) | word >> (-by & 63);
}
#define i32_rotr(word, by) i32_rotl(word, -(u32)(by))
#define i64_rotr(word, by) i64_rotl(word, -(u64)(by))

INLINE u64 i64_clz(u64 word) {
#ifdef __GNUC__
    return word ? (u64)__builtin_clzll(word) : 64;
#else
    u64 count = 0;
    for (; count < 64 && !(word >> 63); count++) word <<= 1;
    return count;
#endif
}

INLINE u64 i64_ctz(u64 word) {
    return word ? 63 - i64_clz(word & (0 - word)) : 64;
}
#define i32_clz(word) ((u32)i64_clz(word) - 32)
#define i32_ctz(word) ((u32)i64_ctz((u64)(word) | (u64)1 << 32))

/* The program divides by no zero. */
#define DIVIDE(name, type, operator)         \
    INLINE type name(type number, type by) { \
        if (by == 0) abort();                \
        return number operator by;           \
    }
DIVIDE(i32_div_u, u32, /)
DIVIDE(i32_rem_u, u32, %)
DIVIDE(i64_div_u, u64, /)
DIVIDE(i64_rem_u, u64, %)

#endif
