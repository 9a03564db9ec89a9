/* The operations of WebAssembly that module.c is written in, as C99. Semantics: the WebAssembly core
   specification, "Numerics" and "Instructions".

   Addresses are 32 bits plus a constant. Memory is one mapping that never moves (memory.c), with pages behind it
   that may not be touched, so an access needs no test: one that is out of bounds ends the process. With SURF_CHECKED
   each access is tested, and a bad one is a fault that surf_call answers. */
#ifndef SURF_OPS_H
#define SURF_OPS_H

#include <setjmp.h>
#include <stdbool.h>
#include <stddef.h>
#include <stdint.h>
#include <string.h>

typedef uint8_t u8;
typedef int8_t s8;
typedef uint16_t u16;
typedef int16_t s16;
typedef uint32_t u32;
typedef int32_t s32;
typedef uint64_t u64;
typedef int64_t s64;

/* Why a call was given up. Proved code meets none of them, unless it was translated or compiled wrongly. */
typedef enum { SURF_UNREACHABLE, SURF_BOUNDS, SURF_DIVISION, SURF_OVERFLOW } surf_fault;

/* A memory of WebAssembly, whose first byte stands at data. */
typedef struct {
    u8 *data;
    u32 pages, most;
    u64 size, reserved;
    jmp_buf *out; /* Where a fault goes. */
    surf_fault fault;
} surf_memory;

/* What stays within the library; surfbasis.c, where all stands in one file, makes it static. */
#ifndef SURF_OWN
#define SURF_OWN
#endif

/* As many bytes behind memory can't be touched. The constants that are added to addresses are smaller. */
#define SURF_GUARD 4194304

SURF_OWN int surf_memory_begin(surf_memory *memory, u32 pages, u32 most);
SURF_OWN u32 surf_memory_grow(surf_memory *memory, u32 more);
SURF_OWN void surf_memory_end(surf_memory *memory);

#if defined(_MSC_VER)
#define SURF_NORETURN __declspec(noreturn)
#define SURF_INLINE static __forceinline
#else
#define SURF_NORETURN __attribute__((noreturn))
#define SURF_INLINE static inline __attribute__((always_inline))
#endif

SURF_OWN SURF_NORETURN void surf_give_up(surf_memory *memory, surf_fault fault);

#if defined(__GNUC__)
#define SURF_RARE(x) __builtin_expect(!!(x), 0)
#else
#define SURF_RARE(x) (x)
#endif

#ifdef SURF_CHECKED
#define SURF_TEST(a, n) \
    if (SURF_RARE((a) + (u64)(n) > m->size)) surf_give_up(m, SURF_BOUNDS)
#else
#define SURF_TEST(a, n) (void)0
#endif

#if UINTPTR_MAX < 0xffffffffffffffffu
#error "module.c is for processors whose addresses have 64 bits"
#endif
#if defined(__BYTE_ORDER__) && __BYTE_ORDER__ == __ORDER_BIG_ENDIAN__
#error "module.c is for processors whose order of bytes is little-endian"
#endif

#define SURF_LOAD(name, type, wide, result)                       \
    SURF_INLINE result name(surf_memory *m, u8 *data, u64 a) {    \
        type value;                                               \
        SURF_TEST(a, sizeof value);                               \
        (void)m;                                                  \
        memcpy(&value, data + a, sizeof value);                   \
        return (result)(wide)value;                               \
    }
#define SURF_STORE(name, type, given)                                        \
    SURF_INLINE void name(surf_memory *m, u8 *data, u64 a, given whole) {    \
        type value = (type)whole;                                            \
        SURF_TEST(a, sizeof value);                                          \
        (void)m;                                                             \
        memcpy(data + a, &value, sizeof value);                              \
    }

SURF_LOAD(i32_load, u32, u32, u32)
SURF_LOAD(i64_load, u64, u64, u64)
SURF_LOAD(i32_load8_s, s8, s32, u32)
SURF_LOAD(i64_load8_s, s8, s64, u64)
SURF_LOAD(i32_load8_u, u8, u32, u32)
SURF_LOAD(i64_load8_u, u8, u64, u64)
SURF_LOAD(i32_load16_s, s16, s32, u32)
SURF_LOAD(i64_load16_s, s16, s64, u64)
SURF_LOAD(i32_load16_u, u16, u32, u32)
SURF_LOAD(i64_load16_u, u16, u64, u64)
SURF_LOAD(i64_load32_s, s32, s64, u64)
SURF_LOAD(i64_load32_u, u32, u64, u64)
SURF_STORE(i32_store, u32, u32)
SURF_STORE(i64_store, u64, u64)
SURF_STORE(i32_store8, u8, u32)
SURF_STORE(i32_store16, u16, u32)
SURF_STORE(i64_store8, u8, u64)
SURF_STORE(i64_store16, u16, u64)
SURF_STORE(i64_store32, u32, u64)

SURF_INLINE int surf_is_within(const surf_memory *m, u32 at, u32 n) { return (u64)at + n <= m->size; }

SURF_INLINE void surf_fill(surf_memory *m, u32 at, u32 value, u32 n) {
    if (SURF_RARE(!surf_is_within(m, at, n))) surf_give_up(m, SURF_BOUNDS);
    memset(m->data + at, (int)(value & 255), n);
}

SURF_INLINE void surf_copy(surf_memory *m, u32 to, u32 from, u32 n) {
    if (SURF_RARE(!surf_is_within(m, to, n) || !surf_is_within(m, from, n))) surf_give_up(m, SURF_BOUNDS);
    memmove(m->data + to, m->data + from, n);
}

#include "counts.h"

/* Division. A quotient of signed numbers is the processor's, since C rounds towards zero, too. */
#define SURF_UNSIGNED(op, x, y) (SURF_RARE((y) == 0) ? (surf_give_up(memory, SURF_DIVISION), 0) : (x)op(y))
#define DIV_U(x, y) SURF_UNSIGNED(/, x, y)
#define REM_U(x, y) SURF_UNSIGNED(%, x, y)
#define SURF_DIV_S(ut, st, least, x, y)                                         \
    (SURF_RARE((y) == 0) ? (surf_give_up(memory, SURF_DIVISION), (ut)0)         \
     : SURF_RARE((st)(x) == least && (st)(y) == -1)                             \
         ? (surf_give_up(memory, SURF_OVERFLOW), (ut)0)                         \
         : (ut)((st)(x) / (st)(y)))
#define SURF_REM_S(ut, st, least, x, y)                                   \
    (SURF_RARE((y) == 0) ? (surf_give_up(memory, SURF_DIVISION), (ut)0)   \
     : SURF_RARE((st)(x) == least && (st)(y) == -1) ? (ut)0 : (ut)((st)(x) % (st)(y)))
#define I32_DIV_S(x, y) SURF_DIV_S(u32, s32, INT32_MIN, x, y)
#define I64_DIV_S(x, y) SURF_DIV_S(u64, s64, INT64_MIN, x, y)
#define I32_REM_S(x, y) SURF_REM_S(u32, s32, INT32_MIN, x, y)
#define I64_REM_S(x, y) SURF_REM_S(u64, s64, INT64_MIN, x, y)

#define SURF_LEFT(x, y, mask) ((x) << ((y) & (mask)) | (x) >> (((mask) - (y) + 1) & (mask)))
#define SURF_RIGHT(x, y, mask) ((x) >> ((y) & (mask)) | (x) << (((mask) - (y) + 1) & (mask)))
#define I32_ROTL(x, y) SURF_LEFT(x, y, 31)
#define I64_ROTL(x, y) SURF_LEFT(x, y, 63)
#define I32_ROTR(x, y) SURF_RIGHT(x, y, 31)
#define I64_ROTR(x, y) SURF_RIGHT(x, y, 63)

#define UNREACHABLE surf_give_up(memory, SURF_UNREACHABLE)

#endif
