/* Tests the counts of bits for compilers that aren't GNU's against those for GNU's. */
#include "c/ops.h"

#include <stdio.h>

static u64 zeros_before(u64 x) { return I64_CLZ(x); }
static u64 zeros_behind(u64 x) { return I64_CTZ(x); }
static u64 ones(u64 x) { return I64_POPCNT(x); }
static u32 short_zeros_before(u32 x) { return I32_CLZ(x); }
static u32 short_zeros_behind(u32 x) { return I32_CTZ(x); }
static u32 short_ones(u32 x) { return I32_POPCNT(x); }

#undef I64_CLZ
#undef I64_CTZ
#undef I64_POPCNT
#undef I32_CLZ
#undef I32_CTZ
#undef I32_POPCNT
#define SURF_PLAIN_COUNTS
#include "c/counts.h"

void surf_give_up(surf_memory *memory, surf_fault fault) {
    memory->fault = fault;
    longjmp(*memory->out, 1);
}

static int differs(u64 x) {
    u32 y = (u32)x;
    return zeros_before(x) != I64_CLZ(x) || zeros_behind(x) != I64_CTZ(x) || ones(x) != I64_POPCNT(x) ||
           short_zeros_before(y) != I32_CLZ(y) || short_zeros_behind(y) != I32_CTZ(y) || short_ones(y) != I32_POPCNT(y);
}

int main(void) {
    u64 state = 88172645463325252u, turn;
    for (turn = 0; turn < 1000000; turn++) {
        u64 x = turn ? state >> (state % 64) : 0;
        if (state & 1) x <<= (state >> 8) % 64;
        if (differs(x)) return 1;
        state ^= state << 13, state ^= state >> 7, state ^= state << 17;
    }
    return 0;
}
