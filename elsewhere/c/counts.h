/* Counts of bits, for ops.h. SURF_PLAIN_COUNTS takes those for compilers that aren't GNU's, as a test does. */
#if defined(__GNUC__) && !defined(SURF_PLAIN_COUNTS)
#define I32_CLZ(x) ((x) ? (u32)__builtin_clz(x) : 32u)
#define I64_CLZ(x) ((x) ? (u64)__builtin_clzll(x) : 64u)
#define I32_CTZ(x) ((x) ? (u32)__builtin_ctz(x) : 32u)
#define I64_CTZ(x) ((x) ? (u64)__builtin_ctzll(x) : 64u)
#define I32_POPCNT(x) ((u32)__builtin_popcount(x))
#define I64_POPCNT(x) ((u64)__builtin_popcountll(x))
#else
SURF_INLINE u64 surf_popcount(u64 x) {
    x -= x >> 1 & 0x5555555555555555u;
    x = (x & 0x3333333333333333u) + (x >> 2 & 0x3333333333333333u);
    x = (x + (x >> 4)) & 0x0f0f0f0f0f0f0f0fu;
    return x * 0x0101010101010101u >> 56;
}
SURF_INLINE u64 surf_smear(u64 x) {
    int k;
    for (k = 1; k < 64; k *= 2) x |= x >> k;
    return x;
}
#define I64_POPCNT(x) surf_popcount(x)
#define I32_POPCNT(x) ((u32)surf_popcount((u32)(x)))
#define I64_CLZ(x) (64 - surf_popcount(surf_smear(x)))
#define I32_CLZ(x) ((u32)(32 - surf_popcount(surf_smear((u32)(x)))))
#define I64_CTZ(x) surf_popcount(~(x) & ((x) - 1))
#define I32_CTZ(x) ((u32)surf_popcount((u32)(~(u32)(x) & ((u32)(x) - 1))))
#endif
