/* Shifts and products of 128-bit whole numbers, which clang calls by these names and WebAssembly has no instructions
   for. A number is taken as two halves of 64 bits. */
typedef unsigned __int128 u128;
typedef unsigned long u64;

typedef union {
    u128 whole;
    struct { u64 low, high; } half;
} Wide;

/* The product of two numbers of 64 bits, by the four products of their halves. */
static Wide product(u64 a, u64 b) {
    u64 a_low = (unsigned)a, a_high = a >> 32, b_low = (unsigned)b, b_high = b >> 32;
    u64 low = a_low * b_low;
    u64 first = a_high * b_low + (low >> 32);
    u64 second = a_low * b_high + (unsigned)first;
    Wide result;
    result.half.low = second << 32 | (unsigned)low;
    result.half.high = a_high * b_high + (first >> 32) + (second >> 32);
    return result;
}

u128 __multi3(u128 a, u128 b) {
    Wide x = {a}, y = {b}, result = product(x.half.low, y.half.low);
    result.half.high += x.half.high * y.half.low + x.half.low * y.half.high;
    return result.whole;
}

/* The shifts are called with fewer than 128 places. */
u128 __ashlti3(u128 a, int places) {
    Wide x = {a}, result = x;
    if (places >= 64) {
        result.half.high = x.half.low << (places - 64);
        result.half.low = 0;
    } else if (places > 0) {
        result.half.high = x.half.high << places | x.half.low >> (64 - places);
        result.half.low = x.half.low << places;
    }
    return result.whole;
}

u128 __lshrti3(u128 a, int places) {
    Wide x = {a}, result = x;
    if (places >= 64) {
        result.half.low = x.half.high >> (places - 64);
        result.half.high = 0;
    } else if (places > 0) {
        result.half.low = x.half.low >> places | x.half.high << (64 - places);
        result.half.high = x.half.high >> places;
    }
    return result.whole;
}
