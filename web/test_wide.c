/* A test of wide.c on an ordinary machine, against the 128-bit numbers of its compiler. */
#include <stdio.h>

#define __multi3 wide_product
#define __ashlti3 wide_left
#define __lshrti3 wide_right
#include "wide.c"

static u64 state = 88172645463325252UL;

/* A number by chance, often with few bits or with nearly all. */
static u64 some(void) {
    state ^= state << 13;
    state ^= state >> 7;
    state ^= state << 17;
    u64 bits = state >> (state % 64);
    return state & 1UL << 40 ? ~bits : bits;
}

int main(void) {
    for (int turn = 0; turn < 1000000; turn++) {
        u128 a = (u128)some() << 64 | some(), b = (u128)some() << 64 | some();
        int places = turn % 128;
        if (wide_product(a, b) != a * b || wide_left(a, places) != a << places || wide_right(a, places) != a >> places) {
            printf("wide: turn %d goes wrong\n", turn);
            return 1;
        }
    }
    printf("wide: 1000000 turns\n");
    return 0;
}
