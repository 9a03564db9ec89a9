/* A test of heap.c on an ordinary machine: calls by chance, with what the blocks hold and how they hang together
   looked at. cc -O2 -o test_heap test_heap.c && ./test_heap */
#include <stdio.h>
#include <stdlib.h>
#include <string.h>

#include "heap.c"

enum { HELD = 3000, MOST_PAGES = 300, CALLS = 1000000, LOOKS = 20000 };

static u8 *memory;
static u64 now_pages = 17;

static u8 *lowest(void) { return memory + 1000; }
static u64 pages(void) { return (u64)memory / PAGE + now_pages; }
static void ask(u64 more) {
    if (now_pages + more <= MOST_PAGES) now_pages += more;
}

static u64 state = 88172645463325252UL;
static u64 chance(u64 below) {
    state ^= state << 13;
    state ^= state >> 7;
    state ^= state << 17;
    return state % below;
}

static void expect(int holds, const char *what) {
    if (holds) return;
    printf("heap: %s\n", what);
    exit(1);
}

static struct {
    u8 *at;
    u64 size;
    u8 mark;
} held[HELD];

static void fill(int k) { memset(held[k].at, held[k].mark, held[k].size); }
static void look_at(int k) {
    for (u64 at = 0; at < held[k].size; at++) expect(held[k].at[at] == held[k].mark, "a block was written over");
}

/* The row of blocks from the first to the fence, and the lists of the free ones. */
static void look_at_blocks(void) {
    u64 size = 0, listed = 0, free_ones = 0;
    int was_free = 0;
    Block *block = (Block *)start;
    for (; (u8 *)block < end - UNIT; block = after(block)) {
        expect(block->before == size, "a block doesn't know the size of the one before");
        expect(!(was_free && !is_used(block)), "two free blocks stand side by side");
        size = size_of(block);
        expect(size >= LEAST && size % UNIT == 0, "a block has a size that none may have");
        was_free = !is_used(block);
        free_ones += was_free;
    }
    expect((u8 *)block == end - UNIT && is_used(block), "the blocks don't end at the fence");
    for (int k = 0; k < LISTS; k++)
        for (Free *it = lists[k].next; it != &lists[k]; it = it->next) {
            expect(!is_used(&it->block) && list_for(it->block.size) == &lists[k], "a free block hangs in a wrong list");
            listed++;
        }
    expect(listed == free_ones, "a free block hangs in no list");
}

static u64 some_size(void) {
    static const u64 below[] = {8, 64, 1000, 20000, 200000, 100};
    return chance(below[chance(6)]);
}

static u64 refused;

static void take_one(int k) {
    u64 size = some_size();
    Given given = rattle_alloc(size, 1UL << chance(5));
    if (!given.is_given) {
        refused++;
        return;
    }
    expect((u64)given.at % UNIT == 0, "a block begins at a wrong place");
    held[k].at = given.at;
    held[k].size = size;
    held[k].mark = (u8)chance(256);
    fill(k);
}

static void change_one(int k) {
    u64 size = some_size(), kept = chance(2) ? held[k].size : chance(held[k].size + 1);
    if (kept > size) kept = size;
    Given given = rattle_realloc(held[k].at, kept, size, 8);
    if (!given.is_given) {
        refused++;
        look_at(k);
        return;
    }
    held[k].at = given.at;
    held[k].size = kept;
    look_at(k);
    held[k].size = size;
    fill(k);
}

static void give_back(int k) {
    look_at(k);
    rattle_dealloc(held[k].at);
    held[k].at = 0;
}

int main(void) {
    u8 *whole = malloc((MOST_PAGES + 1) * PAGE);
    memory = (u8 *)(((u64)whole + PAGE - 1) & ~(PAGE - 1));
    expect(!rattle_alloc(1UL << 62, 8).is_given, "more than any memory was given");
    expect(!rattle_alloc(8, 64).is_given, "an alignment was given that blocks don't have");
    for (u64 call = 0; call < CALLS; call++) {
        int k = (int)chance(HELD);
        if (!held[k].at) take_one(k);
        else if (chance(3)) give_back(k);
        else change_one(k);
        if (call % LOOKS == 0) look_at_blocks();
        if (call % 300000 == 299999) ask(3); /* The page may grow memory, too. */
    }
    expect(refused > 0, "memory never ran out, so that refusals weren't tried");
    for (int k = 0; k < HELD; k++)
        if (held[k].at) give_back(k);
    look_at_blocks();
    printf("heap: %d calls, %lu of them refused\n", CALLS, refused);
    free(whole);
    return 0;
}
