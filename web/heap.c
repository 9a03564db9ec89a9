/* The heap of surf.wasm: what Rattle's allocator and the page call for memory, where there is no library of C.

   Memory from the end of the program's own data on is one row of blocks. Each begins with its size and that of the
   block before it, so both neighbours of a block can be found, and no two free blocks stand side by side. Free blocks
   hang in lists, one for each power of two. The last block is a fence that is never free.
   After D. E. Knuth, "The Art of Computer Programming", volume 1, section 2.5: boundary tags. */
typedef unsigned long u64;
typedef unsigned char u8;

#define PAGE 65536UL
#define UNIT 16UL            /* All sizes and places are multiples of it. */
#define LEAST 32UL           /* A free block has room for its two links. */
#define GREATEST (1UL << 40) /* More than any memory: sums of sizes can't wrap. */
#define LISTS 64

typedef struct Block {
    u64 size;   /* With this head. Bit 0 says that the block is in use. */
    u64 before; /* The size of the block before, or 0 at the first. */
} Block;

typedef struct Free {
    Block block;
    struct Free *next, *last;
} Free;

/* What Rattle's allocator returns. */
typedef struct {
    u64 is_given;
    void *at;
} Given;

#ifdef __wasm__
extern u8 __heap_base;
static u8 *lowest(void) { return &__heap_base; }
static u64 pages(void) { return __builtin_wasm_memory_size(0); }
static void ask(u64 more) { __builtin_wasm_memory_grow(0, more); }
#else
/* A test gives these. */
static u8 *lowest(void);
static u64 pages(void);
static void ask(u64 more);
#endif

static Free lists[LISTS];
static u8 *start, *end; /* Where the blocks begin, and where the fence ends; null before the first call. */
static u8 nothing;      /* Stands for a place where none is given. */

static u64 size_of(const Block *block) { return block->size & ~1UL; }
static int is_used(const Block *block) { return block->size & 1; }
static Block *after(Block *block) { return (Block *)((u8 *)block + size_of(block)); }
static Block *before(Block *block) { return (Block *)((u8 *)block - block->before); }
static u8 *body(Block *block) { return (u8 *)block + sizeof(Block); }
static Block *block_at(void *at) { return (Block *)((u8 *)at - sizeof(Block)); }
static Free *list_for(u64 size) { return &lists[63 - __builtin_clzl(size)]; }

static void unlink(Block *block) {
    Free *it = (Free *)block;
    it->last->next = it->next;
    it->next->last = it->last;
}

/* Makes a free block of this size here, and tells the block after it. */
static void put(Block *block, u64 size) {
    Free *it = (Free *)block, *list = list_for(size);
    block->size = size;
    after(block)->before = size;
    it->next = list->next;
    it->last = list;
    list->next->last = it;
    list->next = it;
}

static void set_fence(void) { ((Block *)(end - UNIT))->size = UNIT | 1; }

/* Whether memory grew. A module that was lowered to 32 bits answers a refusal by another number than one of 64 bits,
   so this looks at the size. */
static int grew(u64 more) {
    u64 had = pages();
    if (more > 0xffffffffUL - had) return 0;
    ask(more);
    return pages() >= had + more;
}

static void begin(void) {
    for (int k = 0; k < LISTS; k++) lists[k].next = lists[k].last = &lists[k];
    start = (u8 *)(((u64)lowest() + UNIT - 1) & ~(UNIT - 1));
}

/* Makes the blocks reach to the end of memory, which the page may have grown too. */
static void take_over(void) {
    u8 *old = end;
    end = (u8 *)(pages() * PAGE);
    set_fence();
    if (!old) {
        ((Block *)start)->before = 0;
        put((Block *)start, (u64)(end - start) - UNIT);
        return;
    }
    Block *first = (Block *)(old - UNIT);
    u64 size = (u64)(end - old);
    if (first->before && !is_used(before(first))) {
        first = before(first);
        unlink(first);
        size += size_of(first);
    }
    put(first, size);
}

/* Grows memory so that a block of this size is there, by an eighth at least where that is granted. */
static int has_grown(u64 size) {
    u64 had = pages(), reach = end ? (u64)end : (u64)start;
    u64 spare = had * PAGE > reach ? had * PAGE - reach : 0, need = size + UNIT;
    u64 more = need > spare ? (need - spare + PAGE - 1) / PAGE : 0;
    if (more && !(more < had / 8 && grew(had / 8)) && !grew(more)) return 0;
    take_over();
    return 1;
}

/* Takes a free block of at least this size out of its list, or answers null. */
static Block *found(u64 size) {
    Free *list = list_for(size);
    for (Free *it = list->next; it != list; it = it->next)
        if (it->block.size >= size) {
            unlink(&it->block);
            return &it->block;
        }
    for (list++; list < lists + LISTS; list++)
        if (list->next != list) {
            Block *block = &list->next->block;
            unlink(block);
            return block;
        }
    return 0;
}

/* Marks a block as used, and frees what it has above this size. */
static void use(Block *block, u64 size) {
    u64 rest = size_of(block) - size;
    if (rest < LEAST) {
        block->size |= 1;
        return;
    }
    block->size = size | 1;
    Block *left = after(block);
    left->before = size;
    left->size = rest;
    Block *next = after(left);
    if (!is_used(next)) {
        unlink(next);
        rest += size_of(next);
    }
    put(left, rest);
}

/* The size of a block for so many bytes. */
static u64 size_for(u64 bytes) {
    u64 size = (bytes + sizeof(Block) + UNIT - 1) & ~(UNIT - 1);
    return size < LEAST ? LEAST : size;
}

/* Room for so many bytes, or 0. */
void *surf_take(u64 bytes) {
    if (bytes > GREATEST) return 0;
    if (!start) begin();
    u64 size = size_for(bytes);
    Block *block = found(size);
    if (!block) {
        if (!has_grown(size)) return 0;
        block = found(size);
        if (!block) return 0;
    }
    use(block, size);
    return body(block);
}

/* Gives back what surf_take gave. */
void surf_give(void *at) {
    if (!at) return;
    Block *block = block_at(at);
    u64 size = size_of(block);
    Block *next = after(block);
    if (!is_used(next)) {
        unlink(next);
        size += size_of(next);
    }
    if (block->before && !is_used(before(block))) {
        block = before(block);
        unlink(block);
        size += size_of(block);
    }
    put(block, size);
}

static Given given(void *at) { return (Given){at != 0, at ? at : &nothing}; }

/* Each block begins at a multiple of 16, which is the greatest alignment that is asked for. */
Given rattle_alloc(u64 bytes, u64 alignment) { return alignment > UNIT ? given(0) : given(surf_take(bytes)); }

void rattle_dealloc(void *at) { surf_give(at); }

/* Makes the block longer by its free neighbour, and says whether that was enough. */
static int has_stretched(Block *block, u64 size) {
    Block *next = after(block);
    if (is_used(next) || size_of(block) + size_of(next) < size) return 0;
    unlink(next);
    u64 whole = size_of(block) + size_of(next);
    block->size = whole | 1;
    after(block)->before = whole;
    return 1;
}

/* A block of another size with the first `kept` bytes of this one; where none is given, this one stays. */
Given rattle_realloc(void *at, u64 kept, u64 bytes, u64 alignment) {
    if (bytes > GREATEST || alignment > UNIT) return given(0);
    Block *block = block_at(at);
    u64 size = size_for(bytes);
    if (size <= size_of(block) || has_stretched(block, size)) {
        use(block, size);
        return given(at);
    }
    void *other = surf_take(bytes);
    if (!other) return given(0);
    __builtin_memcpy(other, at, kept < bytes ? kept : bytes);
    surf_give(at);
    return given(other);
}
