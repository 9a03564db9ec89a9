/* The memory of a call: reserved whole at its begin, so that it never moves, and given over page by page. What is
   behind it can't be touched. It goes back to the system when the call ends. */
#include "system.h"

#include "ops.h"

#define SURF_PAGE 65536ull

void surf_give_up(surf_memory *memory, surf_fault fault) {
    memory->fault = fault;
    longjmp(*memory->out, 1);
}

#ifdef _WIN32
#include <windows.h>

static u8 *reserved(u64 size) { return VirtualAlloc(NULL, (SIZE_T)size, MEM_RESERVE, PAGE_NOACCESS); }
static int opened(u8 *at, u64 size) { return VirtualAlloc(at, (SIZE_T)size, MEM_COMMIT, PAGE_READWRITE) == at; }
static void released(u8 *at, u64 size) {
    (void)size;
    VirtualFree(at, 0, MEM_RELEASE);
}
#else
#include <sys/mman.h>
#ifndef MAP_NORESERVE
#define MAP_NORESERVE 0
#endif

static u8 *reserved(u64 size) {
    void *at = mmap(NULL, (size_t)size, PROT_NONE, MAP_PRIVATE | MAP_ANON | MAP_NORESERVE, -1, 0);
    return at == MAP_FAILED ? NULL : at;
}
static int opened(u8 *at, u64 size) { return mprotect(at, (size_t)size, PROT_READ | PROT_WRITE) == 0; }
static void released(u8 *at, u64 size) { munmap(at, (size_t)size); }
#endif

/* Reserves up to 4 GiB, or half as much, and so on, where the system limits what a process may reserve. */
int surf_memory_begin(surf_memory *memory, u32 pages, u32 most) {
    u64 room = most * SURF_PAGE;
    for (;; room /= 2) {
        if (room < 16 * pages * SURF_PAGE) return 0;
        memory->reserved = room + SURF_GUARD;
        memory->data = reserved(memory->reserved);
        if (memory->data) break;
    }
    memory->pages = 0;
    memory->size = 0;
    memory->most = (u32)(room / SURF_PAGE);
    if (surf_memory_grow(memory, pages) == 0) return 1;
    surf_memory_end(memory);
    return 0;
}

u32 surf_memory_grow(surf_memory *memory, u32 more) {
    u32 had = memory->pages;
    if (more > memory->most - had) return 0xffffffffu;
    if (more && !opened(memory->data + memory->size, more * SURF_PAGE)) return 0xffffffffu;
    memory->pages += more;
    memory->size = memory->pages * SURF_PAGE;
    return had;
}

void surf_memory_end(surf_memory *memory) { released(memory->data, memory->reserved); }
