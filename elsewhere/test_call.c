/* Tests call.c and memory.c over a module of a few lines, which does what its first word says. */
#include "c/system.h"

#define SURF_CHECKED
#define SURF_OWN static
#include "c/call.c"
#include "c/memory.c"

#include <stdio.h>
#include <stdlib.h>

/* Memory is handed out from the front, and what was taken last can be given back. */
static u64 taken;
static u32 most = 64; /* pages */

int surf_module_begin(surf_module *it) {
    taken = 8;
    it->top = 0;
    return surf_memory_begin(&it->memory, 2, most);
}

void surf_module_end(surf_module *it) { surf_memory_end(&it->memory); }

u64 surf_module_take(surf_module *it, u64 size) {
    u64 at = taken;
    if (size > it->memory.most * 65536ull - taken) return 0;
    taken += size;
    if (taken <= it->memory.size) return at;
    return surf_memory_grow(&it->memory, (u32)((taken - it->memory.size) / 65536 + 1)) == ~0u ? 0 : at;
}

void surf_module_give(surf_module *it, u64 at) {
    (void)it;
    taken = at;
}

static u32 trap(surf_memory *memory, u8 *data, u8 what) {
    u32 zero = 0;
    switch (what) {
    case 'u': UNREACHABLE; break;
    case 'b': return i32_load(memory, data, memory->size - 3);
    case 'd': return DIV_U(7u, zero);
    case 'o': return I32_DIV_S(0x80000000u, 0xffffffffu);
    case 'f': surf_fill(memory, 0xffffffffu, 0, 2); break;
    }
    return 0;
}

/* `a N`: an answer of N bytes `x`, with status 1. */
void surf_module_call(surf_module *it, u64 said, u64 words, u64 words_size, u64 first, u64 first_size, u64 second,
                      u64 second_size, u64 third, u64 third_size, u64 room, u64 room_size) {
    u8 *data = it->memory.data;
    u64 size = words_size > 2 ? strtoull((char *)data + words + 2, NULL, 10) : 0;
    trap(&it->memory, data, data[words]);
    memcpy(data + said, &size, 8);
    data[said + 8] = 1;
    if (size <= room_size) memset(data + room, 'x', size);
    (void)first, (void)first_size, (void)second, (void)second_size, (void)third, (void)third_size;
}

static u8 room[3 << 20];

static int says(const char *words, size_t size, u8 status, size_t told, const char *text) {
    const u8 *none = (const u8 *)"";
    surf_said said;
    memset(room, '-', 64);
    said = surf_call((const u8 *)words, strlen(words) + 1, none, 0, none, 0, none, 0, room, size);
    if (said.status == status && said.size == told && !memcmp(room, text, strlen(text))) return 1;
    printf("%s in a room of %u: status %d, size %u\n", words, (unsigned)size, said.status, (unsigned)said.size);
    return 0;
}

int main(void) {
    int good = says("u", 64, 255, 19, "fault: unreachable\n") & says("b", 64, 255, 14, "fault: bounds\n") &
               says("d", 64, 255, 16, "fault: division\n") & says("o", 64, 255, 16, "fault: overflow\n") &
               says("f", 64, 255, 14, "fault: bounds\n") & says("u", 5, 255, 19, "-----");
    good &= says("a 5", 64, 1, 5, "xxxxx-") & says("a 5", 4, 1, 5, "-----") & says("a 0", 0, 1, 0, "-");
    good &= says("a 2000000", sizeof room, 1, 2000000, "xxxxx");
    /* There is less memory than the caller's room, and enough for the answer, or not. */
    most = 45;
    good &= says("a 2000000", sizeof room, 1, 2000000, "xxxxx");
    most = 32;
    good &= says("a 1000", sizeof room, 1, 1000, "xxxxx") & says("a 2097152", sizeof room, 11, 7, "memory\n");
    return good ? 0 : 1;
}
