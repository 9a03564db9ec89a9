/* surf_call of surf.h over module.c: each call has a memory of its own, so calls may run side by side. */
#include "surf.h"

#include "module.h"

enum { MEMORY = 11, FAULT = 255 };

#define LEAST_ROOM 4096u
#define MOST_ROOM (1u << 30) /* The program gives no longer answer. */

/* A room of the caller's, and how much of it is written to. */
typedef struct {
    u8 *bytes;
    size_t size;
} surf_room;

/* What is said where a call was given up, which a right translation never does. */
static const char *line_of(surf_fault fault) {
    switch (fault) {
    case SURF_UNREACHABLE: return "fault: unreachable\n";
    case SURF_BOUNDS: return "fault: bounds\n";
    case SURF_DIVISION: return "fault: division\n";
    case SURF_OVERFLOW: return "fault: overflow\n";
    }
    return "fault\n";
}

/* Puts a text at the front of the room, where it fits. */
static surf_said put(surf_room room, u8 status, const u8 *text, size_t size) {
    surf_said said;
    said.status = status;
    said.size = size;
    if (size && size <= room.size) memcpy(room.bytes, text, size);
    return said;
}

static surf_said put_line(surf_room room, u8 status, const char *line) {
    return put(room, status, (const u8 *)line, strlen(line));
}

/* The place of a copy of these bytes in the memory of a call, or 0. */
static u64 lent(surf_module *it, const u8 *bytes, size_t size) {
    u64 at = surf_module_take(it, size ? size : 1);
    if (at && size) memcpy(it->memory.data + at, bytes, size);
    return at;
}

/* Room of this size, or of half of it and so on, where there is no such memory; 0 where there is none. */
static u64 room_for(surf_module *it, u64 *size) {
    for (;; *size /= 2) {
        u64 at = surf_module_take(it, *size ? *size : 1);
        if (at || *size < LEAST_ROOM) return at;
    }
}

/* Calls the module with the places of what is given. Gives the size of what is said. */
static u64 size_said(surf_module *it, const u64 at[5], const size_t sizes[4], u64 place, u64 size) {
    u64 found;
    surf_module_call(it, at[4], at[0], sizes[0], at[1], sizes[1], at[2], sizes[2], at[3], sizes[3], place, size);
    memcpy(&found, it->memory.data + at[4], sizeof found);
    return found;
}

static surf_said answered(surf_module *it, const u8 *const given[4], const size_t sizes[4], surf_room room) {
    u64 at[5], size = room.size < MOST_ROOM ? room.size : MOST_ROOM, place, found;
    int k;
    for (k = 0; k < 4; k++) at[k] = lent(it, given[k], sizes[k]);
    at[4] = surf_module_take(it, 16);
    place = room_for(it, &size);
    if (!(at[0] && at[1] && at[2] && at[3] && at[4] && place)) return put_line(room, MEMORY, "memory\n");
    found = size_said(it, at, sizes, place, size);
    if (found > size && found <= room.size) { /* There was less memory for it than the caller has. */
        surf_module_give(it, place);
        place = surf_module_take(it, found);
        if (!place) return put_line(room, MEMORY, "memory\n");
        found = size_said(it, at, sizes, place, found);
    }
    return put(room, it->memory.data[at[4] + 8], it->memory.data + place, (size_t)found);
}

/* Answers, or says by what fault the call was given up. */
static surf_said guarded(surf_module *it, const u8 *const given[4], const size_t sizes[4], surf_room room) {
    jmp_buf out;
    it->memory.out = &out;
    if (setjmp(out)) return put_line(room, FAULT, line_of(it->memory.fault));
    return answered(it, given, sizes, room);
}

surf_said surf_call(const uint8_t *words, size_t words_size, const uint8_t *first, size_t first_size,
                    const uint8_t *second, size_t second_size, const uint8_t *third, size_t third_size, uint8_t *room,
                    size_t room_size) {
    const u8 *given[4];
    size_t sizes[4];
    surf_room whole;
    surf_module it;
    surf_said said;
    given[0] = words, given[1] = first, given[2] = second, given[3] = third;
    sizes[0] = words_size, sizes[1] = first_size, sizes[2] = second_size, sizes[3] = third_size;
    whole.bytes = room;
    whole.size = room_size;
    if (!surf_module_begin(&it)) return put_line(whole, MEMORY, "memory\n");
    said = guarded(&it, given, sizes, whole);
    surf_module_end(&it);
    return said;
}
