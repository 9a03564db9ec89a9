/* surf_run over surf_call: room for an answer comes from malloc. */
#include "run.h"

#include <stdlib.h>

#define LEAST_ROOM 4096u

static surf_said call(const surf_bytes given[4], uint8_t *room, size_t size) {
    return surf_call(given[0].bytes, given[0].size, given[1].bytes, given[1].size, given[2].bytes, given[2].size,
                     given[3].bytes, given[3].size, room, size);
}

static int no_memory(surf_writer write, void *to) {
    static const uint8_t line[] = "memory\n";
    write(to, 11, line, sizeof line - 1);
    return 11;
}

/* Room of this size, or of half of it and so on, where there is no such memory. */
static uint8_t *room_for(size_t *size) {
    for (;; *size /= 2) {
        uint8_t *room = malloc(*size);
        if (room || *size < LEAST_ROOM) return room;
    }
}

int surf_run(const surf_bytes given[4], size_t size, surf_writer write, void *to) {
    surf_said said;
    uint8_t *room = room_for(&size);
    if (!room) return no_memory(write, to);
    said = call(given, room, size);
    if (said.size > size) {
        free(room);
        room = malloc(said.size);
        if (!room) return no_memory(write, to);
        said = call(given, room, said.size);
    }
    write(to, said.status, room, said.size);
    free(room);
    return said.status;
}
