/* A call whose answer is handed over without a room of the caller's. */
#ifndef SURF_RUN_H
#define SURF_RUN_H

#include "surf.h"

typedef struct {
    const uint8_t *bytes;
    size_t size;
} surf_bytes;

/* Takes a status and the text that goes with it, once in a call. */
typedef void (*surf_writer)(void *to, int status, const uint8_t *text, size_t size);

/* Does what surf_call does with words and three files, and gives the status. Of these bytes the room is at first, if
   there is memory for it. A longer answer costs a second call. */
int surf_run(const surf_bytes given[4], size_t room, surf_writer write, void *to);

#endif
