/* Makes calls that lie in a folder: caller FOLDER N
   Call k has the words k.words and the files k.1, k.2 and k.3, where they are there. Its status goes to k.status, its
   text to k.text. */
#include "surf.h"

#include <stdio.h>
#include <stdlib.h>
#include <string.h>

typedef struct {
    uint8_t *bytes;
    size_t size;
} text;

static void stop(const char *name) {
    perror(name);
    exit(3);
}

static FILE *opened(const char *folder, int k, const char *what, const char *how) {
    char name[1000];
    snprintf(name, sizeof name, "%s/%d.%s", folder, k, what);
    return fopen(name, how);
}

/* A file whole, or an empty text where it isn't there. */
static text read_whole(const char *folder, int k, const char *what) {
    text it = {NULL, 0};
    FILE *file = opened(folder, k, what, "rb");
    if (file) {
        fseek(file, 0, SEEK_END);
        it.size = (size_t)ftell(file);
        rewind(file);
    }
    it.bytes = malloc(it.size + 1);
    if (!it.bytes || (file && fread(it.bytes, 1, it.size, file) != it.size)) stop(what);
    if (file) fclose(file);
    return it;
}

static void put(const char *folder, int k, const char *what, const void *bytes, size_t size) {
    FILE *file = opened(folder, k, what, "wb");
    if (!file || fwrite(bytes, 1, size, file) != size || fclose(file)) stop(what);
}

/* Calls with a room that is too small for most answers at first, and with one that fits then. */
static surf_said call(const text given[4], text *room) {
    for (;;) {
        surf_said said = surf_call(given[0].bytes, given[0].size, given[1].bytes, given[1].size, given[2].bytes,
                                   given[2].size, given[3].bytes, given[3].size, room->bytes, room->size);
        if (said.size <= room->size) return said;
        room->size = said.size;
        room->bytes = realloc(room->bytes, room->size);
        if (!room->bytes) stop("room");
    }
}

static void make(const char *folder, int k) {
    static const char *const names[] = {"words", "1", "2", "3"};
    text given[4], room = {malloc(100), 100};
    surf_said said;
    char told[20];
    int place;
    if (!room.bytes) stop("room");
    for (place = 0; place < 4; place++) given[place] = read_whole(folder, k, names[place]);
    said = call(given, &room);
    snprintf(told, sizeof told, "%d", said.status);
    put(folder, k, "status", told, strlen(told));
    put(folder, k, "text", room.bytes, said.size);
    for (place = 0; place < 4; place++) free(given[place].bytes);
    free(room.bytes);
}

int main(int count, char **words) {
    int k, calls = count == 3 ? atoi(words[2]) : 0;
    for (k = 0; k < calls; k++) make(words[1], k);
    return count == 3 ? 0 : 2;
}
