/* Prints a least basis of the mesh in a file, where each edge has the length 1.

       basis MESH

   The status is that of surf. */
#include "surf.h"

#include <stdio.h>
#include <stdlib.h>
#include <string.h>

static uint8_t *read_file(const char *name, size_t *size) {
    FILE *file = fopen(name, "rb");
    if (!file) return NULL;
    size_t room = 1 << 16;
    uint8_t *bytes = malloc(room);
    *size = 0;
    while (bytes) {
        *size += fread(bytes + *size, 1, room - *size, file);
        if (*size < room) break;
        room *= 2;
        uint8_t *more = realloc(bytes, room);
        if (!more) free(bytes);
        bytes = more;
    }
    fclose(file);
    return bytes;
}

int main(int count, char **words) {
    const char *command = "basis 1 unit";
    const uint8_t none[1] = {0};
    size_t size, room = 1 << 16;
    uint8_t *mesh = count == 2 ? read_file(words[1], &size) : NULL;
    if (!mesh) {
        fprintf(stderr, "usage: basis MESH\n");
        return 2;
    }
    for (;;) {
        uint8_t *text = malloc(room);
        if (!text) return 11;
        surf_said said = surf_call((const uint8_t *)command, strlen(command), mesh, size, none, 0, none, 0, text, room);
        if (said.size <= room) {
            fwrite(text, 1, said.size, said.status < 2 ? stdout : stderr);
            free(text);
            free(mesh);
            return said.status;
        }
        free(text);
        room = said.size;
    }
}
