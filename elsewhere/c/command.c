/* The command: the program's words, with files of the system, over surf_run. */
#if !defined(_WIN32)
#define _FILE_OFFSET_BITS 64
#endif
#include "run.h"

#include "file_words.h" /* the rows of --help that name files, as `surf_rows` */

#include <stdio.h>
#include <stdlib.h>
#include <string.h>

#define MOST_TEXT 268435456u /* `text` in docs/formats.md. A longer one is refused, so one byte more is read. */
#define MOST_ROOM (1u << 30) /* The program gives no longer answer. */
#define USAGE_ROOM 4096u
#define FILES 3

enum { NO = 1, USAGE = 2, OUTPUT = 10, MEMORY = 11 };

/* A file that a word names: not looked for yet, read, not to be read, or read in part for want of memory. */
typedef enum { UNREAD, READ, UNREADABLE, NO_MEMORY } state;

typedef struct {
    int count;
    char **words;
    const char *row; /* of the table, or none where the words fit to none that names files */
    surf_bytes given[1 + FILES];
    state files[FILES];
} command;

static int out_of_memory(void) {
    fputs("memory\n", stderr);
    return MEMORY;
}

/* ---- words */

/* Whether words are those of a row, in which a name that the user gives has at most two letters. */
static int fits(const char *row, int count, char **words) {
    int k;
    for (k = 1; k < count; k++) {
        size_t size = strcspn(row, " ");
        if (!size || (size > 2 && (strlen(words[k]) != size || memcmp(words[k], row, size)))) return 0;
        row += size + (row[size] == ' ');
    }
    return !*row;
}

static const char *row_of(int count, char **words) {
    size_t k;
    for (k = 0; k < sizeof surf_rows / sizeof *surf_rows; k++)
        if (fits(surf_rows[k], count, words)) return surf_rows[k];
    return NULL;
}

static int goes_on(uint8_t byte) { return (byte & 0xc0) == 0x80; }

/* Of how many bytes the character here is, or 0 where it is none of UTF-8. */
static size_t character(const uint8_t *at) {
    if (*at < 0x80) return 1;
    if (*at >= 0xc2 && *at < 0xe0) return goes_on(at[1]) ? 2 : 0;
    if (*at >= 0xe0 && *at < 0xf0) {
        int is_short = *at == 0xe0 && at[1] < 0xa0, is_surrogate = *at == 0xed && at[1] > 0x9f;
        return goes_on(at[1]) && goes_on(at[2]) && !is_short && !is_surrogate ? 3 : 0;
    }
    if (*at >= 0xf0 && *at < 0xf5) {
        int is_short = *at == 0xf0 && at[1] < 0x90, is_great = *at == 0xf4 && at[1] > 0x8f;
        return goes_on(at[1]) && goes_on(at[2]) && goes_on(at[3]) && !is_short && !is_great ? 4 : 0;
    }
    return 0;
}

static int is_text(const char *word) {
    const uint8_t *at = (const uint8_t *)word;
    while (*at) {
        size_t size = character(at);
        if (!size) return 0;
        at += size;
    }
    return 1;
}

/* Whether word k names a file. Words that are no text don't: with them the program reads none. */
static int names_file(const command *it, int k) {
    const char *name = it->row;
    int before;
    if (!name) return 0;
    for (before = 1; before < k; before++) name += strcspn(name, " ") + 1;
    if (strcspn(name, " ") > 2 || *name < 'A' || *name > 'Z' || !is_text(it->words[k])) return 0;
    return *name != 'L' || strcmp(it->words[k], "unit");
}

/* A word that names no file, as a call may have it: no word of the table is empty or has a blank. */
static const char *plain(const char *word) { return *word && !strpbrk(word, " \t\r") ? word : "?"; }

/* The words of a call. Files that were read are named by 1, 2 and 3, others by 4, which no call can read. */
static char *words_of(const command *it) {
    static const char *const names[FILES] = {"1", "2", "3"};
    size_t size = 1;
    int k, file = 0;
    char *text;
    for (k = 1; k < it->count; k++) size += strlen(it->words[k]) + 2;
    text = malloc(size);
    if (!text) return NULL;
    *text = 0;
    for (k = 1; k < it->count; k++) {
        const char *word = plain(it->words[k]);
        if (names_file(it, k)) {
            word = it->files[file] == READ ? names[file] : "4";
            file++;
        }
        strcat(text, word);
        strcat(text, " ");
    }
    return text;
}

/* ---- files */

#ifdef _WIN32
#include <fcntl.h>
#include <io.h>
#include <wchar.h>
#include <windows.h>

static FILE *file_named(const char *name) {
    FILE *file = NULL;
    int size = MultiByteToWideChar(CP_UTF8, 0, name, -1, NULL, 0);
    wchar_t *wide = malloc(sizeof *wide * (size_t)(size ? size : 1));
    if (wide && size && MultiByteToWideChar(CP_UTF8, 0, name, -1, wide, size)) file = _wfopen(wide, L"rb");
    free(wide);
    return file;
}
#else
static FILE *file_named(const char *name) { return fopen(name, "rb"); }
#endif

/* Reads what is left of a file, up to one byte more than a text may have. Nothing where there is no memory for it. */
static uint8_t *read_whole(FILE *file, size_t *size) {
    size_t room = 1 << 16;
    uint8_t *bytes = malloc(room);
    for (*size = 0; bytes;) {
        uint8_t *more;
        *size += fread(bytes + *size, 1, room - *size, file);
        if (*size < room || *size > MOST_TEXT) return bytes;
        room = room < MOST_TEXT / 2 ? 2 * room : (size_t)MOST_TEXT + 1;
        more = realloc(bytes, room);
        if (!more) free(bytes);
        bytes = more;
    }
    return NULL;
}

static state read_file(const char *name, surf_bytes *into) {
    int is_bad;
    FILE *file = file_named(name);
    if (!file) return UNREADABLE;
    into->bytes = read_whole(file, &into->size);
    is_bad = ferror(file);
    fclose(file);
    if (!is_bad) return into->bytes ? READ : NO_MEMORY;
    free((void *)into->bytes);
    return UNREADABLE;
}

/* ---- calls */

static void to_streams(void *to, int status, const uint8_t *text, size_t size) {
    FILE *stream = status < USAGE ? stdout : stderr;
    *(int *)to = status;
    if ((fwrite(text, 1, size, stream) == size && !fflush(stream)) || status >= USAGE) return;
    fputs("write fault\n", stderr);
    *(int *)to = OUTPUT;
}

static void to_nowhere(void *to, int status, const uint8_t *text, size_t size) {
    *(int *)to = status;
    (void)text, (void)size;
}

static int called(command *it, size_t room, surf_writer write) {
    int end = 0;
    char *text = words_of(it);
    if (!text) return out_of_memory();
    it->given[0].bytes = (const uint8_t *)text;
    it->given[0].size = strlen(text);
    surf_run(it->given, room, write, &end);
    free(text);
    return end;
}

/* Reads the files that words name, in their order, up to the first for which there is no memory. */
static int has_read(command *it) {
    int k, file = 0;
    for (k = 1; k < it->count && file < FILES; k++) {
        if (!names_file(it, k)) continue;
        it->files[file] = read_file(it->words[k], &it->given[1 + file]);
        if (it->files[file++] == NO_MEMORY) return 0;
    }
    return 1;
}

static int run(int count, char **words) {
    static const uint8_t none[1];
    command it;
    int status, file;
    it.count = count;
    it.words = words;
    it.row = row_of(count, words);
    for (file = 0; file <= FILES; file++) it.given[file].bytes = none, it.given[file].size = 0;
    for (file = 0; file < FILES; file++) it.files[file] = UNREAD;
    /* Words of a wrong form are refused before any file is opened. */
    if (it.row && called(&it, USAGE_ROOM, to_nowhere) == USAGE) return called(&it, USAGE_ROOM, to_streams);
    status = has_read(&it) ? called(&it, MOST_ROOM, to_streams) : out_of_memory();
    for (file = 0; file < FILES; file++)
        if (it.files[file] == READ) free((void *)it.given[1 + file].bytes);
    return status;
}

#ifdef _WIN32
int wmain(int count, wchar_t **wide);
int wmain(int count, wchar_t **wide) {
    char **words = calloc((size_t)count + 1, sizeof *words);
    int k;
    _setmode(_fileno(stdout), _O_BINARY);
    _setmode(_fileno(stderr), _O_BINARY);
    if (!words) return out_of_memory();
    for (k = 0; k < count; k++) {
        int size = WideCharToMultiByte(CP_UTF8, 0, wide[k], -1, NULL, 0, NULL, NULL);
        words[k] = malloc((size_t)size + 1);
        if (!words[k]) return out_of_memory();
        WideCharToMultiByte(CP_UTF8, 0, wide[k], -1, words[k], size, NULL, NULL);
    }
    return run(count, words);
}
#else
#include <signal.h>

int main(int count, char **words) {
    signal(SIGPIPE, SIG_IGN); /* A reader that is gone is a write fault. */
    return run(count, words);
}
#endif
