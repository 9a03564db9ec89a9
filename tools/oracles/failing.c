/* Lets calls of a program fail, for tools/oracles/hostile.py. It is preloaded and takes the place of the C library's allocator
 * and of its calls for files:
 *
 *     FAIL_ALLOC=N         the N-th allocation fails, counted from 1
 *     FAIL_ALLOC_FROM=N    the N-th allocation and all after it fail
 *     FAIL_READ=N          the N-th call that opens or reads a file fails
 *     FAIL_WRITE=N         the N-th write to standard output fails
 *     PIECE=N              a read or a write moves at most N bytes
 *     CALLS=F              at the end the numbers of allocations, of opens and reads, and of writes to standard output
 *                          are written to file F
 *
 * Calls before main, which the loader and the C library make for themselves, are not counted. */
#define _GNU_SOURCE
#include <dlfcn.h>
#include <errno.h>
#include <fcntl.h>
#include <stdarg.h>
#include <stddef.h>
#include <stdio.h>
#include <stdlib.h>
#include <sys/syscall.h>
#include <unistd.h>

extern void *__libc_malloc(size_t);
extern void *__libc_calloc(size_t, size_t);
extern void *__libc_realloc(void *, size_t);
extern void *__libc_memalign(size_t, size_t);

struct calls {
    unsigned long made, fail_at, fail_from;
};

static struct calls allocations, reads, writes;
static unsigned long piece;
static int counting;
static const char *count_file;

static unsigned long number_in(const char *name) {
    const char *text = getenv(name);
    return text ? strtoul(text, NULL, 10) : 0;
}

static int fails(struct calls *calls) {
    if (!counting) return 0;
    calls->made++;
    return calls->made == calls->fail_at || (calls->fail_from && calls->made >= calls->fail_from);
}

static void *refused(void) {
    errno = ENOMEM;
    return NULL;
}

void *malloc(size_t size) { return fails(&allocations) ? refused() : __libc_malloc(size); }

void *calloc(size_t count, size_t size) { return fails(&allocations) ? refused() : __libc_calloc(count, size); }

void *realloc(void *old, size_t size) { return fails(&allocations) ? refused() : __libc_realloc(old, size); }

void *memalign(size_t align, size_t size) { return fails(&allocations) ? refused() : __libc_memalign(align, size); }

void *aligned_alloc(size_t align, size_t size) { return memalign(align, size); }

int posix_memalign(void **place, size_t align, size_t size) {
    void *found = memalign(align, size);
    if (!found) return ENOMEM;
    *place = found;
    return 0;
}

static long failed(void) {
    errno = EIO;
    return -1;
}

static int opened(int folder, const char *name, int flags, va_list more) {
    int mode = flags & (O_CREAT | O_TMPFILE) ? va_arg(more, int) : 0;
    return (int)(fails(&reads) ? failed() : syscall(SYS_openat, folder, name, flags, mode));
}

#define OPENS(name, parameters, folder)                  \
    int name parameters {                                \
        va_list more;                                    \
        va_start(more, flags);                           \
        int file = opened(folder, path, flags, more);    \
        va_end(more);                                    \
        return file;                                     \
    }

OPENS(open, (const char *path, int flags, ...), AT_FDCWD)
OPENS(open64, (const char *path, int flags, ...), AT_FDCWD)
OPENS(openat, (int folder, const char *path, int flags, ...), folder)
OPENS(openat64, (int folder, const char *path, int flags, ...), folder)

static size_t at_once(size_t size) { return counting && piece && piece < size ? piece : size; }

ssize_t read(int file, void *into, size_t size) {
    return fails(&reads) ? failed() : syscall(SYS_read, file, into, at_once(size));
}

ssize_t write(int file, const void *bytes, size_t size) {
    if (file == STDOUT_FILENO && fails(&writes)) return failed();
    return syscall(SYS_write, file, bytes, at_once(size));
}

ssize_t __write(int file, const void *bytes, size_t size) { return write(file, bytes, size); }

/* Without allocating. */
static void tell(void) {
    counting = 0;
    if (!count_file) return;
    int file = open(count_file, O_WRONLY | O_CREAT | O_TRUNC, 0600);
    if (file < 0) return;
    char text[100];
    int size = snprintf(text, sizeof text, "%lu %lu %lu", allocations.made, reads.made, writes.made);
    if (write(file, text, (size_t)size) < size) { /* then the file is short */
    }
    close(file);
    count_file = NULL;
}

typedef int (*main_type)(int, char **, char **);
typedef int (*start_type)(main_type, int, char **, void (*)(void), void (*)(void), void (*)(void), void *);

static main_type real_main;

static int counted_main(int count, char **words, char **names) {
    counting = 1;
    int status = real_main(count, words, names);
    tell();
    return status;
}

int __libc_start_main(main_type program, int count, char **words, void (*init)(void), void (*fini)(void),
                      void (*loaded)(void), void *stack) {
    start_type start = (start_type)dlsym(RTLD_NEXT, "__libc_start_main");
    real_main = program;
    allocations.fail_at = number_in("FAIL_ALLOC");
    allocations.fail_from = number_in("FAIL_ALLOC_FROM");
    reads.fail_at = number_in("FAIL_READ");
    writes.fail_at = number_in("FAIL_WRITE");
    piece = number_in("PIECE");
    count_file = getenv("CALLS");
    atexit(tell);
    return start(counted_main, count, words, init, fini, loaded, stack);
}
