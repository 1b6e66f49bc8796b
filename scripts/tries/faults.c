/* Fails calls of a program, by LD_PRELOAD. FAULT=NAME:NUMBER:HOW fails the call NUMBER of NAME, counted from 1: HOW is the number of an
 * error, or `short`, which does one byte at most, or `end`, which does nothing and returns 0, or `kill`, which kills the program
 * there. A `close` that fails loses what was written. COUNTED=FILE stores how many calls of each name there were. */
#define _GNU_SOURCE
#include <dlfcn.h>
#include <errno.h>
#include <fcntl.h>
#include <signal.h>
#include <stdarg.h>
#include <stdio.h>
#include <stdlib.h>
#include <string.h>
#include <sys/stat.h>
#include <sys/syscall.h>
#include <sys/uio.h>
#include <unistd.h>

enum { OPEN, READ, WRITE, LSEEK, STATX, FSYNC, CHMOD, RENAME, CLOSE, MALLOC, REALLOC, ALIGNED, NAMES };
static const char *const names[NAMES] = {"open", "read", "write", "lseek", "statx", "fsync", "chmod", "rename", "close", "malloc", "realloc", "aligned"};
enum { PASS, FAIL, SHORT, END, KILL };

static unsigned long counts[NAMES];

/* What is to be done to this call of a name. */
static int fault(int name)
{
    static int failing = -1, how, error;
    static unsigned long number;
    char *given = failing == -1 ? getenv("FAULT") : NULL, called[16], what[16];
    if (failing == -1) {
        failing = NAMES;
        if (given && sscanf(given, "%15[^:]:%lu:%15s", called, &number, what) == 3) {
            for (int i = 0; i < NAMES; i++)
                if (!strcmp(called, names[i])) failing = i;
            error = atoi(what);
            how = !strcmp(what, "short") ? SHORT : !strcmp(what, "end") ? END : !strcmp(what, "kill") ? KILL : FAIL;
        }
    }
    if (++counts[name] != number || name != failing) return PASS;
    if (how == KILL) raise(SIGKILL);
    errno = error;
    return how;
}

/* Closes a file, and empties it if it was written. */
static void lose(int descriptor)
{
    if (syscall(SYS_lseek, descriptor, 0, SEEK_CUR) > 0) (void)!ftruncate(descriptor, 0);
    syscall(SYS_close, descriptor);
}

#define REAL(type, name, parameters) \
    static type (*real) parameters; \
    if (!real) real = (type (*) parameters)dlsym(RTLD_NEXT, name)

/* Defines a call, with what it does before it returns an error or nothing at all. */
#define CALL(type, name, kind, parameters, given, failed, last) \
    type name parameters \
    { \
        REAL(type, #name, parameters); \
        switch (fault(kind)) { \
        case FAIL: last; return failed; \
        case SHORT: case END: last; return 0; \
        default: return real given; \
        } \
    }

#define TRANSFER(name, kind, buffer) \
    ssize_t name(int descriptor, buffer, size_t size) \
    { \
        REAL(ssize_t, #name, (int, buffer, size_t)); \
        switch (fault(kind)) { \
        case FAIL: return -1; \
        case END: return 0; \
        case SHORT: return real(descriptor, bytes, size ? 1 : 0); \
        default: return real(descriptor, bytes, size); \
        } \
    }

#define OPENING(name) \
    int name(const char *file, int flags, ...) \
    { \
        REAL(int, #name, (const char *, int, ...)); \
        va_list more; \
        va_start(more, flags); \
        mode_t mode = flags & O_CREAT ? va_arg(more, mode_t) : 0; \
        va_end(more); \
        return fault(OPEN) ? -1 : real(file, flags, mode); \
    }

OPENING(open)
OPENING(open64)
TRANSFER(read, READ, void *bytes)
TRANSFER(write, WRITE, const void *bytes)
TRANSFER(__write, WRITE, const void *bytes)
CALL(off_t, lseek, LSEEK, (int descriptor, off_t offset, int whence), (descriptor, offset, whence), -1, (void)0)
CALL(int, statx, STATX, (int at, const char *restrict file, int flags, unsigned mask, struct statx *restrict into), (at, file, flags, mask, into), -1, (void)0)
CALL(int, fsync, FSYNC, (int descriptor), (descriptor), -1, (void)0)
CALL(int, fdatasync, FSYNC, (int descriptor), (descriptor), -1, (void)0)
CALL(int, chmod, CHMOD, (const char *file, mode_t mode), (file, mode), -1, (void)0)
CALL(int, rename, RENAME, (const char *from, const char *to), (from, to), -1, (void)0)
CALL(int, close, CLOSE, (int descriptor), (descriptor), -1, lose(descriptor))
CALL(void *, malloc, MALLOC, (size_t size), (size), NULL, (void)0)
CALL(void *, realloc, REALLOC, (void *block, size_t size), (block, size), NULL, (void)0)
CALL(void *, aligned_alloc, ALIGNED, (size_t alignment, size_t size), (alignment, size), NULL, (void)0)
CALL(int, posix_memalign, ALIGNED, (void **into, size_t alignment, size_t size), (into, alignment, size), ENOMEM, (void)0)

__attribute__((destructor)) static void store_counts(void)
{
    const char *file = getenv("COUNTED");
    FILE *to = file ? fopen(file, "w") : NULL;
    for (int i = 0; to && i < NAMES; i++)
        fprintf(to, "%s %lu\n", names[i], counts[i]);
    if (to) fclose(to);
}
