/* A library that bench/measure loads before the program that it measures. It notes when the dataset was opened, and when the last call on it ended:
   before the first the script is read, and behind the second the text is made. Of a program's files only the dataset is read and written by place.

     PARTS            the number of the open file that takes what is noted
     PARTS_DATASET    the dataset's path */
#define _GNU_SOURCE
#include "parts.h"
#include <dlfcn.h>
#include <fcntl.h>
#include <stdarg.h>
#include <stdlib.h>
#include <string.h>
#include <sys/mman.h>
#include <unistd.h>

static struct parts *parts;
static const char *dataset;

__attribute__((constructor)) static void begin(void)
{
    const char *number = getenv("PARTS");
    dataset = getenv("PARTS_DATASET");
    if (number == NULL || dataset == NULL)
        return;
    void *place = mmap(NULL, sizeof *parts, PROT_READ | PROT_WRITE, MAP_SHARED, atoi(number), 0);
    parts = place == MAP_FAILED ? NULL : place;
}

static int opening(const char *path, int file)
{
    if (parts != NULL && parts->opened == 0 && file >= 0 && strcmp(path, dataset) == 0)
        parts->opened = nanoseconds();
    return file;
}

static ssize_t done(ssize_t result)
{
    if (parts != NULL)
        parts->last = nanoseconds();
    return result;
}

static mode_t mode_of(int flags, va_list more)
{
    return flags & O_CREAT ? va_arg(more, mode_t) : 0;
}

/* Finds the call of that name which the program would have made. */
#define FIND(name)                                                  \
    if (next == NULL)                                               \
        next = (__typeof__(next))dlsym(RTLD_NEXT, #name)

#define OPEN(name)                                                  \
    int name(const char *path, int flags, ...)                      \
    {                                                               \
        static int (*next)(const char *, int, ...);                 \
        va_list more;                                               \
        va_start(more, flags);                                      \
        mode_t mode = mode_of(flags, more);                         \
        va_end(more);                                               \
        FIND(name);                                                 \
        return opening(path, next(path, flags, mode));              \
    }

#define OPEN_AT(name)                                               \
    int name(int folder, const char *path, int flags, ...)          \
    {                                                               \
        static int (*next)(int, const char *, int, ...);            \
        va_list more;                                               \
        va_start(more, flags);                                      \
        mode_t mode = mode_of(flags, more);                         \
        va_end(more);                                               \
        FIND(name);                                                 \
        return opening(path, next(folder, path, flags, mode));      \
    }

#define READ(name)                                                  \
    ssize_t name(int file, void *bytes, size_t len, off_t at)       \
    {                                                               \
        static ssize_t (*next)(int, void *, size_t, off_t);         \
        FIND(name);                                                 \
        return done(next(file, bytes, len, at));                    \
    }

#define WRITE(name)                                                 \
    ssize_t name(int file, const void *bytes, size_t len, off_t at) \
    {                                                               \
        static ssize_t (*next)(int, const void *, size_t, off_t);   \
        FIND(name);                                                 \
        return done(next(file, bytes, len, at));                    \
    }

#define LENGTHEN(name)                                              \
    int name(int file, off_t len)                                   \
    {                                                               \
        static int (*next)(int, off_t);                             \
        FIND(name);                                                 \
        return (int)done(next(file, len));                          \
    }

OPEN(open)
OPEN(open64)
OPEN_AT(openat)
OPEN_AT(openat64)
READ(pread)
READ(pread64)
WRITE(pwrite)
WRITE(pwrite64)
LENGTHEN(ftruncate)
LENGTHEN(ftruncate64)
