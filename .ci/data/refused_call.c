// Preloaded, it refuses one device call. REFUSE says which: its name, its place or the size that it asks for, and of the calls with these the
// how manieth it is, counted from 1.
#define _GNU_SOURCE
#include <errno.h>
#include <stdatomic.h>
#include <stdio.h>
#include <stdlib.h>
#include <string.h>
#include <sys/syscall.h>
#include <sys/types.h>
#include <unistd.h>

static char refused[16];
static long long place;
static atomic_long left;

__attribute__((constructor)) static void begin(void) {
    const char *words = getenv("REFUSE");
    long number;
    if (words && sscanf(words, "%15s %lld %ld", refused, &place, &number) == 3)
        left = number;
}

static int is_refused(const char *name, off_t at) {
    if (strcmp(name, refused) != 0 || at != place || atomic_fetch_sub(&left, 1) != 1)
        return 0;
    errno = EIO;
    return 1;
}

ssize_t pread(int file, void *bytes, size_t len, off_t at) { return is_refused("pread64", at) ? -1 : syscall(SYS_pread64, file, bytes, len, at); }

ssize_t pwrite(int file, const void *bytes, size_t len, off_t at) { return is_refused("pwrite64", at) ? -1 : syscall(SYS_pwrite64, file, bytes, len, at); }

int ftruncate(int file, off_t size) { return is_refused("ftruncate", size) ? -1 : (int)syscall(SYS_ftruncate, file, size); }

ssize_t pread64(int file, void *bytes, size_t len, off_t at) { return pread(file, bytes, len, at); }

ssize_t pwrite64(int file, const void *bytes, size_t len, off_t at) { return pwrite(file, bytes, len, at); }

int ftruncate64(int file, off_t size) { return ftruncate(file, size); }
