/* What bench/parts.c notes of a program and bench/measure.c tells: nanoseconds of the monotonic clock, or 0. */
#include <stdatomic.h>
#include <time.h>

struct parts {
    atomic_long opened;      /* the dataset was opened */
    atomic_long last;        /* the last read or write of it, or change of its length, ended */
};

static inline long nanoseconds(void)
{
    struct timespec at;
    clock_gettime(CLOCK_MONOTONIC, &at);
    return at.tv_sec * 1000000000L + at.tv_nsec;
}
