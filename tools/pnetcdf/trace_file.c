/* The files of this rank's trace: its lines, which are written whole and one at a time, and the values that they name by place. */
#define _GNU_SOURCE
#include "trace.h"

#include <dlfcn.h>
#include <errno.h>
#include <fcntl.h>
#include <pthread.h>
#include <stdio.h>
#include <stdlib.h>
#include <string.h>
#include <time.h>
#include <unistd.h>

enum { PATH_ROOM = 4096 };

typedef enum { UNBEGUN, BEGUN, BROKEN, ENDED } State;

/* What the threads share, under the lock. */
static pthread_mutex_t lock = PTHREAD_MUTEX_INITIALIZER;
static _Atomic State state;
static int lines = -1, values = -1;     /* descriptors of the two files */
static long long stored;                /* bytes in the file of values */
static bool wanted;                     /* whether values are */
static double began;                    /* by the clock that nobody sets */

void *real_call(const char *name)
{
    void *found = dlsym(RTLD_NEXT, name);
    if (found == NULL) {
        fprintf(stderr, "nctrace: no %s behind this library: is PnetCDF a shared library here?\n", name);
        abort();
    }
    return found;
}

double seconds_of(clockid_t clock)
{
    struct timespec time;
    clock_gettime(clock, &time);
    return (double)time.tv_sec + 1e-9 * (double)time.tv_nsec;
}

double trace_time(void)
{
    return seconds_of(CLOCK_MONOTONIC) - began;
}

static void give_up(const char *path)
{
    fprintf(stderr, "nctrace: %s: %s: nothing more is traced\n", path, strerror(errno));
    state = BROKEN;
}

static bool write_whole(int to, const char *bytes, size_t length)
{
    while (length > 0) {
        ssize_t done = write(to, bytes, length);
        if (done < 0 && errno == EINTR)
            continue;
        if (done < 0)
            return false;
        bytes += done;
        length -= (size_t)done;
    }
    return true;
}

/* ---- the files */

/* A path from the root, where the folder is known: it holds from the first call on, whatever folder the program goes to then. */
const char *trace_name(void)
{
    static char name[2 * PATH_ROOM];
    char folder[PATH_ROOM] = "";
    const char *prefix = getenv("NCTRACE");
    int rank;
    if (name[0] != '\0')
        return name;
    if (prefix == NULL || *prefix == '\0')
        prefix = "nctrace";
    MPI_Comm_rank(MPI_COMM_WORLD, &rank);
    if (prefix[0] != '/' && getcwd(folder, sizeof folder) == NULL)
        strcpy(folder, ".");
    snprintf(name, sizeof name, "%s%s%s.%d", folder, folder[0] != '\0' ? "/" : "", prefix, rank);
    return name;
}

bool values_wanted(void)
{
    return wanted;
}

/* Open MPI and Slurm name each run. */
void name_run(char *name, size_t room)
{
    const char *space = getenv("PMIX_NAMESPACE"), *job = getenv("SLURM_JOB_ID"), *step = getenv("SLURM_STEP_ID");
    if (space != NULL)
        snprintf(name, room, "%s", space);
    else if (job != NULL && step != NULL)
        snprintf(name, room, "%s.%s", job, step);
    else
        name[0] = '\0';
}

/* Files that an earlier run left under this rank's name say nothing of this run. */
static void remove_old(void)
{
    char path[2 * PATH_ROOM + 32];
    snprintf(path, sizeof path, "%s.values", trace_name());
    unlink(path);
    for (int i = 0; i == 0 || unlink(path) == 0; i++)
        snprintf(path, sizeof path, "%s.before.%d", trace_name(), i);
}

static bool values_switched_on(void)
{
    const char *said = getenv("NCTRACE_VALUES");
    if (said == NULL || *said == '\0' || strcmp(said, "on") == 0)
        return true;
    if (strcmp(said, "off") != 0)
        fprintf(stderr, "nctrace: NCTRACE_VALUES is %s, neither on nor off: values are traced\n", said);
    return strcmp(said, "off") != 0;
}

bool begin_trace(void)
{
    char path[2 * PATH_ROOM + 32];
    remove_old();
    wanted = values_switched_on();
    began = seconds_of(CLOCK_MONOTONIC);
    lines = open(trace_name(), O_WRONLY | O_CREAT | O_TRUNC | O_CLOEXEC, 0666);
    snprintf(path, sizeof path, "%s.values", trace_name());
    if (lines >= 0 && wanted)
        values = open(path, O_WRONLY | O_CREAT | O_TRUNC | O_CLOEXEC, 0666);
    if (lines < 0 || (wanted && values < 0)) {
        give_up(lines < 0 ? trace_name() : path);
        return false;
    }
    state = BEGUN;
    return true;
}

bool tracing(void)
{
    return state == BEGUN;
}

bool trace_unbegun(void)
{
    return state == UNBEGUN;
}

void write_trace(const char *line, size_t length)
{
    pthread_mutex_lock(&lock);
    if (state == BEGUN && !write_whole(lines, line, length))
        give_up(trace_name());
    pthread_mutex_unlock(&lock);
}

long long store_values(const void *bytes, size_t length)
{
    pthread_mutex_lock(&lock);
    long long at = stored;
    if (state != BEGUN || values < 0)
        at = -1;
    else if (write_whole(values, bytes, length))
        stored += (long long)length;
    else {
        give_up("the file of values");
        at = -1;
    }
    pthread_mutex_unlock(&lock);
    return at;
}

void end_trace(const char *how)
{
    char line[128];
    pthread_mutex_lock(&lock);
    if (state == BEGUN) {
        int length = snprintf(line, sizeof line, "{\"end\":true,\"time\":%.6f%s}\n", trace_time(), how);
        if (!write_whole(lines, line, (size_t)length))
            give_up(trace_name());
        state = ENDED;
    }
    pthread_mutex_unlock(&lock);
}

__attribute__((destructor)) static void at_exit(void)
{
    end_trace(",\"finalized\":false");
}
