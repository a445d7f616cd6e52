/* Right: two threads of each rank, each with a dataset of its own, whose calls come in turns. */
#include "../tests/test.h"

#include <pthread.h>

enum { THREADS = 2, STEPS = 4 };

static pthread_mutex_t turn = PTHREAD_MUTEX_INITIALIZER;
static const char *path;
static int rank;

/* Debian's PnetCDF isn't safe for threads, so one call is made at a time. */
#define ALONE(call)                 \
    do {                            \
        pthread_mutex_lock(&turn);  \
        OK(call);                   \
        pthread_mutex_unlock(&turn); \
    } while (0)

static void *write_one(void *number)
{
    char name[4096];
    int thread = *(int *)number, ncid, dim, steps, request, status;
    snprintf(name, sizeof name, "%s.%d.%d", path, rank, thread);
    ALONE(ncmpi_create(MPI_COMM_SELF, name, NC_CLOBBER, MPI_INFO_NULL, &ncid));
    ALONE(ncmpi_def_dim(ncid, "step", STEPS, &dim));
    ALONE(ncmpi_def_var(ncid, "steps", NC_INT, 1, &dim, &steps));
    ALONE(ncmpi_enddef(ncid));
    for (int i = 0; i < STEPS; i++) {
        MPI_Offset start = i;
        int value = 100 * rank + 10 * thread + i, got = -1;
        ALONE(ncmpi_put_var1_int_all(ncid, steps, &start, &value));
        ALONE(ncmpi_iget_var1_int(ncid, steps, &start, &got, &request));
        ALONE(ncmpi_wait_all(ncid, 1, &request, &status));
    }
    ALONE(ncmpi_close(ncid));
    return NULL;
}

int main(int argc, char **argv)
{
    int provided, numbers[THREADS];
    pthread_t threads[THREADS];
    MPI_Init_thread(&argc, &argv, MPI_THREAD_MULTIPLE, &provided);
    MPI_Comm_rank(MPI_COMM_WORLD, &rank);
    path = argc > 1 ? argv[1] : "threads.nc";
    for (int i = 0; i < THREADS; i++) {
        numbers[i] = i;
        pthread_create(&threads[i], NULL, write_one, &numbers[i]);
    }
    for (int i = 0; i < THREADS; i++)
        pthread_join(threads[i], NULL);
    MPI_Finalize();
    return 0;
}
