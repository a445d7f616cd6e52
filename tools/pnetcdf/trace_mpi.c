/* Calls of MPI itself: barriers, by which programs order calls that PnetCDF doesn't, and the end of a run. Fortran's are there too, since
   an MPI library's own may go past those of C. */
#define _GNU_SOURCE
#include "trace.h"

#include <dlfcn.h>
#include <stdlib.h>

/* The ranks of MPI_COMM_WORLD that share the communicator, in its order. */
void world_field(const char *name, MPI_Comm comm)
{
    MPI_Group world, group;
    int size;
    if (!line_open())
        return;
    MPI_Comm_size(comm, &size);
    MPI_Comm_group(MPI_COMM_WORLD, &world);
    MPI_Comm_group(comm, &group);
    int *ranks = malloc(2 * (size_t)size * sizeof *ranks);
    if (ranks != NULL) {
        for (int i = 0; i < size; i++)
            ranks[i] = i;
        MPI_Group_translate_ranks(group, size, ranks, world, ranks + size);
        ids_field(name, size, ranks + size);
        free(ranks);
    }
    MPI_Group_free(&group);
    MPI_Group_free(&world);
}

static bool begin_wait_of(MPI_Comm comm)
{
    int apart = 1;
    if (inside_call() || comm == MPI_COMM_NULL || MPI_Comm_test_inter(comm, &apart) != MPI_SUCCESS || apart)
        return false;
    begin_barrier();
    world_field("over", comm);
    call_made();
    return true;
}

int MPI_Barrier(MPI_Comm comm)
{
    bool begun = begin_wait_of(comm);
    int code = PMPI_Barrier(comm);
    if (begun)
        end_call(NC_NOERR);
    return code;
}

int MPI_Finalize(void)
{
    end_trace(",\"finalized\":true");
    return PMPI_Finalize();
}

int MPI_Abort(MPI_Comm comm, int code)
{
    end_trace(",\"aborted\":true");
    return PMPI_Abort(comm, code);
}

/* ---- Fortran */

typedef void (*Barrier)(const MPI_Fint *, MPI_Fint *);
typedef void (*Finalize)(MPI_Fint *);

static void barrier_of(const char *name, const MPI_Fint *comm, MPI_Fint *code)
{
    bool begun = begin_wait_of(MPI_Comm_f2c(*comm));
    ((Barrier)real_call(name))(comm, code);
    if (begun)
        end_call(NC_NOERR);
}

void mpi_barrier_(const MPI_Fint *comm, MPI_Fint *code)
{
    barrier_of("mpi_barrier_", comm, code);
}

void mpi_barrier_f08_(const MPI_Fint *comm, MPI_Fint *code)
{
    barrier_of("mpi_barrier_f08_", comm, code);
}

static void finalize_of(const char *name, MPI_Fint *code)
{
    end_trace(",\"finalized\":true");
    ((Finalize)real_call(name))(code);
}

void mpi_finalize_(MPI_Fint *code)
{
    finalize_of("mpi_finalize_", code);
}

void mpi_finalize_f08_(MPI_Fint *code)
{
    finalize_of("mpi_finalize_f08_", code);
}
