/* What the traced programs share: each takes the path of the dataset that it makes. */
#include <mpi.h>
#include <pnetcdf.h>
#include <stdbool.h>
#include <stdio.h>
#include <stdlib.h>

/* Says which call was refused and goes on: some programs are meant to be refused. */
#define OK(call) tell((call), #call)

static inline void tell(int code, const char *call)
{
    if (code != NC_NOERR)
        fprintf(stderr, "%.40s: %s\n", call, ncmpi_strerrno(code));
}

static inline void begin(int *argc, char ***argv, int *rank, int *ranks)
{
    MPI_Init(argc, argv);
    MPI_Comm_rank(MPI_COMM_WORLD, rank);
    MPI_Comm_size(MPI_COMM_WORLD, ranks);
    if (*argc != 2) {
        if (*rank == 0)
            fprintf(stderr, "usage: %s DATASET\n", (*argv)[0]);
        MPI_Abort(MPI_COMM_WORLD, 2);
    }
}
