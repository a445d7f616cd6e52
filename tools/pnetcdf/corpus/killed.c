/* Ends amid a run: rank 1 is killed between two puts. */
#include "../tests/test.h"

#include <signal.h>

int main(int argc, char **argv)
{
    int rank, ranks, ncid, dim, heat;
    begin(&argc, &argv, &rank, &ranks);
    OK(ncmpi_create(MPI_COMM_WORLD, argv[1], NC_CLOBBER, MPI_INFO_NULL, &ncid));
    OK(ncmpi_def_dim(ncid, "x", ranks, &dim));
    OK(ncmpi_def_var(ncid, "heat", NC_INT, 1, &dim, &heat));
    OK(ncmpi_enddef(ncid));
    MPI_Offset start = rank;
    OK(ncmpi_put_var1_int_all(ncid, heat, &start, &rank));
    if (rank == 1)
        raise(SIGKILL);
    OK(ncmpi_put_var1_int_all(ncid, heat, &start, &rank));
    OK(ncmpi_close(ncid));
    MPI_Finalize();
    return 0;
}
