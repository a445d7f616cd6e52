/* Broken: the last rank has nothing to write in the second step and leaves the collective call out. */
#include "test.h"

enum { CELLS = 4 };

int main(int argc, char **argv)
{
    int rank, ranks, ncid, dims[2], heat, cells[CELLS] = {1, 2, 3, 4};
    begin(&argc, &argv, &rank, &ranks);
    OK(ncmpi_create(MPI_COMM_WORLD, argv[1], NC_CLOBBER, MPI_INFO_NULL, &ncid));
    OK(ncmpi_def_dim(ncid, "time", NC_UNLIMITED, &dims[0]));
    OK(ncmpi_def_dim(ncid, "cell", ranks * CELLS, &dims[1]));
    OK(ncmpi_def_var(ncid, "heat", NC_INT, 2, dims, &heat));
    OK(ncmpi_enddef(ncid));
    for (int t = 0; t < 2; t++) {
        MPI_Offset start[2] = {t, rank * CELLS}, count[2] = {1, CELLS};
        if (t == 1 && rank == ranks - 1)
            continue;
        OK(ncmpi_put_vara_int_all(ncid, heat, start, count, cells));
    }
    OK(ncmpi_close(ncid));
    MPI_Finalize();
    return 0;
}
