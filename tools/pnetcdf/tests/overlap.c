/* Broken: each rank writes its four cells and the first one of its right neighbour, so two ranks put to one element. */
#include "test.h"

enum { CELLS = 4 };

int main(int argc, char **argv)
{
    int rank, ranks, ncid, dim, cell, cells[CELLS + 1];
    begin(&argc, &argv, &rank, &ranks);
    OK(ncmpi_create(MPI_COMM_WORLD, argv[1], NC_CLOBBER, MPI_INFO_NULL, &ncid));
    OK(ncmpi_def_dim(ncid, "x", ranks * CELLS, &dim));
    OK(ncmpi_def_var(ncid, "cell", NC_INT, 1, &dim, &cell));
    OK(ncmpi_enddef(ncid));
    MPI_Offset start = rank * CELLS, count = rank == ranks - 1 ? CELLS : CELLS + 1;
    for (int i = 0; i <= CELLS; i++)
        cells[i] = 10 * rank + i;
    OK(ncmpi_put_vara_int_all(ncid, cell, &start, &count, cells));
    OK(ncmpi_close(ncid));
    MPI_Finalize();
    return 0;
}
