/* Right: each rank puts and gets more values by one call than a call of a script holds. */
#include "../tests/test.h"

enum { CELLS = (1 << 20) + 3 };

int main(int argc, char **argv)
{
    static int cells[CELLS];
    int rank, ranks, ncid, dim, heat;
    begin(&argc, &argv, &rank, &ranks);
    OK(ncmpi_create(MPI_COMM_WORLD, argv[1], NC_CLOBBER, MPI_INFO_NULL, &ncid));
    OK(ncmpi_def_dim(ncid, "x", (MPI_Offset)CELLS * ranks, &dim));
    OK(ncmpi_def_var(ncid, "heat", NC_INT, 1, &dim, &heat));
    OK(ncmpi_enddef(ncid));
    for (int i = 0; i < CELLS; i++)
        cells[i] = i / 1000 + rank;
    MPI_Offset start = (MPI_Offset)CELLS * rank, count = CELLS;
    OK(ncmpi_put_vara_int_all(ncid, heat, &start, &count, cells));
    OK(ncmpi_get_vara_int_all(ncid, heat, &start, &count, cells));
    OK(ncmpi_close(ncid));
    MPI_Finalize();
    return 0;
}
