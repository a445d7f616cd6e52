/* Broken: the memory of a posted put is used again before the wait. */
#include "../tests/test.h"

enum { CELLS = 4096 };

int main(int argc, char **argv)
{
    static int cells[CELLS];
    int rank, ranks, ncid, dims[2], heat, requests[2], statuses[2];
    begin(&argc, &argv, &rank, &ranks);
    OK(ncmpi_create(MPI_COMM_WORLD, argv[1], NC_CLOBBER, MPI_INFO_NULL, &ncid));
    OK(ncmpi_def_dim(ncid, "t", 2, &dims[0]));
    OK(ncmpi_def_dim(ncid, "x", CELLS * ranks, &dims[1]));
    OK(ncmpi_def_var(ncid, "heat", NC_INT, 2, dims, &heat));
    OK(ncmpi_enddef(ncid));
    for (int t = 0; t < 2; t++) {
        MPI_Offset start[2] = {t, CELLS * rank}, count[2] = {1, CELLS};
        for (int i = 0; i < CELLS; i++)
            cells[i] = t + 1;
        OK(ncmpi_iput_vara_int(ncid, heat, start, count, cells, &requests[t]));
    }
    OK(ncmpi_wait_all(ncid, 2, requests, statuses));
    OK(ncmpi_close(ncid));
    MPI_Finalize();
    return 0;
}
