/* Right: all ranks put the same time, as models do, and each its own cells. */
#include "../tests/test.h"

int main(int argc, char **argv)
{
    int rank, ranks, ncid, dims[2], time, heat;
    begin(&argc, &argv, &rank, &ranks);
    OK(ncmpi_create(MPI_COMM_WORLD, argv[1], NC_CLOBBER, MPI_INFO_NULL, &ncid));
    OK(ncmpi_def_dim(ncid, "t", NC_UNLIMITED, &dims[0]));
    OK(ncmpi_def_dim(ncid, "x", ranks, &dims[1]));
    OK(ncmpi_def_var(ncid, "time", NC_DOUBLE, 1, dims, &time));
    OK(ncmpi_def_var(ncid, "heat", NC_INT, 2, dims, &heat));
    OK(ncmpi_enddef(ncid));
    for (int t = 0; t < 2; t++) {
        MPI_Offset index[2] = {t, rank};
        double now = 0.5 * t;
        int value = 10 * t + rank;
        OK(ncmpi_put_var1_double_all(ncid, time, index, &now));
        OK(ncmpi_put_var1_int_all(ncid, heat, index, &value));
    }
    OK(ncmpi_close(ncid));
    MPI_Finalize();
    return 0;
}
