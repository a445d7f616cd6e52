/* Right: two thousand independent puts of each rank. */
#include "../tests/test.h"

enum { CALLS = 2000 };

int main(int argc, char **argv)
{
    int rank, ranks, ncid, dims[2], heat;
    begin(&argc, &argv, &rank, &ranks);
    OK(ncmpi_create(MPI_COMM_WORLD, argv[1], NC_CLOBBER, MPI_INFO_NULL, &ncid));
    OK(ncmpi_def_dim(ncid, "t", CALLS, &dims[0]));
    OK(ncmpi_def_dim(ncid, "x", ranks, &dims[1]));
    OK(ncmpi_def_var(ncid, "heat", NC_INT, 2, dims, &heat));
    OK(ncmpi_enddef(ncid));
    OK(ncmpi_begin_indep_data(ncid));
    for (int i = 0; i < CALLS; i++) {
        MPI_Offset index[2] = {i, rank};
        int value = i * ranks + rank;
        OK(ncmpi_put_var1_int(ncid, heat, index, &value));
    }
    OK(ncmpi_end_indep_data(ncid));
    OK(ncmpi_close(ncid));
    MPI_Finalize();
    return 0;
}
