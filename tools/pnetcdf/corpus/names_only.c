/* Right: asks for the names of dimensions alone, and ends the definitions again before each put, which PnetCDF refuses, as its C++ library does. */
#include "../tests/test.h"

int main(int argc, char **argv)
{
    int rank, ranks, ncid, dim, heat;
    char name[NC_MAX_NAME + 1];
    begin(&argc, &argv, &rank, &ranks);
    OK(ncmpi_create(MPI_COMM_WORLD, argv[1], NC_CLOBBER, MPI_INFO_NULL, &ncid));
    OK(ncmpi_def_dim(ncid, "x", ranks, &dim));
    OK(ncmpi_inq_dim(ncid, dim, name, NULL));
    OK(ncmpi_def_var(ncid, "heat", NC_INT, 1, &dim, &heat));
    OK(ncmpi_enddef(ncid));
    for (int i = 0; i < 2; i++) {
        MPI_Offset start = rank, count = 1;
        int value = 10 * i + rank;
        ncmpi_enddef(ncid);
        OK(ncmpi_inq_dim(ncid, dim, name, NULL));
        OK(ncmpi_put_vara_int_all(ncid, heat, &start, &count, &value));
    }
    OK(ncmpi_close(ncid));
    MPI_Finalize();
    return 0;
}
