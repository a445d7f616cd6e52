/* Right: a dataset of 1 GiB of which each rank writes its last four values, opened again. */
#include "../tests/test.h"

int main(int argc, char **argv)
{
    const MPI_Offset length = (MPI_Offset)1 << 27, count = 4;
    int rank, ranks, ncid, dim, heat;
    double values[4];
    begin(&argc, &argv, &rank, &ranks);
    OK(ncmpi_create(MPI_COMM_WORLD, argv[1], NC_CLOBBER | NC_64BIT_DATA, MPI_INFO_NULL, &ncid));
    OK(ncmpi_def_dim(ncid, "x", length, &dim));
    OK(ncmpi_def_var(ncid, "heat", NC_DOUBLE, 1, &dim, &heat));
    OK(ncmpi_enddef(ncid));
    MPI_Offset start = length - count * (rank + 1);
    for (int i = 0; i < 4; i++)
        values[i] = rank + 0.25 * i;
    OK(ncmpi_put_vara_double_all(ncid, heat, &start, &count, values));
    OK(ncmpi_close(ncid));
    OK(ncmpi_open(MPI_COMM_WORLD, argv[1], NC_NOWRITE, MPI_INFO_NULL, &ncid));
    OK(ncmpi_get_vara_double_all(ncid, heat, &start, &count, values));
    OK(ncmpi_close(ncid));
    MPI_Finalize();
    return 0;
}
