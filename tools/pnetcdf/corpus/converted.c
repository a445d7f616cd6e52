/* Right but for rank 3, whose values a short and a float don't hold: values that PnetCDF converts to and from float and double. */
#include "../tests/test.h"

int main(int argc, char **argv)
{
    int rank, ranks, ncid, dim, whole, real, wide;
    begin(&argc, &argv, &rank, &ranks);
    OK(ncmpi_create(MPI_COMM_WORLD, argv[1], NC_CLOBBER, MPI_INFO_NULL, &ncid));
    OK(ncmpi_def_dim(ncid, "x", 2 * ranks, &dim));
    OK(ncmpi_def_var(ncid, "whole", NC_SHORT, 1, &dim, &whole));
    OK(ncmpi_def_var(ncid, "real", NC_FLOAT, 1, &dim, &real));
    OK(ncmpi_def_var(ncid, "wide", NC_DOUBLE, 1, &dim, &wide));
    OK(ncmpi_enddef(ncid));
    MPI_Offset start = 2 * rank, count = 2;
    const float floats[2] = {-2.75f, rank == 3 ? 40000.f : 3.75f};
    const double doubles[2] = {0.1, rank == 3 ? 1e39 : 0.2};
    const int numbers[2] = {16777217 + rank, -5};
    int got[2];
    OK(ncmpi_put_vara_float_all(ncid, whole, &start, &count, floats));
    OK(ncmpi_put_vara_double_all(ncid, real, &start, &count, doubles));
    OK(ncmpi_put_vara_int_all(ncid, wide, &start, &count, numbers));
    OK(ncmpi_get_vara_int_all(ncid, wide, &start, &count, got));
    OK(ncmpi_close(ncid));
    MPI_Finalize();
    return 0;
}
