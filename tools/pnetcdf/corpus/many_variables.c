/* Right: a put of two variables by one call, and a put and a get whose region is an MPI type: every rank the columns of its number. */
#include "../tests/test.h"

enum { ROWS = 3, WIDTH = 2 };

static void put_columns(int ncid, int var, int rank, int ranks)
{
    const int whole[2] = {ROWS, WIDTH * ranks}, part[2] = {ROWS, WIDTH}, first[2] = {0, WIDTH * rank};
    int values[ROWS * WIDTH], got[ROWS * WIDTH];
    MPI_Datatype columns;
    for (int i = 0; i < ROWS * WIDTH; i++)
        values[i] = 10 * rank + i;
    MPI_Type_create_subarray(2, whole, part, first, MPI_ORDER_C, MPI_INT, &columns);
    MPI_Type_commit(&columns);
    OK(ncmpi_put_vard_all(ncid, var, columns, values, ROWS * WIDTH, MPI_INT));
    OK(ncmpi_get_vard_all(ncid, var, columns, got, ROWS * WIDTH, MPI_INT));
    MPI_Type_free(&columns);
}

int main(int argc, char **argv)
{
    int rank, ranks, ncid, dims[2], vars[3];
    begin(&argc, &argv, &rank, &ranks);
    OK(ncmpi_create(MPI_COMM_WORLD, argv[1], NC_CLOBBER, MPI_INFO_NULL, &ncid));
    OK(ncmpi_def_dim(ncid, "y", ROWS, &dims[0]));
    OK(ncmpi_def_dim(ncid, "x", WIDTH * ranks, &dims[1]));
    OK(ncmpi_def_var(ncid, "first", NC_INT, 2, dims, &vars[0]));
    OK(ncmpi_def_var(ncid, "second", NC_INT, 2, dims, &vars[1]));
    OK(ncmpi_def_var(ncid, "third", NC_INT, 2, dims, &vars[2]));
    OK(ncmpi_enddef(ncid));
    MPI_Offset start[2] = {0, WIDTH * rank}, count[2] = {1, WIDTH}, other[2] = {2, WIDTH * rank};
    MPI_Offset *starts[2] = {start, other}, *counts[2] = {count, count};
    int one[WIDTH] = {rank, -rank}, two[WIDTH] = {7, rank}, *buffers[2] = {one, two};
    OK(ncmpi_mput_vara_int_all(ncid, 2, vars, starts, counts, buffers));
    OK(ncmpi_mget_vara_int_all(ncid, 2, vars, starts, counts, buffers));
    put_columns(ncid, vars[2], rank, ranks);
    OK(ncmpi_close(ncid));
    MPI_Finalize();
    return 0;
}
