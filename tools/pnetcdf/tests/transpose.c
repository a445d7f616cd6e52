/* Each rank writes its block of rows from memory that has them by columns, reads it back by rows, and the dataset, which is
   then opened again, by columns. */
#include "test.h"

enum { ROWS = 2, COLUMNS = 3 };

int main(int argc, char **argv)
{
    int rank, ranks, ncid, dims[2], grid, block[COLUMNS][ROWS];
    MPI_Offset stride[2] = {1, 1}, imap[2] = {1, ROWS};
    begin(&argc, &argv, &rank, &ranks);
    OK(ncmpi_create(MPI_COMM_WORLD, argv[1], NC_CLOBBER, MPI_INFO_NULL, &ncid));
    OK(ncmpi_def_dim(ncid, "y", ranks * ROWS, &dims[0]));
    OK(ncmpi_def_dim(ncid, "x", COLUMNS, &dims[1]));
    OK(ncmpi_def_var(ncid, "grid", NC_INT, 2, dims, &grid));
    OK(ncmpi_enddef(ncid));
    MPI_Offset start[2] = {rank * ROWS, 0}, count[2] = {ROWS, COLUMNS};
    for (int y = 0; y < ROWS; y++)
        for (int x = 0; x < COLUMNS; x++)
            block[x][y] = 100 * (rank * ROWS + y) + x;
    OK(ncmpi_put_varm_int_all(ncid, grid, start, count, stride, imap, &block[0][0]));
    OK(ncmpi_get_vara_int_all(ncid, grid, start, count, &block[0][0]));
    OK(ncmpi_close(ncid));
    OK(ncmpi_open(MPI_COMM_WORLD, argv[1], NC_NOWRITE, MPI_INFO_NULL, &ncid));
    OK(ncmpi_inq_varid(ncid, "grid", &grid));
    OK(ncmpi_get_varm_int_all(ncid, grid, start, count, stride, imap, &block[0][0]));
    OK(ncmpi_close(ncid));
    MPI_Finalize();
    return 0;
}
