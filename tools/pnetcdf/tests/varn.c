/* Each rank posts the squares of a chessboard that are its own, many boxes in one request, and one wait of all ranks writes
   them; then each posts a get of a row, one of two squares of another row, and waits for both. */
#include "test.h"

enum { SIDE = 8 };

int main(int argc, char **argv)
{
    int rank, ranks, ncid, dims[2], board, row[SIDE], values[SIDE * SIDE], requests[2], statuses[2], parts = 0;
    MPI_Offset starts[SIDE * SIDE][2], counts[SIDE * SIDE][2], *start[SIDE * SIDE], *count[SIDE * SIDE];
    begin(&argc, &argv, &rank, &ranks);
    OK(ncmpi_create(MPI_COMM_WORLD, argv[1], NC_CLOBBER | NC_64BIT_OFFSET, MPI_INFO_NULL, &ncid));
    OK(ncmpi_def_dim(ncid, "y", SIDE, &dims[0]));
    OK(ncmpi_def_dim(ncid, "x", SIDE, &dims[1]));
    OK(ncmpi_def_var(ncid, "board", NC_SHORT, 2, dims, &board));
    OK(ncmpi_enddef(ncid));
    for (int square = 0; square < SIDE * SIDE; square++) {
        if ((square / SIDE + square) % ranks != rank)
            continue;
        starts[parts][0] = square / SIDE;
        starts[parts][1] = square % SIDE;
        counts[parts][0] = counts[parts][1] = 1;
        start[parts] = starts[parts];
        count[parts] = counts[parts];
        values[parts++] = 100 * rank + square;
    }
    OK(ncmpi_iput_varn_int(ncid, board, parts, start, count, values, &requests[0]));
    OK(ncmpi_wait_all(ncid, 1, requests, statuses));
    MPI_Offset from[2] = {rank % (SIDE / 2) + SIDE / 2, 0}, whole[2] = {1, SIDE};
    OK(ncmpi_iget_vara_int(ncid, board, from, whole, row, &requests[0]));
    OK(ncmpi_iget_varn_int(ncid, board, 2, start, count, values, &requests[1]));
    OK(ncmpi_wait_all(ncid, 2, requests, statuses));
    OK(ncmpi_close(ncid));
    MPI_Finalize();
    return 0;
}
