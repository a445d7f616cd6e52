/* Broken: the ranks put values that a short doesn't hold, and rank 1 waits for one of its two requests. */
#include "test.h"

int main(int argc, char **argv)
{
    int rank, ranks, ncid, dim, counts, requests[2], statuses[2], values[2];
    begin(&argc, &argv, &rank, &ranks);
    OK(ncmpi_create(MPI_COMM_WORLD, argv[1], NC_CLOBBER, MPI_INFO_NULL, &ncid));
    OK(ncmpi_def_dim(ncid, "x", 4 * ranks, &dim));
    OK(ncmpi_def_var(ncid, "counts", NC_SHORT, 1, &dim, &counts));
    OK(ncmpi_enddef(ncid));
    MPI_Offset start = 4 * rank, next = start + 2, count = 2;
    values[0] = 1000 * rank;
    values[1] = 30000 + 1000 * rank;
    OK(ncmpi_put_vara_int_all(ncid, counts, &start, &count, values));
    values[1] = 7;
    OK(ncmpi_iput_var1_int(ncid, counts, &next, &values[0], &requests[0]));
    next++;
    OK(ncmpi_iput_var1_int(ncid, counts, &next, &values[1], &requests[1]));
    OK(ncmpi_wait_all(ncid, rank == 1 ? 1 : 2, requests, statuses));
    OK(ncmpi_close(ncid));
    MPI_Finalize();
    return 0;
}
