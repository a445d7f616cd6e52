/* Each rank appends records of its own in independent mode, some by a stride, and all read the record count afterwards. */
#include "test.h"

int main(int argc, char **argv)
{
    int rank, ranks, ncid, dims[2], log, value[3];
    MPI_Offset length;
    begin(&argc, &argv, &rank, &ranks);
    OK(ncmpi_create(MPI_COMM_WORLD, argv[1], NC_CLOBBER, MPI_INFO_NULL, &ncid));
    OK(ncmpi_def_dim(ncid, "entry", NC_UNLIMITED, &dims[0]));
    OK(ncmpi_def_dim(ncid, "part", 3, &dims[1]));
    OK(ncmpi_def_var(ncid, "log", NC_INT, 2, dims, &log));
    OK(ncmpi_enddef(ncid));
    OK(ncmpi_begin_indep_data(ncid));
    for (int n = 0; n < 3; n++) {
        MPI_Offset start[2] = {n * ranks + rank, 0}, count[2] = {1, 2}, stride[2] = {1, 2};
        value[0] = 10 * rank + n;
        value[1] = -value[0];
        OK(ncmpi_put_vars_int(ncid, log, start, count, stride, value));
        start[1] = 1;
        OK(ncmpi_put_var1_int(ncid, log, start, &n));
    }
    OK(ncmpi_end_indep_data(ncid));
    OK(ncmpi_inq_dimlen(ncid, dims[0], &length));
    MPI_Offset start[2] = {length - 1 - rank, 0}, count[2] = {1, 3};
    OK(ncmpi_get_vara_int_all(ncid, log, start, count, value));
    OK(ncmpi_close(ncid));
    MPI_Finalize();
    return 0;
}
