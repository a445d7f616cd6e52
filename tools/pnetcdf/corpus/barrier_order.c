/* Rank 1 puts, and rank 0 gets it after a barrier, in independent mode: MPI promises no order there, PnetCDF none either. */
#include "../tests/test.h"

int main(int argc, char **argv)
{
    int rank, ranks, ncid, dim, heat;
    begin(&argc, &argv, &rank, &ranks);
    OK(ncmpi_create(MPI_COMM_WORLD, argv[1], NC_CLOBBER, MPI_INFO_NULL, &ncid));
    OK(ncmpi_def_dim(ncid, "x", ranks, &dim));
    OK(ncmpi_def_var(ncid, "heat", NC_INT, 1, &dim, &heat));
    OK(ncmpi_enddef(ncid));
    OK(ncmpi_begin_indep_data(ncid));
    MPI_Offset start = 0;
    int value = 11, got = -1;
    if (rank == 1)
        OK(ncmpi_put_var1_int(ncid, heat, &start, &value));
    MPI_Barrier(MPI_COMM_WORLD);
    if (rank == 0)
        OK(ncmpi_get_var1_int(ncid, heat, &start, &got));
    OK(ncmpi_end_indep_data(ncid));
    OK(ncmpi_close(ncid));
    MPI_Finalize();
    return 0;
}
