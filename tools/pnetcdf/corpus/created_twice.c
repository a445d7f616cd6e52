/* Right: a dataset is created, closed, created anew with other contents, deleted, and created a third time. */
#include "../tests/test.h"

static void write_one(const char *path, nc_type type, int rank, int ranks)
{
    int ncid, dim, heat;
    OK(ncmpi_create(MPI_COMM_WORLD, path, NC_CLOBBER, MPI_INFO_NULL, &ncid));
    OK(ncmpi_def_dim(ncid, "x", ranks, &dim));
    OK(ncmpi_def_var(ncid, "heat", type, 1, &dim, &heat));
    OK(ncmpi_enddef(ncid));
    MPI_Offset start = rank;
    OK(ncmpi_put_var1_int_all(ncid, heat, &start, &rank));
    OK(ncmpi_close(ncid));
}

int main(int argc, char **argv)
{
    int rank, ranks;
    begin(&argc, &argv, &rank, &ranks);
    write_one(argv[1], NC_INT, rank, ranks);
    write_one(argv[1], NC_SHORT, rank, ranks);
    MPI_Barrier(MPI_COMM_WORLD);
    if (rank == 0)
        OK(ncmpi_delete(argv[1], MPI_INFO_NULL));
    MPI_Barrier(MPI_COMM_WORLD);
    write_one(argv[1], NC_BYTE, rank, ranks);
    MPI_Finalize();
    return 0;
}
