/* Right: definitions after the first puts, twice, while records are there; and posts among the first definitions. */
#include "../tests/test.h"

static void put(int ncid, int var, int record, int rank)
{
    MPI_Offset index[2] = {record, rank};
    int value = 10 * record + rank;
    OK(ncmpi_put_var1_int_all(ncid, var, index, &value));
}

int main(int argc, char **argv)
{
    int rank, ranks, ncid, dims[2], heat, cold, level, request, status;
    begin(&argc, &argv, &rank, &ranks);
    OK(ncmpi_create(MPI_COMM_WORLD, argv[1], NC_CLOBBER, MPI_INFO_NULL, &ncid));
    OK(ncmpi_def_dim(ncid, "t", NC_UNLIMITED, &dims[0]));
    OK(ncmpi_def_dim(ncid, "x", ranks, &dims[1]));
    OK(ncmpi_def_var(ncid, "heat", NC_INT, 2, dims, &heat));
    MPI_Offset index[2] = {0, rank};
    OK(ncmpi_iput_var1_int(ncid, heat, index, &rank, &request));
    OK(ncmpi_enddef(ncid));
    OK(ncmpi_wait_all(ncid, 1, &request, &status));
    put(ncid, heat, 1, rank);
    OK(ncmpi_redef(ncid));
    OK(ncmpi_def_var(ncid, "cold", NC_INT, 2, dims, &cold));
    OK(ncmpi_put_att_text(ncid, cold, "units", 1, "C"));
    OK(ncmpi_enddef(ncid));
    put(ncid, cold, 1, rank);
    OK(ncmpi_redef(ncid));
    OK(ncmpi_def_var(ncid, "level", NC_INT, 1, &dims[1], &level));
    OK(ncmpi_copy_att(ncid, cold, "units", ncid, level));
    OK(ncmpi_enddef(ncid));
    put(ncid, heat, 2, rank);
    MPI_Offset own = rank;
    OK(ncmpi_put_var1_int_all(ncid, level, &own, &rank));
    OK(ncmpi_close(ncid));
    MPI_Finalize();
    return 0;
}
