/* Right: posts a put, changes an attribute, and waits. */
#include "../tests/test.h"

int main(int argc, char **argv)
{
    int rank, ranks, ncid, dim, heat, request, status;
    begin(&argc, &argv, &rank, &ranks);
    OK(ncmpi_create(MPI_COMM_WORLD, argv[1], NC_CLOBBER, MPI_INFO_NULL, &ncid));
    OK(ncmpi_def_dim(ncid, "x", ranks, &dim));
    OK(ncmpi_def_var(ncid, "heat", NC_INT, 1, &dim, &heat));
    OK(ncmpi_put_att_text(ncid, heat, "units", 1, "K"));
    OK(ncmpi_enddef(ncid));
    MPI_Offset start = rank;
    OK(ncmpi_iput_var1_int(ncid, heat, &start, &rank, &request));
    OK(ncmpi_put_att_text(ncid, heat, "units", 1, "C"));
    OK(ncmpi_wait_all(ncid, 1, &request, &status));
    OK(ncmpi_close(ncid));
    MPI_Finalize();
    return 0;
}
