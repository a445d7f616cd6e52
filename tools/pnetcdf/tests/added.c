/* A dataset is made and opened again; the ranks ask for a length, add a variable with an attribute, attach a buffer before the
   definitions end, and use the old variable and the new one. */
#include "test.h"

static void make(const char *path, int rank, int ranks)
{
    int ncid, dim, first;
    MPI_Offset at = rank;
    OK(ncmpi_create(MPI_COMM_WORLD, path, NC_CLOBBER, MPI_INFO_NULL, &ncid));
    OK(ncmpi_def_dim(ncid, "x", ranks, &dim));
    OK(ncmpi_def_var(ncid, "first", NC_INT, 1, &dim, &first));
    OK(ncmpi_enddef(ncid));
    OK(ncmpi_put_var1_int_all(ncid, first, &at, &rank));
    OK(ncmpi_close(ncid));
}

int main(int argc, char **argv)
{
    int rank, ranks, ncid, dim, first, second, value = 0;
    MPI_Offset length;
    begin(&argc, &argv, &rank, &ranks);
    make(argv[1], rank, ranks);
    OK(ncmpi_open(MPI_COMM_WORLD, argv[1], NC_WRITE, MPI_INFO_NULL, &ncid));
    OK(ncmpi_inq_dimid(ncid, "x", &dim));
    if (rank == 0)
        OK(ncmpi_inq_dimlen(ncid, dim, &length));
    OK(ncmpi_inq_varid(ncid, "first", &first));
    OK(ncmpi_redef(ncid));
    OK(ncmpi_def_var(ncid, "second", NC_DOUBLE, 1, &dim, &second));
    OK(ncmpi_put_att_text(ncid, second, "units", 5, "metre"));
    OK(ncmpi_buffer_attach(ncid, 8 * (rank + 1)));
    OK(ncmpi_enddef(ncid));
    MPI_Offset at = rank;
    double real = rank / 8.0;
    OK(ncmpi_bput_var1_double(ncid, second, &at, &real, NULL));
    OK(ncmpi_iget_var1_int(ncid, first, &at, &value, NULL));
    OK(ncmpi_wait_all(ncid, NC_PUT_REQ_ALL, NULL, NULL));
    OK(ncmpi_wait_all(ncid, NC_GET_REQ_ALL, NULL, NULL));
    OK(ncmpi_buffer_detach(ncid));
    OK(ncmpi_close(ncid));
    MPI_Finalize();
    return 0;
}
