/* What a script has no word for: in its second put rank 2 describes 1100 places of the file by an MPI type. */
#include "test.h"

enum { PLACES = 1100 };

int main(int argc, char **argv)
{
    int rank, ranks, ncid, dim, var;
    float values[PLACES] = {5};
    begin(&argc, &argv, &rank, &ranks);
    OK(ncmpi_create(MPI_COMM_WORLD, argv[1], NC_CLOBBER, MPI_INFO_NULL, &ncid));
    OK(ncmpi_def_dim(ncid, "x", 2 * PLACES, &dim));
    OK(ncmpi_def_var(ncid, "v", NC_FLOAT, 1, &dim, &var));
    OK(ncmpi_enddef(ncid));
    MPI_Offset at = 2 * rank + 1;
    MPI_Datatype even;
    MPI_Type_vector(PLACES, 1, 2, MPI_FLOAT, &even);
    MPI_Type_commit(&even);
    OK(ncmpi_put_var1_float_all(ncid, var, &at, values));
    if (rank == 2)
        OK(ncmpi_put_vard_all(ncid, var, even, values, PLACES, MPI_FLOAT));
    else
        OK(ncmpi_put_var1_float_all(ncid, var, &at, values));
    MPI_Type_free(&even);
    OK(ncmpi_close(ncid));
    MPI_Finalize();
    return 0;
}
