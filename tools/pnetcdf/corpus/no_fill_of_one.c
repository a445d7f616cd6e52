/* Right: of two variables of a dataset that is filled, one isn't; of another dataset one alone is, with a value of its own. */
#include "../tests/test.h"

static void write_one(const char *path, int mode, int rank, int ranks)
{
    int ncid, dim, first, second, old;
    const float own = -999;
    OK(ncmpi_create(MPI_COMM_WORLD, path, NC_CLOBBER, MPI_INFO_NULL, &ncid));
    OK(ncmpi_set_fill(ncid, mode, &old));
    OK(ncmpi_def_dim(ncid, "x", 2 * ranks, &dim));
    OK(ncmpi_def_var(ncid, "first", NC_FLOAT, 1, &dim, &first));
    OK(ncmpi_def_var(ncid, "second", NC_FLOAT, 1, &dim, &second));
    OK(ncmpi_def_var_fill(ncid, second, mode == NC_FILL, mode == NC_FILL ? NULL : &own));
    OK(ncmpi_enddef(ncid));
    MPI_Offset start = 2 * rank;
    float value = (float)rank;
    OK(ncmpi_put_var1_float_all(ncid, first, &start, &value));
    OK(ncmpi_put_var1_float_all(ncid, second, &start, &value));
    OK(ncmpi_close(ncid));
}

int main(int argc, char **argv)
{
    char other[4096];
    int rank, ranks;
    begin(&argc, &argv, &rank, &ranks);
    snprintf(other, sizeof other, "%s.other", argv[1]);
    write_one(argv[1], NC_FILL, rank, ranks);
    write_one(other, NC_NOFILL, rank, ranks);
    MPI_Finalize();
    return 0;
}
