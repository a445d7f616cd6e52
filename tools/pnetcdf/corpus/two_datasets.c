/* Right: two datasets, DATASET and DATASET.other, with other names, shapes, types and attributes; both are open at once. */
#include "../tests/test.h"

int main(int argc, char **argv)
{
    char name[4096];
    int rank, ranks, first, second, dim, length, other, heat, level;
    begin(&argc, &argv, &rank, &ranks);
    snprintf(name, sizeof name, "%s.other", argv[1]);
    OK(ncmpi_create(MPI_COMM_WORLD, argv[1], NC_CLOBBER, MPI_INFO_NULL, &first));
    OK(ncmpi_create(MPI_COMM_WORLD, name, NC_CLOBBER, MPI_INFO_NULL, &second));
    OK(ncmpi_def_dim(first, "x", ranks, &dim));
    OK(ncmpi_def_var(first, "heat", NC_INT, 1, &dim, &heat));
    OK(ncmpi_put_att_text(first, heat, "units", 1, "K"));
    OK(ncmpi_def_dim(second, "y", 2 * ranks, &length));
    OK(ncmpi_def_dim(second, "z", 1, &other));
    OK(ncmpi_def_var(second, "heat", NC_SHORT, 1, &length, &level));
    OK(ncmpi_put_att_text(second, level, "units", 1, "C"));
    OK(ncmpi_enddef(second));
    OK(ncmpi_enddef(first));
    MPI_Offset start = rank, twice = 2 * rank, two = 2, one = 1;
    short pair[2] = {(short)rank, 7};
    OK(ncmpi_put_vara_int_all(first, heat, &start, &one, &rank));
    OK(ncmpi_put_vara_short_all(second, level, &twice, &two, pair));
    OK(ncmpi_close(first));
    OK(ncmpi_close(second));
    MPI_Finalize();
    return 0;
}
