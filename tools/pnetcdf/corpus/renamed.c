/* Right, but without a word in a script: a variable that was there is renamed, and its attribute is deleted; a name in UTF-8. */
#include "../tests/test.h"

static int made(const char *path, const char *dimension, int rank, int ranks)
{
    int ncid, dim, heat;
    MPI_Offset own = rank;
    OK(ncmpi_create(MPI_COMM_WORLD, path, NC_CLOBBER, MPI_INFO_NULL, &ncid));
    OK(ncmpi_def_dim(ncid, dimension, ranks, &dim));
    OK(ncmpi_def_var(ncid, "heat", NC_INT, 1, &dim, &heat));
    OK(ncmpi_put_att_text(ncid, heat, "units", 1, "K"));
    OK(ncmpi_enddef(ncid));
    OK(ncmpi_put_var1_int_all(ncid, heat, &own, &rank));
    OK(ncmpi_close(ncid));
    return heat;
}

int main(int argc, char **argv)
{
    int rank, ranks, ncid, heat;
    char other[4096];
    begin(&argc, &argv, &rank, &ranks);
    heat = made(argv[1], "x", rank, ranks);
    OK(ncmpi_open(MPI_COMM_WORLD, argv[1], NC_WRITE, MPI_INFO_NULL, &ncid));
    OK(ncmpi_redef(ncid));
    OK(ncmpi_del_att(ncid, heat, "units"));
    OK(ncmpi_rename_var(ncid, heat, "warmth"));
    OK(ncmpi_enddef(ncid));
    OK(ncmpi_close(ncid));
    snprintf(other, sizeof other, "%s.other", argv[1]);
    made(other, "größe", rank, ranks);
    MPI_Finalize();
    return 0;
}
