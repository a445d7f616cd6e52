/* What a model's output does: four ranks have a quarter of a grid each, and in each step write two fields as records, by a collective call a field. */
#include "test.h"

enum { SIDE = 64, HALF = SIDE / 2, FIELDS = 2, STEPS = 2 };

static float cells[HALF * HALF];

static void put_step(int ncid, const int *fields, int step, int rank)
{
    MPI_Offset start[3] = {step, rank / 2 * HALF, rank % 2 * HALF}, count[3] = {1, HALF, HALF};
    for (int f = 0; f < FIELDS; f++) {
        for (int i = 0; i < HALF * HALF; i++)
            cells[i] = (float)(1000 * rank + 100 * step + 10 * f) + 0.001f * (float)i;
        OK(ncmpi_put_vara_float_all(ncid, fields[f], start, count, cells));
    }
}

int main(int argc, char **argv)
{
    int rank, ranks, ncid, dims[3], fields[FIELDS];
    begin(&argc, &argv, &rank, &ranks);
    OK(ncmpi_create(MPI_COMM_WORLD, argv[1], NC_CLOBBER, MPI_INFO_NULL, &ncid));
    OK(ncmpi_def_dim(ncid, "time", NC_UNLIMITED, &dims[0]));
    OK(ncmpi_def_dim(ncid, "y", SIDE, &dims[1]));
    OK(ncmpi_def_dim(ncid, "x", SIDE, &dims[2]));
    OK(ncmpi_def_var(ncid, "heat", NC_FLOAT, 3, dims, &fields[0]));
    OK(ncmpi_def_var(ncid, "wind", NC_FLOAT, 3, dims, &fields[1]));
    OK(ncmpi_enddef(ncid));
    for (int step = 0; step < STEPS; step++)
        put_step(ncid, fields, step, rank);
    OK(ncmpi_close(ncid));
    MPI_Finalize();
    return 0;
}
