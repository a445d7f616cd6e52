/* Four ranks share a row of cells: each exchanges its border cells with its neighbours, takes a step of a diffusion, and all
   write the field as a record, one collective call a step. */
#include "test.h"

enum { CELLS = 4, STEPS = 3 };

static void exchange(int rank, int ranks, int *cells)
{
    int left = rank > 0 ? rank - 1 : MPI_PROC_NULL, right = rank < ranks - 1 ? rank + 1 : MPI_PROC_NULL;
    cells[0] = cells[1];
    cells[CELLS + 1] = cells[CELLS];
    MPI_Sendrecv(&cells[1], 1, MPI_INT, left, 0, &cells[CELLS + 1], 1, MPI_INT, right, 0, MPI_COMM_WORLD, MPI_STATUS_IGNORE);
    MPI_Sendrecv(&cells[CELLS], 1, MPI_INT, right, 1, &cells[0], 1, MPI_INT, left, 1, MPI_COMM_WORLD, MPI_STATUS_IGNORE);
}

static void step(int *cells)
{
    int next[CELLS];
    for (int i = 0; i < CELLS; i++)
        next[i] = (cells[i] + 2 * cells[i + 1] + cells[i + 2]) / 4;
    for (int i = 0; i < CELLS; i++)
        cells[i + 1] = next[i];
}

int main(int argc, char **argv)
{
    int rank, ranks, ncid, dims[2], heat, cells[CELLS + 2] = {0};
    begin(&argc, &argv, &rank, &ranks);
    OK(ncmpi_create(MPI_COMM_WORLD, argv[1], NC_CLOBBER, MPI_INFO_NULL, &ncid));
    OK(ncmpi_def_dim(ncid, "time", NC_UNLIMITED, &dims[0]));
    OK(ncmpi_def_dim(ncid, "cell", ranks * CELLS, &dims[1]));
    OK(ncmpi_def_var(ncid, "heat", NC_INT, 2, dims, &heat));
    OK(ncmpi_put_att_text(ncid, heat, "units", 1, "K"));
    OK(ncmpi_enddef(ncid));
    if (rank == 1)
        cells[2] = 4096;
    for (int t = 0; t < STEPS; t++) {
        MPI_Offset start[2] = {t, rank * CELLS}, count[2] = {1, CELLS};
        OK(ncmpi_put_vara_int_all(ncid, heat, start, count, &cells[1]));
        exchange(rank, ranks, cells);
        step(cells);
    }
    OK(ncmpi_close(ncid));
    MPI_Finalize();
    return 0;
}
