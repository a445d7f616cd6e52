/* Right: values that MPI types pick from memory: a block of a field with ghost cells, every second value, copies of basic types, and
   Fortran's types. Types are freed before the wait. */
#include "../tests/test.h"

enum { ROWS = 4, COLUMNS = 6, CELLS = 6 };

static int field[ROWS * COLUMNS];

/* The type of that number, and how many of it make a rank's cells. */
static MPI_Datatype type_of(int number, MPI_Offset *count)
{
    const int whole[2] = {ROWS, COLUMNS}, part[2] = {2, 3}, first[2] = {1, 2};
    MPI_Datatype type = MPI_INTEGER;
    *count = number == 1 || number == 4 ? CELLS : 1;
    switch (number) {
    case 0: MPI_Type_contiguous(CELLS, MPI_INT, &type); break;
    case 1: MPI_Type_dup(MPI_INT, &type); break;
    case 2: MPI_Type_vector(CELLS, 1, 2, MPI_INT, &type); break;
    case 3: MPI_Type_create_subarray(2, whole, part, first, MPI_ORDER_C, MPI_INT, &type); break;
    default: break;
    }
    if (number < 4)
        MPI_Type_commit(&type);
    return type;
}

int main(int argc, char **argv)
{
    int rank, ranks, ncid, dims[3], heat, request, status, got[ROWS * COLUMNS];
    begin(&argc, &argv, &rank, &ranks);
    for (int i = 0; i < ROWS * COLUMNS; i++)
        field[i] = 100 * rank + i;
    OK(ncmpi_create(MPI_COMM_WORLD, argv[1], NC_CLOBBER, MPI_INFO_NULL, &ncid));
    OK(ncmpi_def_dim(ncid, "type", 5, &dims[0]));
    OK(ncmpi_def_dim(ncid, "rank", ranks, &dims[1]));
    OK(ncmpi_def_dim(ncid, "cell", CELLS, &dims[2]));
    OK(ncmpi_def_var(ncid, "heat", NC_INT, 3, dims, &heat));
    OK(ncmpi_enddef(ncid));
    for (int number = 0; number < 5; number++) {
        MPI_Offset start[3] = {number, rank, 0}, extent[3] = {1, 1, CELLS}, count;
        MPI_Datatype type = type_of(number, &count);
        OK(ncmpi_put_vara_all(ncid, heat, start, extent, field, count, type));
        OK(ncmpi_iget_vara(ncid, heat, start, extent, got, count, type, &request));
        if (number < 4)
            MPI_Type_free(&type);
        OK(ncmpi_wait_all(ncid, 1, &request, &status));
    }
    OK(ncmpi_close(ncid));
    MPI_Finalize();
    return 0;
}
