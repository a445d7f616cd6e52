/* Each rank attaches a buffer, posts its band of a field of doubles from memory that it uses again at once, and waits for all
   of them; one put is cancelled. The dataset is in CDF-5 and its variables are aligned. */
#include "test.h"

enum { ROWS = 2, COLUMNS = 5 };

int main(int argc, char **argv)
{
    int rank, ranks, ncid, dims[2], field, count, requests[ROWS + 1];
    double row[COLUMNS];
    long long numbers[ROWS];
    begin(&argc, &argv, &rank, &ranks);
    MPI_Info info;
    MPI_Info_create(&info);
    MPI_Info_set(info, "nc_var_align_size", "64");
    MPI_Info_set(info, "cb_nodes", "2");
    OK(ncmpi_create(MPI_COMM_WORLD, argv[1], NC_CLOBBER | NC_64BIT_DATA, info, &ncid));
    OK(ncmpi_def_dim(ncid, "y", ranks * ROWS, &dims[0]));
    OK(ncmpi_def_dim(ncid, "x", COLUMNS, &dims[1]));
    OK(ncmpi_def_var(ncid, "count", NC_INT64, 1, dims, &count));
    OK(ncmpi_def_var(ncid, "field", NC_DOUBLE, 2, dims, &field));
    double factor = 0.25;
    OK(ncmpi_put_att_double(ncid, field, "factor", NC_FLOAT, 1, &factor));
    OK(ncmpi_enddef(ncid));
    OK(ncmpi_buffer_attach(ncid, (ROWS * COLUMNS + 1) * sizeof(double)));
    for (int y = 0; y < ROWS; y++) {
        MPI_Offset start[2] = {rank * ROWS + y, 0}, box[2] = {1, COLUMNS};
        for (int x = 0; x < COLUMNS; x++)
            row[x] = rank + y / 2.0 + x / 16.0;
        OK(ncmpi_bput_vara(ncid, field, start, box, row, COLUMNS, MPI_DOUBLE, &requests[y]));
    }
    MPI_Offset at[1] = {rank * ROWS}, rows[1] = {ROWS};
    for (int y = 0; y < ROWS; y++)
        numbers[y] = 1000000000000 * (rank + 1) + y;
    OK(ncmpi_bput_var1_longlong(ncid, count, at, numbers, &requests[ROWS]));
    OK(ncmpi_cancel(ncid, 1, &requests[ROWS], NULL));
    OK(ncmpi_put_vara_longlong_all(ncid, count, at, rows, numbers));
    OK(ncmpi_wait_all(ncid, NC_REQ_ALL, NULL, NULL));
    OK(ncmpi_buffer_detach(ncid));
    MPI_Info_free(&info);
    OK(ncmpi_close(ncid));
    MPI_Finalize();
    return 0;
}
