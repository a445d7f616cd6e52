/* Every form of a posted put and get and of a buffered put, with many boxes, strides and index maps, from integers in memory to
   variables of other integers; then a second part of the program opens the dataset, adds a variable, and puts and gets by varn. */
#include "test.h"

enum { SIDE = 8, REQUESTS = 4 };

static int ncid, grid, line, requests[REQUESTS], statuses[REQUESTS], posted;

static void post(int code)
{
    OK(code);
    posted++;
}

static void finish(void)
{
    OK(ncmpi_wait_all(ncid, posted, requests, statuses));
    for (int i = 0; i < posted; i++)
        OK(statuses[i]);
    posted = 0;
}

/* Two rows of each rank, by three forms of put and two boxes; each element is put once. */
static void put_rows(int rank, const int *values, bool buffered)
{
    MPI_Offset y = 2 * rank, at[2] = {y, 0}, start[2] = {y, 1}, stride[2] = {1, 2}, count[2] = {1, 3}, imap[2] = {9, 2};
    MPI_Offset next[2] = {y, 2}, two[2] = {1, 2}, box[2][2] = {{y + 1, 0}, {y + 1, 4}}, size[2][2] = {{1, 3}, {1, 4}};
    MPI_Offset *starts[2] = {box[0], box[1]}, *counts[2] = {size[0], size[1]};
    if (buffered) {
        post(ncmpi_bput_var1(ncid, grid, at, values, 1, MPI_INT, &requests[posted]));
        post(ncmpi_bput_vars_int(ncid, grid, start, count, stride, values, &requests[posted]));
        post(ncmpi_bput_varm_int(ncid, grid, next, two, stride, imap, values, &requests[posted]));
        post(ncmpi_bput_varn(ncid, grid, 2, starts, counts, values, 7, MPI_INT, &requests[posted]));
    } else {
        post(ncmpi_iput_var1_int(ncid, grid, at, values, &requests[posted]));
        post(ncmpi_iput_vars(ncid, grid, start, count, stride, values, 3, MPI_INT, &requests[posted]));
        post(ncmpi_iput_varm(ncid, grid, next, two, stride, imap, values, 2, MPI_INT, &requests[posted]));
        post(ncmpi_iput_varn(ncid, grid, 2, starts, counts, values, 7, MPI_INT, &requests[posted]));
    }
    finish();
}

static void get_rows(int rank, int *values)
{
    MPI_Offset at[2] = {2 * rank, 0}, count[2] = {2, 3}, stride[2] = {1, 2}, imap[2] = {1, 2}, next[2] = {2 * rank, 1};
    unsigned long long large[SIDE];
    post(ncmpi_iget_vars_int(ncid, grid, at, count, stride, values, &requests[posted]));
    post(ncmpi_iget_varm(ncid, grid, next, count, stride, imap, values + 8, 6, MPI_INT, &requests[posted]));
    finish();
    if (rank == 0)
        post(ncmpi_iget_var_ulonglong(ncid, line, large, &requests[posted]));
    finish();
}

static void make(const char *path, int rank, int ranks, int *values)
{
    int dims[2];
    MPI_Info info;
    MPI_Info_create(&info);
    MPI_Info_set(info, "cb_nodes", "2");
    MPI_Info_set(info, "cb_buffer_size", "4096");
    MPI_Info_set(info, "nc_header_align_size", "1024");
    OK(ncmpi_create(MPI_COMM_WORLD, path, NC_CLOBBER | NC_64BIT_DATA, info, &ncid));
    MPI_Info_free(&info);
    OK(ncmpi_def_dim(ncid, "y", 2 * ranks, &dims[0]));
    OK(ncmpi_def_dim(ncid, "x", SIDE, &dims[1]));
    OK(ncmpi_def_var(ncid, "grid", NC_USHORT, 2, dims, &grid));
    OK(ncmpi_def_var(ncid, "line", NC_UINT64, 1, &dims[1], &line));
    OK(ncmpi_enddef(ncid));
    unsigned long long large[SIDE] = {0, 1, 1ULL << 63, ~0ULL};
    if (rank == 1)
        post(ncmpi_iput_var_ulonglong(ncid, line, large, &requests[posted]));
    finish();
    put_rows(rank, values, false);
    OK(ncmpi_buffer_attach(ncid, 4096));
    put_rows(rank, values + 3, true);
    OK(ncmpi_buffer_detach(ncid));
    get_rows(rank, values);
    OK(ncmpi_close(ncid));
}

static void extend(const char *path, int rank, int ranks, int *values)
{
    int dims[2], more;
    short none = -1;
    MPI_Offset box[2][2] = {{0, rank}, {0, ranks + rank}}, *starts[2] = {box[0], box[1]};
    OK(ncmpi_open(MPI_COMM_WORLD, path, NC_WRITE, MPI_INFO_NULL, &ncid));
    OK(ncmpi_redef(ncid));
    OK(ncmpi_def_dim(ncid, "time", NC_UNLIMITED, &dims[0]));
    OK(ncmpi_inq_dimid(ncid, "x", &dims[1]));
    OK(ncmpi_def_var(ncid, "more", NC_SHORT, 2, dims, &more));
    OK(ncmpi_put_att_short(ncid, more, "missing", NC_SHORT, 1, &none));
    OK(ncmpi_enddef(ncid));
    OK(ncmpi_put_varn_int_all(ncid, more, 2, starts, NULL, values));
    OK(ncmpi_begin_indep_data(ncid));
    box[0][0] = box[1][0] = 1;
    OK(ncmpi_put_varn(ncid, more, 2, starts, NULL, values, 2, MPI_INT));
    OK(ncmpi_end_indep_data(ncid));
    OK(ncmpi_sync_numrecs(ncid));
    OK(ncmpi_get_varn_int_all(ncid, more, 2, starts, NULL, values));
    OK(ncmpi_close(ncid));
}

int main(int argc, char **argv)
{
    int rank, ranks, values[4 * SIDE];
    begin(&argc, &argv, &rank, &ranks);
    for (int i = 0; i < 4 * SIDE; i++)
        values[i] = 1000 * rank + i;
    make(argv[1], rank, ranks, values);
    extend(argv[1], rank, ranks, values);
    MPI_Finalize();
    return 0;
}
