/* Every form of a put and a get once, by typed and flexible functions, on variables of several types; two datasets are open at
   once, and the second one belongs to the odd ranks alone. */
#include "test.h"

enum { SIDE = 4 };

static void collective(int ncid, int rank, int var, int wide, int name)
{
    MPI_Offset start[2] = {rank, 0}, count[2] = {1, SIDE}, half[2] = {1, SIDE / 2}, stride[2] = {1, 2}, imap[2] = {SIDE, 2};
    int row[SIDE] = {rank, 1, -2, 3}, spaced[2 * SIDE] = {9, 9, 8, 8, 7, 7, 6, 6};
    long long large[SIDE] = {1LL << 40, rank, -1, 5};
    unsigned char small[SIDE];
    OK(ncmpi_put_vara_all(ncid, var, start, count, row, SIDE, MPI_INT));
    OK(ncmpi_put_vars_int_all(ncid, var, start, half, stride, row));
    OK(ncmpi_put_varm_int_all(ncid, wide, start, count, NULL, imap, spaced));
    OK(ncmpi_put_var1_longlong_all(ncid, wide, start, large));
    OK(ncmpi_put_vara_all(ncid, wide, start, half, large, 0, MPI_DATATYPE_NULL));
    OK(ncmpi_put_vara_text_all(ncid, name, start, count, "a\"\n\\"));
    OK(ncmpi_get_varm_longlong_all(ncid, wide, start, count, NULL, NULL, large));
    OK(ncmpi_get_vara_uchar_all(ncid, var, start, count, small));
    OK(ncmpi_get_vara_text_all(ncid, name, start, count, (char *)small));
    OK(ncmpi_put_vara_text_all(ncid, var, start, count, "text"));
    start[1] = SIDE;
    OK(ncmpi_put_var1_int_all(ncid, var, start, row));
    OK(ncmpi_put_varn_int_all(ncid, var, 0, NULL, NULL, NULL));
}

static void independent(int ncid, int rank, int var, int real)
{
    int all[64], requests[3], statuses[3] = {0};
    float values[SIDE] = {0.5f, -1, 1e30f, 3};
    MPI_Offset start[2] = {rank, 0}, count[2] = {1, SIDE}, none[2] = {0, 0}, *starts[2] = {start, none}, *counts[2] = {count, none};
    OK(ncmpi_begin_indep_data(ncid));
    OK(ncmpi_put_vara_float(ncid, real, start, count, values));
    OK(ncmpi_get_var_int(ncid, var, all));
    OK(ncmpi_iput_vara_float(ncid, real, start, none, values, &requests[0]));
    OK(ncmpi_iput_varn_float(ncid, real, 2, starts, counts, values, &requests[1]));
    OK(ncmpi_iget_vara_int(ncid, var, start, count, all, &requests[2]));
    OK(ncmpi_wait(ncid, 2, &requests[1], statuses));
    OK(ncmpi_wait(ncid, NC_REQ_ALL, NULL, NULL));
    OK(ncmpi_sync_numrecs(ncid));
    OK(ncmpi_end_indep_data(ncid));
    OK(ncmpi_put_vara_float(ncid, real, start, count, values));
}

static int odd_dataset(const char *path, int rank)
{
    char name[4096];
    int ncid, dim, var;
    MPI_Comm odd;
    MPI_Comm_split(MPI_COMM_WORLD, rank % 2, rank, &odd);
    if (rank % 2 == 0)
        return -1;
    snprintf(name, sizeof name, "%s.odd", path);
    OK(ncmpi_create(odd, name, NC_CLOBBER, MPI_INFO_NULL, &ncid));
    OK(ncmpi_def_dim(ncid, "x", 4, &dim));
    OK(ncmpi_def_var(ncid, "v", NC_BYTE, 1, &dim, &var));
    OK(ncmpi_set_fill(ncid, NC_FILL, NULL));
    OK(ncmpi_enddef(ncid));
    return ncid;
}

int main(int argc, char **argv)
{
    int rank, ranks, ncid, odd, dims[2], var, wide, real, name, old;
    unsigned char byte = 200;
    begin(&argc, &argv, &rank, &ranks);
    OK(ncmpi_create(MPI_COMM_WORLD, argv[1], NC_CLOBBER | NC_64BIT_DATA, MPI_INFO_NULL, &ncid));
    odd = odd_dataset(argv[1], rank);
    OK(ncmpi_def_dim(ncid, "t", NC_UNLIMITED, &dims[0]));
    OK(ncmpi_def_dim(ncid, "x", SIDE, &dims[1]));
    OK(ncmpi_def_var(ncid, "var", NC_SHORT, 2, dims, &var));
    OK(ncmpi_def_var(ncid, "wide", NC_INT64, 2, dims, &wide));
    OK(ncmpi_def_var(ncid, "real", NC_FLOAT, 2, dims, &real));
    OK(ncmpi_def_var(ncid, "name", NC_CHAR, 2, dims, &name));
    OK(ncmpi_def_var_fill(ncid, real, 0, NULL));
    OK(ncmpi_put_att_int(ncid, NC_GLOBAL, "ranks", NC_DOUBLE, 1, &ranks));
    OK(ncmpi_enddef(ncid));
    for (old = 0; old < ranks; old++)
        OK(ncmpi_fill_var_rec(ncid, real, old));
    collective(ncid, rank, var, wide, name);
    independent(ncid, rank, var, real);
    if (odd >= 0) {
        MPI_Offset at = rank;
        OK(ncmpi_put_var1_uchar_all(odd, 0, &at, &byte));
        OK(ncmpi_close(odd));
    }
    OK(ncmpi_close(ncid));
    MPI_Finalize();
    return 0;
}
