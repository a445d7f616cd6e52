/* The same file as write_fields writes, by PnetCDF: the definitions and the record count are those of HEADER.nc.
 *
 *   mpirun -n N by_pnetcdf HEADER.nc OUT.nc */
#include <mpi.h>
#include <pnetcdf.h>

#include <stdio.h>
#include <stdlib.h>

static void must(int code)
{
    if (code != NC_NOERR) {
        fprintf(stderr, "by_pnetcdf: %s\n", ncmpi_strerror(code));
        MPI_Abort(MPI_COMM_WORLD, 1);
    }
}

enum { MOST_DIMS = 32 };

static int rank, ranks;

/* Defines in one dataset what the other has. */
static void define(int from, int to)
{
    int dims, vars, record;
    must(ncmpi_inq(from, &dims, &vars, NULL, &record));
    for (int d = 0; d < dims; d++) {
        char name[NC_MAX_NAME + 1];
        MPI_Offset length;
        int id;
        must(ncmpi_inq_dim(from, d, name, &length));
        must(ncmpi_def_dim(to, name, d == record ? NC_UNLIMITED : length, &id));
    }
    for (int v = 0; v < vars; v++) {
        char name[NC_MAX_NAME + 1];
        int rank_of, ids[MOST_DIMS], id;
        nc_type type;
        must(ncmpi_inq_var(from, v, name, &type, &rank_of, ids, NULL));
        must(ncmpi_def_var(to, name, type, rank_of, ids, &id));
    }
    must(ncmpi_enddef(to));
}

/* This rank's columns of a variable, each element the number that it has in the variable. */
static void put(int from, int to, int v)
{
    int dims, ids[MOST_DIMS];
    MPI_Offset start[MOST_DIMS], count[MOST_DIMS], columns, rows = 1;
    must(ncmpi_inq_varndims(from, v, &dims));
    if (dims == 0)
        must(NC_EBADDIM); /* it has no columns */
    must(ncmpi_inq_vardimid(from, v, ids));
    for (int d = 0; d < dims; d++) {
        must(ncmpi_inq_dimlen(from, ids[d], &count[d]));
        start[d] = 0;
        rows *= d < dims - 1 ? count[d] : 1;
    }
    columns = count[dims - 1];
    start[dims - 1] = columns * rank / ranks;
    count[dims - 1] = columns * (rank + 1) / ranks - start[dims - 1];
    int *values = malloc((size_t)(rows * count[dims - 1]) * sizeof *values + 1);
    if (values == NULL)
        MPI_Abort(MPI_COMM_WORLD, 1);
    for (MPI_Offset k = 0; k < rows * count[dims - 1]; k++)
        values[k] = (int)(k / count[dims - 1] * columns + start[dims - 1] + k % count[dims - 1]);
    must(ncmpi_put_vara_int_all(to, v, start, count, values));
    free(values);
}

/* Header and variables stand one after another without gaps. */
static MPI_Info hints(void)
{
    MPI_Info info;
    MPI_Info_create(&info);
    MPI_Info_set(info, "nc_header_align_size", "4");
    MPI_Info_set(info, "nc_var_align_size", "4");
    return info;
}

int main(int argc, char **argv)
{
    MPI_Init(&argc, &argv);
    MPI_Comm_rank(MPI_COMM_WORLD, &rank);
    MPI_Comm_size(MPI_COMM_WORLD, &ranks);
    if (argc != 3)
        MPI_Abort(MPI_COMM_WORLD, 2);
    int from, to, vars, format;
    must(ncmpi_open(MPI_COMM_WORLD, argv[1], NC_NOWRITE, MPI_INFO_NULL, &from));
    must(ncmpi_inq_format(from, &format));
    int mode = NC_CLOBBER | (format == NC_FORMAT_CDF5 ? NC_64BIT_DATA : format == NC_FORMAT_CDF2 ? NC_64BIT_OFFSET : 0);
    must(ncmpi_create(MPI_COMM_WORLD, argv[2], mode, hints(), &to));
    define(from, to);
    must(ncmpi_inq_nvars(from, &vars));
    for (int v = 0; v < vars; v++)
        put(from, to, v);
    must(ncmpi_close(to));
    must(ncmpi_close(from));
    MPI_Finalize();
    return 0;
}
