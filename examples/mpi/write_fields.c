/* Writes a file in the netCDF classic format from all ranks, by MPI-IO alone.
 *
 *   mpirun -n N write_fields OUT.nc
 *
 * mask(y, x), temp(time, y, x) and level(time, x) are of ints; each gets the numbers of its elements, from 0 on. The last dimension
 * is divided among the ranks. The library makes the header, says where the bytes of a rank's columns lie, and that no two ranks
 * would write one byte. */
#include <mpi.h>
#include <nc_classic.h>

#include <stdio.h>
#include <stdlib.h>

enum { MOST_DIMS = 32, MOST_HEADER = 1 << 20, NC_INT = 4 };

static int rank, ranks;

/* Ends all ranks. */
static void fail(const char *what, int code)
{
    fprintf(stderr, "write_fields: rank %d: %s: %d\n", rank, what, code);
    MPI_Abort(MPI_COMM_WORLD, 1);
}

static void must(const char *what, int code)
{
    if (code != 0)
        fail(what, code);
}

static void *room_for(size_t count, size_t size)
{
    void *room = malloc(count * size + 1);
    if (room == NULL)
        fail("no memory", NCV_MEMORY);
    return room;
}

typedef struct { uint8_t *bytes; uint64_t len; ncv_counts counts; } header;

/* The header, which each rank makes: three records, and begins at multiples of 4. */
static header made_header(void)
{
    static const ncv_att_def none = {"", 0, (const uint8_t *)"", 0, NC_INT};
    static const ncv_dim_def dims[] = {{"time", 4, 0}, {"y", 1, 6}, {"x", 1, 17}};
    static const uint32_t yx[] = {1, 2}, time_yx[] = {0, 1, 2}, time_x[] = {0, 2};
    static const ncv_var_def vars[] = {{"mask", 4, yx, 2, &none, 0, NC_INT},
                                       {"temp", 4, time_yx, 3, &none, 0, NC_INT},
                                       {"level", 5, time_x, 2, &none, 0, NC_INT}};
    static const ncv_header_def def = {dims, 3, &none, 0, vars, 3, .records = 3, .header_align = 4, .var_align = 4, .version = 1};
    header it = {room_for(MOST_HEADER, 1), 0, {0}};
    ncv_refused refused;
    ncv_fault fault;
    must("a definition", ncv_header_make(&def, it.bytes, MOST_HEADER, &it.len, &refused));
    must("the header", ncv_header_check(it.bytes, it.len, &it.counts, &fault));
    return it;
}

/* A rank's columns of a variable. */
typedef struct {
    ncv_region region;
    size_t dims;
    uint64_t lengths[MOST_DIMS], start[MOST_DIMS], count[MOST_DIMS], stride[MOST_DIMS];
} columns;

/* The last dimension is divided as evenly as can be. */
static void divide(columns *it)
{
    size_t last = it->dims - 1;
    uint64_t all = it->lengths[last];
    it->start[last] = all * (uint64_t)rank / (uint64_t)ranks;
    it->count[last] = all * (uint64_t)(rank + 1) / (uint64_t)ranks - it->start[last];
}

static void set_columns(columns *it, const header *of, uint64_t number)
{
    uint32_t ids[MOST_DIMS];
    uint8_t none = 0;
    ncv_var var;
    must("a variable", ncv_inq_var(of->bytes, of->len, number, &none, 0, ids, MOST_DIMS, &var));
    if (var.type != NC_INT || var.dims == 0)
        fail("a variable is not of ints, or has no dimension", (int)number);
    it->dims = var.dims;
    for (size_t k = 0; k < it->dims; k++) {
        ncv_dim dim;
        must("a dimension", ncv_inq_dim(of->bytes, of->len, ids[k], &none, 0, &dim));
        it->lengths[k] = it->count[k] = dim.length == 0 ? of->counts.records : dim.length;
        it->start[k] = 0;
        it->stride[k] = 1;
    }
    divide(it);
    it->region = (ncv_region){number, it->start, it->dims, it->count, it->dims, it->stride, it->dims, it->start, 0};
}

/* All extents of a region. */
static ncv_extent *extents_of(const header *of, const ncv_region *region, uint64_t *total)
{
    ncv_extent none;
    must("a region", ncv_extents(of->bytes, of->len, region, of->counts.records, true, 0, &none, 0, total));
    ncv_extent *all = room_for(*total, sizeof *all);
    must("a region", ncv_extents(of->bytes, of->len, region, of->counts.records, true, 0, all, *total, total));
    return all;
}

/* The number, in its variable, of element k of the columns. */
static uint64_t number_of(const columns *it, uint64_t k)
{
    uint64_t number = 0, below = 1;
    for (size_t d = it->dims; d > 0; d--) {
        number += (it->start[d - 1] + k % it->count[d - 1]) * below;
        k /= it->count[d - 1];
        below *= it->lengths[d - 1];
    }
    return number;
}

/* The numbers as the format has ints, big-endian; there are so many bytes of them. */
static uint8_t *values_of(const columns *it, uint64_t bytes)
{
    uint8_t *values = room_for(bytes, 1);
    for (uint64_t k = 0; k < bytes; k++)
        values[k] = (uint8_t)(number_of(it, k / 4) >> (24 - k % 4 * 8));
    return values;
}

/* Ends all ranks where two of them would write one byte. */
static void check_apart(const ncv_extent *extents, uint64_t total)
{
    int mine = (int)(total * sizeof(ncv_held)), bytes = 0;
    int *counts = room_for(2 * (size_t)ranks, sizeof(int)), *places = counts + ranks;
    ncv_held *held = room_for(total, sizeof *held);
    for (uint64_t k = 0; k < total; k++)
        held[k] = (ncv_held){extents[k].at, extents[k].len, (uint32_t)rank, 0};
    MPI_Allgather(&mine, 1, MPI_INT, counts, 1, MPI_INT, MPI_COMM_WORLD);
    for (int r = 0; r < ranks; bytes += counts[r], r++)
        places[r] = bytes;
    ncv_held *all = room_for((size_t)bytes, 1);
    MPI_Gatherv(held, mine, MPI_BYTE, all, counts, places, MPI_BYTE, 0, MPI_COMM_WORLD);
    ncv_pair pair;
    if (rank == 0)
        must("two ranks would write one byte", ncv_first_shared(all, (size_t)bytes / sizeof *all, &pair));
    free(all);
    free(held);
    free(counts);
}

/* All ranks write their values at their extents. */
static void write_values(MPI_File file, const columns *it, const ncv_extent *extents, uint64_t total)
{
    int *lengths = room_for(total, sizeof *lengths), bytes = 0;
    MPI_Aint *places = room_for(total, sizeof *places);
    for (uint64_t k = 0; k < total; bytes += lengths[k], k++) {
        places[k] = (MPI_Aint)extents[k].at;
        lengths[k] = (int)extents[k].len;
    }
    uint8_t *values = values_of(it, (uint64_t)bytes);
    MPI_Datatype type;
    must("a file type", MPI_Type_create_hindexed((int)total, lengths, places, MPI_BYTE, &type));
    must("a file type", MPI_Type_commit(&type));
    must("MPI_File_set_view", MPI_File_set_view(file, 0, MPI_BYTE, total > 0 ? type : MPI_BYTE, "native", MPI_INFO_NULL));
    must("MPI_File_write_at_all", MPI_File_write_at_all(file, 0, values, bytes, MPI_BYTE, MPI_STATUS_IGNORE));
    MPI_Type_free(&type);
    free(values);
    free(places);
    free(lengths);
}

static void write_variable(MPI_File file, const header *of, uint64_t number)
{
    columns mine;
    uint64_t total;
    set_columns(&mine, of, number);
    ncv_extent *extents = extents_of(of, &mine.region, &total);
    check_apart(extents, total);
    write_values(file, &mine, extents, total);
    free(extents);
}

int main(int argc, char **argv)
{
    MPI_Init(&argc, &argv);
    MPI_Comm_rank(MPI_COMM_WORLD, &rank);
    MPI_Comm_size(MPI_COMM_WORLD, &ranks);
    must("usage: write_fields OUT.nc", argc != 2);
    header it = made_header();
    MPI_File file;
    must("OUT.nc", MPI_File_open(MPI_COMM_WORLD, argv[1], MPI_MODE_CREATE | MPI_MODE_WRONLY, MPI_INFO_NULL, &file));
    must("MPI_File_set_size", MPI_File_set_size(file, 0));
    if (rank == 0)
        must("the header", MPI_File_write_at(file, 0, it.bytes, (int)it.len, MPI_BYTE, MPI_STATUS_IGNORE));
    for (uint64_t var = 0; var < it.counts.vars; var++)
        write_variable(file, &it, var);
    must("MPI_File_close", MPI_File_close(&file));
    free(it.bytes);
    MPI_Finalize();
    return 0;
}
