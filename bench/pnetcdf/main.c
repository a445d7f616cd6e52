/* The calls of a row of bench/scripts.py, by a program in C on PnetCDF.

     mpiexec -n RANKS pnetcdf ROW N FILE

   Rank 0 prints the microseconds from before the dataset is created or opened until it is closed, of the slowest rank. The start of MPI is not in
   it, values are made before it, and what is read is dropped. A number of a float or double is its bits, as in the scripts. */
#include "rows.h"

int rank, ranks;
const char *buffer_size;
static const char *path;

void check(int code)
{
    if (code != NC_NOERR) {
        fprintf(stderr, "pnetcdf: %s\n", ncmpi_strerror(code));
        MPI_Abort(MPI_COMM_WORLD, 1);
    }
}

void *room(size_t count, size_t size)
{
    void *memory = malloc(count * size + 1);
    if (memory == NULL)
        MPI_Abort(MPI_COMM_WORLD, 1);
    memset(memory, 0, count * size);
    return memory;
}

/* Headers and variables are laid as ncrun lays them, without gaps. Each rank is an aggregator, as each of at most eight is by ncrun: ROMIO has one a
   machine, whatever cb_nodes says, unless cb_config_list allows more. */
static MPI_Info hints(void)
{
    MPI_Info info;
    char count[16];
    sprintf(count, "%d", ranks);
    MPI_Info_create(&info);
    MPI_Info_set(info, "nc_header_align_size", "4");
    MPI_Info_set(info, "nc_var_align_size", "4");
    MPI_Info_set(info, "nc_record_align_size", "4");
    MPI_Info_set(info, "cb_nodes", count);
    MPI_Info_set(info, "cb_config_list", "*:64");
    if (buffer_size != NULL)
        MPI_Info_set(info, "cb_buffer_size", buffer_size);
    return info;
}

int created(void)
{
    int dataset;
    MPI_Info info = hints();
    check(ncmpi_create(MPI_COMM_WORLD, path, NC_CLOBBER, info, &dataset));
    MPI_Info_free(&info);
    return dataset;
}

int opened(void)
{
    int dataset;
    MPI_Info info = hints();
    check(ncmpi_open(MPI_COMM_WORLD, path, NC_WRITE, info, &dataset));
    MPI_Info_free(&info);
    return dataset;
}

int dimension(int dataset, const char *name, MPI_Offset length)
{
    int id;
    check(ncmpi_def_dim(dataset, name, length, &id));
    return id;
}

static const char *numbered(const char *name, int number)
{
    static char text[16];
    if (number < 0)
        return name;
    sprintf(text, "%s%d", name, number);
    return text;
}

int variable(int dataset, const char *name, int number, nc_type type, int count, const int *dims)
{
    int id;
    check(ncmpi_def_var(dataset, numbered(name, number), type, count, dims, &id));
    return id;
}

int found(int dataset, const char *name, int number)
{
    int id;
    check(ncmpi_inq_varid(dataset, numbered(name, number), &id));
    return id;
}

int dealt(int n)
{
    return (n - rank + ranks - 1) / ranks;
}

uint32_t *run_of_words(size_t count, uint32_t first)
{
    uint32_t *words = room(count, sizeof *words);
    for (size_t k = 0; k < count; k++)
        words[k] = first + (uint32_t)k;
    return words;
}

uint64_t *run_of_doubles(size_t count, uint64_t first)
{
    uint64_t *words = room(count, sizeof *words);
    for (size_t k = 0; k < count; k++)
        words[k] = first + k;
    return words;
}

/* ---- a row */

static const struct row *row_of(const char *name)
{
    const struct row *const all[] = {call_rows, field_rows, region_rows};
    for (size_t k = 0; k < sizeof all / sizeof *all; k++)
        for (const struct row *row = all[k]; row->name != NULL; row++)
            if (strcmp(name, row->name) == 0)
                return row;
    return NULL;
}

/* Its time, of the slowest rank. */
static long measured(const struct row *row, int n)
{
    long own, most;
    if (row->prepare != NULL)
        row->prepare(n);
    MPI_Barrier(MPI_COMM_WORLD);
    double start = MPI_Wtime();
    row->run(n);
    own = (long)((MPI_Wtime() - start) * 1e6);
    MPI_Allreduce(&own, &most, 1, MPI_LONG, MPI_MAX, MPI_COMM_WORLD);
    return most;
}

int main(int count, char **words)
{
    MPI_Init(&count, &words);
    MPI_Comm_rank(MPI_COMM_WORLD, &rank);
    MPI_Comm_size(MPI_COMM_WORLD, &ranks);
    const struct row *row = count == 4 ? row_of(words[1]) : NULL;
    if (row == NULL || ranks > MOST_RANKS) {
        fprintf(stderr, "pnetcdf: ROW N FILE, by at most %d ranks\n", MOST_RANKS);
        MPI_Abort(MPI_COMM_WORLD, 2);
    }
    path = words[3];
    long most = measured(row, atoi(words[2]));
    if (rank == 0)
        printf("%ld\n", most);
    MPI_Finalize();
    return 0;
}
