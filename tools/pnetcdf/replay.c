/* ncreplay SCRIPT DATASET, under mpiexec with one process for each rank of the script: does the script's calls on PnetCDF, and
   prints what each call answered as ncrun prints it. */
#include "replay.h"

#include <limits.h>
#include <stdio.h>
#include <stdlib.h>
#include <string.h>

enum { ORDER = 1, ANSWERS = 2, DIMS = 32 };

static void check(int line, int code)
{
    if (code != NC_NOERR)
        stop(line, "%s: %s", ncmpi_strerrno(code), ncmpi_strerror(code));
}

static MPI_Info hints_of(const Script *script)
{
    static const char *const known[] = {"cb_nodes", "cb_buffer_size", "ind_rd_buffer_size", "ind_wr_buffer_size",
                                        "striping_unit", "nc_header_align_size", "nc_var_align_size"};
    MPI_Info info;
    MPI_Info_create(&info);
    MPI_Info_set(info, "nc_header_align_size", "4");
    MPI_Info_set(info, "nc_var_align_size", "4");
    MPI_Info_set(info, "nc_record_align_size", "4");
    for (int i = 0; i < script->definitions; i++) {
        const Line *line = &script->definition[i];
        if (!is_word(line, 0, "hint"))
            continue;
        for (size_t k = 0; k < sizeof known / sizeof *known; k++)
            if (is_word(line, 1, known[k]))
                MPI_Info_set(info, known[k], word_at(line, 2));
        if (is_word(line, 1, "nc_var_align_size"))
            MPI_Info_set(info, "nc_record_align_size", word_at(line, 2));
    }
    return info;
}

static void define_dim(int ncid, const Line *line)
{
    int id;
    MPI_Offset length = is_word(line, 2, "unlimited") ? NC_UNLIMITED : size_of_word(line, 2);
    check(line->number, ncmpi_def_dim(ncid, word_at(line, 1), length, &id));
}

static const External *type_at(const Line *line, int at)
{
    const External *type = external_of_word(word_at(line, at));
    if (type == NULL)
        stop(line->number, "unknown word");
    return type;
}

static void define_var(int ncid, const Line *line)
{
    int id, dims[DIMS], count = 0;
    char *names = (char *)word_at(line, 3) + 1;
    for (char *name = strtok(names, ",]"); name != NULL; name = strtok(NULL, ",]")) {
        if (count == DIMS)
            stop(line->number, "limit of vardims");
        check(line->number, ncmpi_inq_dimid(ncid, name, &dims[count++]));
    }
    check(line->number, ncmpi_def_var(ncid, word_at(line, 2), type_at(line, 1)->type, count, dims, &id));
}

static void define_att(int ncid, const Line *line)
{
    int owner = NC_GLOBAL;
    const External *type = type_at(line, 3);
    Values values = read_values(line, 4);
    void *memory = room(values.count, type->size);
    if (!is_word(line, 1, ":"))
        check(line->number, ncmpi_inq_varid(ncid, word_at(line, 1), &owner));
    for (size_t i = 0; i < values.count; i++)
        store_value(type, memory, i, values.of[i]);
    check(line->number, ncmpi_put_att(ncid, owner, word_at(line, 2), type->type, (MPI_Offset)values.count, memory));
    free(memory);
    free(values.of);
}

/* PnetCDF fills a record only of a variable whose fill mode is on. */
static void let_records_fill(int ncid, const Script *script)
{
    int id;
    for (int i = 0; i < script->calls; i++)
        if (is_word(&script->call[i], 1, "fill_var_rec") && ncmpi_inq_varid(ncid, word_at(&script->call[i], 2), &id) == NC_NOERR)
            ncmpi_def_var_fill(ncid, id, 0, NULL);
}

static bool defines(const Script *script)
{
    for (int i = 0; i < script->definitions; i++)
        if (!is_word(&script->definition[i], 0, "hint"))
            return true;
    return false;
}

static void define(int ncid, const Script *script)
{
    int old;
    if (!script->fresh && !defines(script))
        return;
    if (!script->fresh)
        check(0, ncmpi_redef(ncid));
    if (script->filled)
        check(0, ncmpi_set_fill(ncid, NC_FILL, &old));
    for (int i = 0; i < script->definitions; i++) {
        const Line *line = &script->definition[i];
        if (is_word(line, 0, "dim"))
            define_dim(ncid, line);
        else if (is_word(line, 0, "var"))
            define_var(ncid, line);
        else if (is_word(line, 0, "att"))
            define_att(ncid, line);
        else if (!is_word(line, 0, "hint"))
            stop(line->number, "unknown word");
    }
    let_records_fill(ncid, script);
    check(0, ncmpi_enddef(ncid));
}

static int begin(const Script *script, const char *path)
{
    int ncid, form = script->version == 5 ? NC_64BIT_DATA : script->version == 2 ? NC_64BIT_OFFSET : 0;
    MPI_Info info = hints_of(script);
    if (script->fresh)
        check(0, ncmpi_create(MPI_COMM_WORLD, path, NC_CLOBBER | form, info, &ncid));
    else
        check(0, ncmpi_open(MPI_COMM_WORLD, path, NC_WRITE, info, &ncid));
    MPI_Info_free(&info);
    define(ncid, script);
    return ncid;
}

/* The text of a rank as rank 0 gets it. */
static Text gathered(const Text *own, int rank, int of, int tag)
{
    Text text = *own;
    long long length = (long long)own->length;
    if (length > INT_MAX)
        stop(0, "a rank's text is too long for a message");
    if (rank == of && rank != 0) {
        MPI_Send(&length, 1, MPI_LONG_LONG_INT, 0, tag, MPI_COMM_WORLD);
        MPI_Send(own->bytes, (int)length, MPI_CHAR, 0, tag, MPI_COMM_WORLD);
    } else if (rank == 0 && of != 0) {
        MPI_Recv(&length, 1, MPI_LONG_LONG_INT, of, tag, MPI_COMM_WORLD, MPI_STATUS_IGNORE);
        text = (Text){room((size_t)length + 1, 1), (size_t)length, 0};
        MPI_Recv(text.bytes, (int)length, MPI_CHAR, of, tag, MPI_COMM_WORLD, MPI_STATUS_IGNORE);
    }
    return text;
}

/* An order that is in keeping with what the ranks did: between two meetings their independent calls, rank by rank. */
static void print_order(Run *run)
{
    const char **at = room((size_t)run->ranks, sizeof *at);
    add(&run->order, "\n");
    for (int r = 0; r < run->ranks; r++)
        at[r] = gathered(&run->order, run->rank, r, ORDER).bytes;
    if (run->rank == 0) {
        printf("order");
        for (int meeting = 0; *at[0] != '\0'; meeting++) {
            for (int r = 0; r < run->ranks; r++) {
                int length = (int)strcspn(at[r], "\n");
                printf("%.*s", length, at[r]);
                at[r] += length + (at[r][length] == '\n');
            }
            if (*at[0] != '\0')
                printf(" m%d", meeting);
        }
        printf("\n");
    }
    free(at);
}

static void print(Run *run, const char *path)
{
    if (run->rank == 0)
        printf("ranks %d\n", run->ranks);
    print_order(run);
    for (int r = 0; r < run->ranks; r++) {
        Text text = gathered(&run->answers, run->rank, r, ANSWERS);
        if (run->rank == 0)
            fwrite(text.bytes, 1, text.length, stdout);
    }
    if (run->rank == 0) {
        Text offsets = {NULL, 0, 0};
        add_offsets(&offsets, path);
        fwrite(offsets.bytes, 1, offsets.length, stdout);
        if (fflush(stdout) != 0)
            stop(0, "the text can't be written");
    }
}

static void replay(Run *run, const Script *script, const char *path)
{
    run->ncid = begin(script, path);
    add(&run->answers, "rank %d\n", run->rank);
    for (int i = 0; i < script->calls; i++)
        if (size_of_word(&script->call[i], 0) == run->rank)
            do_call(run, &script->call[i]);
    int left = pending(run);
    add(&run->answers, "pending %d\n", left);
    if (left > 0)
        check(0, ncmpi_cancel(run->ncid, NC_REQ_ALL, NULL, NULL));
    int code = ncmpi_close(run->ncid);
    if (code != NC_NOERR)
        fprintf(stderr, "ncreplay: rank %d: close: %s\n", run->rank, ncmpi_strerrno(code));
    MPI_Barrier(MPI_COMM_WORLD);
    print(run, path);
}

static const char usage[] = "usage: mpiexec -n RANKS ncreplay SCRIPT DATASET\n"
    "\n"
    "Does the script's calls on PnetCDF, one process for each of its ranks, and prints what ncrun prints.\n";

/* Answers --help and --version, for which no MPI is needed. */
static bool answer_alone(int argc, char **argv)
{
    if (argc != 2 || strncmp(argv[1], "--", 2) != 0)
        return false;
    if (strcmp(argv[1], "--version") == 0)
        printf("ncreplay %s\n", VERSION);
    else if (strcmp(argv[1], "--help") == 0)
        fputs(usage, stdout);
    else
        return false;
    return true;
}

int main(int argc, char **argv)
{
    if (answer_alone(argc, argv))
        return 0;
    Run run = {.call = 0};
    MPI_Init(&argc, &argv);
    MPI_Comm_rank(MPI_COMM_WORLD, &run.rank);
    MPI_Comm_size(MPI_COMM_WORLD, &run.ranks);
    if (argc != 3)
        stop(0, "usage: mpiexec -n RANKS ncreplay SCRIPT DATASET");
    Script *script = read_script(argv[1]);
    if (script->ranks != run.ranks)
        stop(0, "the script has %d ranks, and there are %d processes", script->ranks, run.ranks);
    replay(&run, script, argv[2]);
    MPI_Finalize();
    return 0;
}
