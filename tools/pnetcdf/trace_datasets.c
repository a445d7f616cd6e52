/* The calls that create, open, redefine, delete and close a dataset, and what is told of it then. */
#define _GNU_SOURCE
#include "trace.h"
#include "trace_datasets.h"

#include <errno.h>
#include <fcntl.h>
#include <stdio.h>
#include <stdlib.h>
#include <string.h>
#include <sys/stat.h>
#include <time.h>
#include <unistd.h>

enum { PATH_ROOM = 4096, BLOCK = 1 << 20 };

/* PnetCDF takes a prefix such as "ufs:" before a path. */
static const char *without_prefix(const char *path)
{
    const char *colon = strchr(path, ':'), *slash = strchr(path, '/');
    return colon != NULL && (slash == NULL || colon < slash) ? colon + 1 : path;
}

static void path_field(const char *path)
{
    char whole[2 * PATH_ROOM + 1], here[PATH_ROOM];
    if (path[0] == '/' || getcwd(here, sizeof here) == NULL)
        snprintf(whole, sizeof whole, "%s", path);
    else
        snprintf(whole, sizeof whole, "%s/%s", here, path);
    text_field("path", whole);
}

/* ---- copies of datasets, since a run of a script needs what stood there */

/* Copies the bytes from one place to another one. */
static bool copy_bytes(int from, int to, off_t start, off_t end)
{
    char *block = malloc(BLOCK);
    bool whole = block != NULL;
    while (whole && start < end) {
        ssize_t length = pread(from, block, end - start < BLOCK ? (size_t)(end - start) : BLOCK, start);
        whole = length > 0 && pwrite(to, block, (size_t)length, start) == length;
        start += length > 0 ? length : 0;
    }
    free(block);
    return whole;
}

/* Copies what is written of a file; holes stay holes. */
static bool copy_data(int from, int to, off_t size)
{
    off_t at = 0;
    while (at < size) {
        off_t start = lseek(from, at, SEEK_DATA);
        if (start < 0 && errno == ENXIO)
            break;
        off_t end = start < 0 ? size : lseek(from, start, SEEK_HOLE);
        start = start < 0 ? at : start;
        end = end < 0 ? size : end;
        if (!copy_bytes(from, to, start, end))
            return false;
        at = end;
    }
    return ftruncate(to, size) == 0;
}

/* Copies the dataset as it is now beside the trace; the answer is the copy's name without its folder, or an empty one where there is no such
   file, or `changed` holds and nobody changed it in this run. */
static const char *keep_before(const char *from, bool changed, char *path, size_t room)
{
    static _Atomic int copies;
    static _Atomic time_t began;
    struct stat found;
    time_t none = 0;
    __atomic_compare_exchange_n((time_t *)&began, &none, time(NULL), false, __ATOMIC_SEQ_CST, __ATOMIC_SEQ_CST);
    if (!values_wanted() || stat(from, &found) != 0 || !S_ISREG(found.st_mode) || (changed && found.st_mtime < began - 1))
        return "";
    int in = open(from, O_RDONLY | O_CLOEXEC);
    snprintf(path, room, "%s.before.%d", trace_name(), copies++);
    int out = in < 0 ? -1 : open(path, O_WRONLY | O_CREAT | O_TRUNC | O_CLOEXEC, 0666);
    bool whole = out >= 0 && copy_data(in, out, found.st_size);
    if (!whole)
        fprintf(stderr, "nctrace: %s wasn't copied to %s: %s\n", from, path, strerror(errno));
    if (in >= 0)
        close(in);
    if (out >= 0)
        close(out);
    return whole ? strrchr(path, '/') + 1 : "";
}

static void before_field(const char *path, bool changed)
{
    char room[2 * PATH_ROOM + 32];
    const char *name = line_open() ? keep_before(without_prefix(path), changed, room, sizeof room) : "";
    if (name[0] != '\0')
        text_field("before", name);
}

/* The datasets of which this rank is the first one: it makes the copies. */
static _Atomic bool first_of[NC_MAX_NFILES];

static void note_first(MPI_Comm comm, int ncid)
{
    int rank;
    MPI_Comm_rank(comm, &rank);
    if (ncid >= 0 && ncid < NC_MAX_NFILES)
        first_of[ncid] = rank == 0;
}

/* The dataset with what all ranks have put so far. All ranks come here, also those whose traces are full: PnetCDF's sync meets them, so that
   nothing is under way while the first one copies. In define mode it answers at once, and nothing is copied. */
static void so_far_field(int ncid)
{
    int length = 0;
    if (!values_wanted() || REAL(sync)(ncid) != NC_NOERR)
        return;
    if (ncid < NC_MAX_NFILES && first_of[ncid] && ncmpi_inq_path(ncid, &length, NULL) == NC_NOERR) {
        char *path = calloc((size_t)length + 1, 1);
        if (path != NULL && ncmpi_inq_path(ncid, NULL, path) == NC_NOERR)
            before_field(path, false);
        free(path);
    }
    REAL(sync)(ncid);
}

/* ---- what PnetCDF tells of an open dataset */

static void hints_field(int ncid)
{
    MPI_Info info;
    int count = 0;
    if (!line_open() || ncmpi_inq_file_info(ncid, &info) != NC_NOERR || info == MPI_INFO_NULL)
        return;
    MPI_Info_get_nkeys(info, &count);
    say(",\"hints\":{");
    for (int i = 0; i < count; i++) {
        char key[MPI_MAX_INFO_KEY + 1], value[MPI_MAX_INFO_VAL + 1] = "";
        int set = 0;
        MPI_Info_get_nthkey(info, i, key);
        MPI_Info_get(info, key, MPI_MAX_INFO_VAL, value, &set);
        say(i == 0 ? "" : ",");
        say_text(key);
        say(":");
        say_text(value);
    }
    say("}");
    MPI_Info_free(&info);
}

/* Where the variables lie, so that the alignments can be told. */
static void layout_fields(int ncid)
{
    MPI_Offset extent = 0, record = 0;
    int count = 0;
    if (ncmpi_inq_header_extent(ncid, &extent) == NC_NOERR)
        number_field("extent", extent);
    if (ncmpi_inq_recsize(ncid, &record) == NC_NOERR)
        number_field("recsize", record);
    if (ncmpi_inq_nvars(ncid, &count) != NC_NOERR)
        return;
    MPI_Offset *begins = calloc((size_t)count + 1, sizeof *begins);
    bool told = begins != NULL;
    for (int i = 0; told && i < count; i++)
        told = ncmpi_inq_varoffset(ncid, i, &begins[i]) == NC_NOERR;
    if (told)
        list_field("begins", count, begins);
    free(begins);
}

void defined_fields(int ncid)
{
    if (!line_open())
        return;
    layout_fields(ncid);
    hints_field(ncid);
}

static void say_variable(int ncid, int number)
{
    char name[NC_MAX_NAME + 1] = "";
    nc_type type = NC_NAT;
    int dims = 0;
    ncmpi_inq_varname(ncid, number, name);
    ncmpi_inq_vartype(ncid, number, &type);
    ncmpi_inq_varndims(ncid, number, &dims);
    int *ids = calloc((size_t)dims + 1, sizeof *ids);
    if (ids == NULL || ncmpi_inq_vardimid(ncid, number, ids) != NC_NOERR)
        dims = 0;
    say(number == 0 ? "[" : ",[");
    say_text(name);
    say(",%d,[", type);
    for (int i = 0; i < dims; i++)
        say(i == 0 ? "%d" : ",%d", ids[i]);
    say("]]");
    free(ids);
}

/* What an opened dataset has, which the calls name by numbers. */
static void contents_fields(int ncid)
{
    int dims = 0, vars = 0, unlimited = -1;
    if (!line_open() || ncmpi_inq_ndims(ncid, &dims) != NC_NOERR || ncmpi_inq_nvars(ncid, &vars) != NC_NOERR)
        return;
    ncmpi_inq_unlimdim(ncid, &unlimited);
    number_field("unlimited", unlimited);
    say(",\"dimensions\":[");
    for (int i = 0; i < dims; i++) {
        char name[NC_MAX_NAME + 1] = "";
        MPI_Offset length = 0;
        ncmpi_inq_dim(ncid, i, name, &length);
        say(i == 0 ? "[" : ",[");
        say_text(name);
        say(",%lld]", (long long)length);
    }
    say("],\"variables\":[");
    for (int i = 0; i < vars; i++)
        say_variable(ncid, i);
    say("]");
}

/* ---- the calls */

static void begin_opening(const char *call, MPI_Comm comm, const char *path, int mode)
{
    int rank;
    MPI_Comm_rank(comm, &rank);
    begin_dataset(call);
    path_field(without_prefix(path));
    world_field("world", comm);
    number_field("rank", rank);
    number_field("mode", mode);
    if (rank == 0)
        before_field(path, strcmp(call, "create") == 0);
    call_made();
}

static void opened_fields(int code, const int *ncid)
{
    const char *safe = getenv("PNETCDF_SAFE_MODE");
    int format = 0;
    call_answered();
    if (safe != NULL && *safe != '\0')
        number_field("safe_mode", strcmp(safe, "0") != 0);
    if (code != NC_NOERR)
        return;
    dataset_opened(*ncid);
    if (ncmpi_inq_format(*ncid, &format) == NC_NOERR)
        number_field("format", format);
}

int ncmpi_create(MPI_Comm comm, const char *path, int cmode, MPI_Info info, int *ncidp)
{
    begin_opening("create", comm, path, cmode);
    int code = REAL(create)(comm, path, cmode, info, ncidp);
    opened_fields(code, ncidp);
    if (code == NC_NOERR) {
        note_first(comm, *ncidp);
        hints_field(*ncidp);
    }
    return end_call(code);
}

int ncmpi_open(MPI_Comm comm, const char *path, int omode, MPI_Info info, int *ncidp)
{
    begin_opening("open", comm, path, omode);
    int code = REAL(open)(comm, path, omode, info, ncidp);
    opened_fields(code, ncidp);
    if (code == NC_NOERR) {
        note_first(comm, *ncidp);
        contents_fields(*ncidp);
        defined_fields(*ncidp);
    }
    return end_call(code);
}

int ncmpi_redef(int ncid)
{
    begin_call(ncid, "redef");
    call_made();
    so_far_field(ncid);
    call_begins();
    return end_call(REAL(redef)(ncid));
}

int ncmpi_delete(const char *filename, MPI_Info info)
{
    begin_delete();
    path_field(without_prefix(filename));
    before_field(filename, true);
    call_made();
    return end_call(REAL(delete)(filename, info));
}

static int closing(const char *name, int ncid, int (*real)(int))
{
    begin_call(ncid, name);
    call_made();
    drop_posted(ncid);
    int code = real(ncid);
    dataset_closed(ncid);
    return end_call(code);
}

int ncmpi_close(int ncid)
{
    return closing("close", ncid, REAL(close));
}

int ncmpi_abort(int ncid)
{
    return closing("abort", ncid, REAL(abort));
}
