/* Puts, gets and posts of a script on PnetCDF, by the flexible functions of the form that the script names. */
#include "access.h"

#include <stdlib.h>
#include <string.h>

#define BY_FORM(verb, all, ...)                                                                                              \
    switch (a->form) {                                                                                                       \
    case VAR1: return ncmpi_##verb##_var1##all(ncid, a->varid, a->start, __VA_ARGS__);                                       \
    case VAR: return ncmpi_##verb##_var##all(ncid, a->varid, __VA_ARGS__);                                                   \
    case VARA: return ncmpi_##verb##_vara##all(ncid, a->varid, a->start, a->count, __VA_ARGS__);                             \
    case VARS: return ncmpi_##verb##_vars##all(ncid, a->varid, a->start, a->count, a->stride, __VA_ARGS__);                  \
    case VARM: return ncmpi_##verb##_varm##all(ncid, a->varid, a->start, a->count, a->stride, a->imap, __VA_ARGS__);         \
    default: return ncmpi_##verb##_varn##all(ncid, a->varid, a->parts, a->starts, a->counts, __VA_ARGS__);                   \
    }

static int put_all(int ncid, Access *a) { BY_FORM(put, _all, a->memory, a->elements, a->memory_type->memory) }
static int put(int ncid, Access *a) { BY_FORM(put, , a->memory, a->elements, a->memory_type->memory) }
static int get_all(int ncid, Access *a) { BY_FORM(get, _all, a->memory, a->elements, a->memory_type->memory) }
static int get(int ncid, Access *a) { BY_FORM(get, , a->memory, a->elements, a->memory_type->memory) }
static int iput(int ncid, Access *a, int *request) { BY_FORM(iput, , a->memory, a->elements, a->memory_type->memory, request) }
static int iget(int ncid, Access *a, int *request) { BY_FORM(iget, , a->memory, a->elements, a->memory_type->memory, request) }
static int bput(int ncid, Access *a, int *request) { BY_FORM(bput, , a->memory, a->elements, a->memory_type->memory, request) }

int blocking_call(int ncid, Access *access)
{
    if (access->verb == PUT)
        return access->all ? put_all(ncid, access) : put(ncid, access);
    return access->all ? get_all(ncid, access) : get(ncid, access);
}

int posting_call(int ncid, Access *access, int *request)
{
    if (access->verb == IPUT)
        return iput(ncid, access, request);
    return access->verb == IGET ? iget(ncid, access, request) : bput(ncid, access, request);
}

/* ---- from words to a call */

bool read_verb(const char *word, Access *access)
{
    static const struct { const char *prefix; Verb verb; } verbs[] = {
        {"put_", PUT}, {"get_", GET}, {"iput_", IPUT}, {"iget_", IGET}, {"bput_", BPUT},
    };
    static const char *const forms[] = {"var1", "var", "vara", "vars", "varm", "varn"};
    for (int v = 0; v < 5; v++) {
        size_t length = strlen(verbs[v].prefix);
        if (strncmp(word, verbs[v].prefix, length) != 0)
            continue;
        access->verb = verbs[v].verb;
        word += length;
        access->all = strlen(word) > 4 && strcmp(word + strlen(word) - 4, "_all") == 0;
        for (int f = 0; f < 6; f++)
            if (strlen(word) == strlen(forms[f]) + (access->all ? 4 : 0) && strncmp(word, forms[f], strlen(forms[f])) == 0) {
                access->form = (Form)f;
                return true;
            }
    }
    return false;
}

void find_variable(int ncid, const char *name, Access *access)
{
    nc_type type = NC_INT;
    int ids[DIMS], unlimited = -1;
    access->record = -1;
    if (ncmpi_inq_varid(ncid, name, &access->varid) != NC_NOERR) {
        ncmpi_inq_nvars(ncid, &access->varid);
        access->dims = -1;
    } else {
        ncmpi_inq_vartype(ncid, access->varid, &type);
        ncmpi_inq_varndims(ncid, access->varid, &access->dims);
        if (access->dims > DIMS)
            stop(0, "variable %s has more than %d dimensions", name, DIMS);
        ncmpi_inq_vardimid(ncid, access->varid, ids);
        ncmpi_inq_unlimdim(ncid, &unlimited);
        for (int i = 0; i < access->dims; i++) {
            ncmpi_inq_dimlen(ncid, ids[i], &access->length[i]);
            if (ids[i] == unlimited)
                access->record = i;
        }
    }
    access->type = access->memory_type = external_of_type(type);
}

static void read_list(const Line *line, int at, Access *access, MPI_Offset *list)
{
    int count = list_of_word(line, at, list, DIMS);
    if (access->dims >= 0 && count != access->dims)
        access->refusal = "NC_EINVALCOORDS";
}

/* The boxes of a varn call; the answer is the first word after them. */
static int read_parts(const Line *line, int at, Access *access)
{
    long long parts = size_of_word(line, at++);
    if (parts < 1 || parts > PARTS)
        stop(line->number, "limit of parts");
    access->parts = (int)parts;
    access->starts = room((size_t)parts, sizeof *access->starts);
    access->counts = room((size_t)parts, sizeof *access->counts);
    for (int k = 0; k < access->parts; k++) {
        access->starts[k] = room(DIMS, sizeof(MPI_Offset));
        access->counts[k] = room(DIMS, sizeof(MPI_Offset));
        read_list(line, at++, access, access->starts[k]);
        read_list(line, at++, access, access->counts[k]);
    }
    return at;
}

static int read_region(const Line *line, int at, Access *access)
{
    MPI_Offset *const lists[] = {access->start, access->count, access->stride, access->imap};
    static const int used[] = {[VAR1] = 1, [VAR] = 0, [VARA] = 2, [VARS] = 3, [VARM] = 4};
    if (access->form == VARN)
        return read_parts(line, at, access);
    for (int i = 0; i < used[access->form]; i++)
        read_list(line, at++, access, lists[i]);
    return at;
}

/* The product, or one past the limit where it is greater. */
static MPI_Offset product(int dims, const MPI_Offset *count)
{
    MPI_Offset made = 1;
    for (int i = 0; i < dims; i++) {
        if (count[i] == 0)
            return 0;
        made = made > ELEMENTS || count[i] > ELEMENTS / made ? ELEMENTS + 1 : made * count[i];
    }
    return made;
}

/* The values of memory that an index map spans, or one past the limit where they are more; each count is 1 or more. */
static MPI_Offset spanned(int dims, const MPI_Offset *count, const MPI_Offset *imap)
{
    MPI_Offset last = 0;
    for (int i = 0; i < dims; i++) {
        if (count[i] > 1 && imap[i] > ELEMENTS / (count[i] - 1))
            return ELEMENTS + 1;
        last += (count[i] - 1) * imap[i];
    }
    return last < ELEMENTS ? last + 1 : ELEMENTS + 1;
}

static void measure(Access *access)
{
    int dims = access->dims > 0 ? access->dims : 0;
    access->elements = 0;
    for (int k = 0; k < access->parts; k++)
        access->elements += product(dims, access->counts[k]);
    if (access->form != VARN)
        access->elements = access->form == VAR1 ? 1 : product(dims, access->form == VAR ? access->length : access->count);
    access->reach = access->elements;
    if (access->form == VARM && access->elements > 0 && access->elements <= ELEMENTS)
        access->reach = spanned(dims, access->count, access->imap);
    if (access->refusal == NULL && (access->elements > ELEMENTS || access->reach > ELEMENTS))
        access->refusal = "ETOOLARGE";
}

static bool box_inside(const Access *access, const MPI_Offset *start, const MPI_Offset *count, const MPI_Offset *stride)
{
    for (int i = 0; i < access->dims; i++) {
        MPI_Offset n = count == NULL ? 1 : count[i], step = stride == NULL ? 1 : stride[i];
        if (step < 1)
            return false;
        if (n > 0 && i != access->record
            && (start[i] >= access->length[i] || n - 1 > (access->length[i] - 1 - start[i]) / step))
            return false;
    }
    return true;
}

/* Whether a put's region lies in its variable; else PnetCDF is to say what is wrong with it. */
static bool lies_inside(const Access *access)
{
    for (int k = 0; k < access->parts; k++)
        if (!box_inside(access, access->starts[k], access->counts[k], NULL))
            return false;
    if (access->dims < 0 || access->form == VAR || access->form == VARN)
        return access->dims >= 0;
    return box_inside(access, access->start, access->form == VAR1 ? NULL : access->count,
                      access->form >= VARS ? access->stride : NULL);
}

/* What is wrong with a put's values that PnetCDF can't be asked: its flexible functions end the program at text for numbers,
   turn floats into numbers, and read as many values as the region has. */
static const char *values_refused(const Access *access, const Values *values)
{
    bool bits = access->type->type == NC_FLOAT || access->type->type == NC_DOUBLE;
    if (access->elements == 0 || !lies_inside(access))
        return NULL;
    if ((access->type->type == NC_CHAR) != (values->kind == CHARACTERS))
        return "NC_ECHAR";
    if (values->kind != CHARACTERS && bits != (values->kind == PATTERNS))
        return "NC_EBADTYPE";
    return values->count < (size_t)access->reach ? "EMAPSIZE" : NULL;
}

static void take_values(const Line *line, int at, Access *access)
{
    bool put = access->verb != GET && access->verb != IGET;
    Values values = {NUMBERS, 0, NULL};
    if (put)
        values = read_values(line, at);
    else if (at < line->count)
        stop(line->number, "word too many");
    size_t length = access->refusal == NULL ? (size_t)access->reach : 0;
    if (put && access->refusal == NULL)
        access->refusal = values_refused(access, &values);
    if (put && values.kind != CHARACTERS)
        access->memory_type = memory_type(access->type, &values);
    if (access->memory_type == NULL)
        stop(line->number, "a number that no type of C holds");
    access->memory = room(length > values.count ? length : values.count, 8);
    for (size_t i = 0; i < values.count; i++)
        store_value(access->memory_type, access->memory, i, values.of[i]);
    free(values.of);
}

int take_part(int ncid, Access *access)
{
    Access empty = {.verb = access->verb, .all = access->all, .form = VARA, .varid = access->varid, .memory = access->memory,
                    .memory_type = access->type};
    return blocking_call(ncid, &empty);
}

void read_access(int ncid, const Line *line, int at, Access *access)
{
    find_variable(ncid, word_at(line, at), access);
    at = read_region(line, at + 1, access);
    measure(access);
    take_values(line, at, access);
}
