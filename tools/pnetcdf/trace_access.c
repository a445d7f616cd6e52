/* Puts, gets and attributes: what of a user's memory a call may touch, and the fields that tell it. */
#include "trace.h"
#include "trace_types.h"

#include <stdlib.h>
#include <string.h>

static const MPI_Offset MOST = (MPI_Offset)1 << 40;     /* values of one call, past which they are not counted */

bool is_put(Direction direction)
{
    return direction == PUT || direction == POSTED_PUT || direction == BUFFERED_PUT;
}

/* ---- the variable, and the region in it */

bool shape_of(int ncid, int varid, Shape *shape)
{
    int unlimited = -1;
    *shape = (Shape){.record = -1};
    if (ncmpi_inq_varndims(ncid, varid, &shape->dims) != NC_NOERR || ncmpi_inq_vartype(ncid, varid, &shape->type) != NC_NOERR
        || ncmpi_inq_unlimdim(ncid, &unlimited) != NC_NOERR)
        return false;
    int *ids = calloc((size_t)shape->dims + 1, sizeof *ids);
    shape->length = calloc((size_t)shape->dims + 1, sizeof *shape->length);
    bool known = ids != NULL && shape->length != NULL && ncmpi_inq_vardimid(ncid, varid, ids) == NC_NOERR;
    for (int i = 0; known && i < shape->dims; i++) {
        if (ids[i] == unlimited)
            shape->record = i;
        known = ncmpi_inq_dimlen(ncid, ids[i], &shape->length[i]) == NC_NOERR;
    }
    free(ids);
    if (!known) {
        free(shape->length);
        shape->length = NULL;
    }
    return known;
}

/* Whether the region lies in the variable, where a put may add records. */
static bool lies_inside(const Shape *shape, const MPI_Offset *start, const MPI_Offset *count, const MPI_Offset *stride)
{
    if (shape->dims > 0 && start == NULL)
        return false;
    for (int i = 0; i < shape->dims; i++) {
        MPI_Offset n = count == NULL ? 1 : count[i], step = stride == NULL ? 1 : stride[i];
        if (start[i] < 0 || n < 0 || step < 1)
            return false;
        if (n > 0 && i != shape->record && (start[i] >= shape->length[i] || (n - 1) > (shape->length[i] - 1 - start[i]) / step))
            return false;
    }
    return true;
}

/* The product of the counts, -1 where it is too great. */
static MPI_Offset elements(int dims, const MPI_Offset *count)
{
    MPI_Offset product = 1;
    for (int i = 0; i < dims; i++)
        if (count[i] == 0)
            return 0;
    for (int i = 0; i < dims; i++) {
        if (count[i] > MOST / product)
            return -1;
        product *= count[i];
    }
    return product;
}

static MPI_Offset elements_of_parts(const Access *access, const Shape *shape)
{
    MPI_Offset sum = 0;
    for (int k = 0; k < access->parts; k++) {
        const MPI_Offset *count = access->counts == NULL ? NULL : access->counts[k];
        MPI_Offset own = count == NULL ? 1 : elements(shape->dims, count);
        if (!lies_inside(shape, access->starts[k], count, NULL) || own < 0)
            return -1;
        sum += own;
    }
    return sum;
}

/* How many elements the call reaches; -1 where its region is none of the variable. */
static MPI_Offset elements_reached(const Access *access, const Shape *shape)
{
    switch (access->form) {
    case VAR: return elements(shape->dims, shape->length);
    case VAR1: return lies_inside(shape, access->start, NULL, NULL) ? 1 : -1;
    case VARN: return access->starts == NULL && shape->dims > 0 ? -1 : elements_of_parts(access, shape);
    default: break;
    }
    if (shape->dims == 0)
        return 1;
    if (access->count == NULL || !lies_inside(shape, access->start, access->count, access->stride))
        return -1;
    return elements(shape->dims, access->count);
}

/* How many places of memory an index map spans; -1 where it goes back. */
static MPI_Offset places_spanned(const Access *access, int dims)
{
    MPI_Offset last = 0;
    for (int i = 0; i < dims; i++) {
        if (access->imap[i] < 0 || (access->imap[i] > 0 && access->count[i] - 1 > MOST / access->imap[i]))
            return -1;
        last += (access->count[i] - 1) * access->imap[i];
    }
    return last < MOST ? last + 1 : -1;
}

/* ---- the memory */

static MPI_Offset *copy_of(int count, const MPI_Offset *list)
{
    MPI_Offset *copy = malloc((size_t)(count > 0 ? count : 1) * sizeof *copy);
    if (copy != NULL && count > 0)
        memcpy(copy, list, (size_t)count * sizeof *copy);
    return copy;
}

/* Gives the memory its type, and says whether that many values may be read there. A flexible call of a type that isn't basic has as
   many values as its types together; one of a basic type has its count, but for -1, which stands for the region's. */
static bool take_type(Memory *memory, const Access *access, MPI_Offset values)
{
    if (!access->flexible || access->type == MPI_DATATYPE_NULL) {
        memory->basic = access->type == MPI_DATATYPE_NULL ? memory->own : basic_of(access->type);
        return memory->basic != OTHER;
    }
    memory->basic = element_of(access->type);
    if (memory->basic == OTHER)
        return false;
    if (basic_of(access->type) != OTHER)
        return access->bufcount == -1 || access->bufcount >= values;
    memory->count = access->bufcount;
    return access->bufcount >= 0 && access->bufcount * elements_of(access->type) == values
        && MPI_Type_dup(access->type, &memory->type) == MPI_SUCCESS;
}

Memory memory_of(const Access *access, const Shape *shape, MPI_Offset values)
{
    Memory memory = {.own = basic_of_variable(shape->type), .basic = OTHER, .length = values, .type = MPI_DATATYPE_NULL};
    bool mapped = access->form == VARM && access->imap != NULL && shape->dims > 0 && values > 0;
    if (mapped)
        memory.length = places_spanned(access, shape->dims);
    bool told = take_type(&memory, access, values) && values >= 0 && memory.length >= 0;
    if (!told || (mapped && memory.type != MPI_DATATYPE_NULL && memory.length > values))
        return memory;
    memory.buffer = access->buffer;
    if (mapped) {
        memory.dims = shape->dims;
        memory.counts = copy_of(shape->dims, access->count);
        memory.imap = copy_of(shape->dims, access->imap);
        if (memory.counts == NULL || memory.imap == NULL)
            memory.buffer = NULL;
    }
    if (converts(&memory))
        ncmpi_inq_var_fill(access->ncid, access->varid, NULL, memory.fill);
    return memory;
}

/* ---- the fields */

static void say_parts(const char *name, int parts, int dims, MPI_Offset *const *lists)
{
    if (!line_open() || lists == NULL)
        return;
    say(",\"%s\":[", name);
    for (int k = 0; k < parts; k++) {
        say(k == 0 ? "" : ",");
        if (lists[k] == NULL)
            say("null");
        else
            say_list(dims, lists[k]);
    }
    say("]");
}

static void region_fields(const Access *access, int dims)
{
    number_field("dims", dims);
    list_field("start", dims, access->start);
    list_field("count", dims, access->count);
    list_field("stride", dims, access->stride);
    list_field("imap", dims, access->imap);
    if (access->form == VARN) {
        number_field("parts", access->parts);
        say_parts("starts", access->parts, dims, access->starts);
        say_parts("counts", access->parts, dims, access->counts);
    }
}

void access_fields(const Access *access, Memory *memory)
{
    Shape shape;
    *memory = (Memory){.basic = OTHER, .own = OTHER, .type = MPI_DATATYPE_NULL};
    if (!line_open() || !shape_of(access->ncid, access->varid, &shape))
        return;
    MPI_Offset values = elements_reached(access, &shape);
    *memory = memory_of(access, &shape, values);
    region_fields(access, shape.dims);
    number_field("elements", values);
    memory_fields(memory, is_put(access->direction));
    if (is_put(access->direction))
        stored_field(memory, true);
    free(shape.length);
}

void begin_access(const Access *access, Memory *memory)
{
    begin_call(access->ncid, access->name);
    number_field("var", access->varid);
    access_fields(access, memory);
    call_made();
}

int end_access(const Access *access, Memory *memory, int code, const int *request)
{
    bool filled = code == NC_NOERR || code == NC_ERANGE;
    call_answered();
    if (request != NULL && filled)
        number_field("request", *request);
    if (access->direction == GET && filled)
        stored_field(memory, false);
    if (request != NULL && filled && *request != NC_REQ_NULL && access->direction != BUFFERED_PUT && memory->buffer != NULL)
        keep_posted(access, *request, memory);
    else
        free_memory(memory);
    return end_call(code);
}

void attribute_fields(int varid, const char *name, nc_type xtype, Basic memory, MPI_Offset length, const void *values)
{
    number_field("var", varid);
    text_field("attribute", name);
    number_field("type", xtype);
    text_field("memory", basic_name(memory));
    values_field(memory, length, length == 0 ? "" : values);
}
