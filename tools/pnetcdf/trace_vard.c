/* Puts and gets whose region is an MPI type of the file: told by the boxes of the variables that it reaches, in the order of the values. */
#include "trace.h"
#include "trace_types.h"

#include <stdlib.h>
#include <string.h>

enum {
    BOXES = 1024,   /* how many are told */
    DIMS = 64       /* dimensions of a variable that is taken apart */
};

typedef struct {
    int dims;
    size_t elements, count, room;
    MPI_Offset *lists;      /* of each box its start and its count */
} Boxes;

static MPI_Offset *start_of(const Boxes *boxes, size_t k)
{
    return boxes->lists + 2 * k * (size_t)boxes->dims;
}

static MPI_Offset *count_of(const Boxes *boxes, size_t k)
{
    return start_of(boxes, k) + boxes->dims;
}

/* Adds a box of one element; false where there is no room. */
static bool add_element(Boxes *boxes, const MPI_Offset *index)
{
    if (boxes->count == boxes->room) {
        size_t room = 2 * boxes->room + 64;
        MPI_Offset *lists = realloc(boxes->lists, (2 * room * (size_t)boxes->dims + 1) * sizeof *lists);
        if (lists == NULL)
            return false;
        boxes->lists = lists;
        boxes->room = room;
    }
    size_t k = boxes->count++;
    boxes->elements++;
    for (int i = 0; i < boxes->dims; i++) {
        start_of(boxes, k)[i] = index[i];
        count_of(boxes, k)[i] = 1;
    }
    return true;
}

/* Whether the second box goes on where the first one ends along that dimension, its values after the first one's. */
static bool goes_on(const Boxes *boxes, size_t first, size_t second, int along)
{
    const MPI_Offset *start = start_of(boxes, first), *count = count_of(boxes, first);
    const MPI_Offset *next = start_of(boxes, second), *more = count_of(boxes, second);
    for (int i = 0; i < boxes->dims; i++) {
        if (i == along ? start[i] + count[i] != next[i] : start[i] != next[i] || count[i] != more[i])
            return false;
        if (i < along && count[i] != 1)
            return false;
    }
    return true;
}

/* Joins neighbours along a dimension. */
static void join(Boxes *boxes, int along)
{
    size_t last = 0;
    for (size_t k = 1; k < boxes->count; k++) {
        if (goes_on(boxes, last, k, along))
            count_of(boxes, last)[along] += count_of(boxes, k)[along];
        else if (++last != k)
            memcpy(start_of(boxes, last), start_of(boxes, k), 2 * (size_t)boxes->dims * sizeof(MPI_Offset));
    }
    if (boxes->count > 0)
        boxes->count = last + 1;
}

/* ---- the variables that a file type reaches; most reach one */

typedef struct {
    int var;
    MPI_Offset begin;       /* where it lies in the file */
    Shape shape;
    Boxes boxes;
} Member;

typedef struct {
    int ncid;
    MPI_Offset record_size;
    size_t count;
    Member *of;
} Members;

static void free_members(Members *members)
{
    for (size_t k = 0; k < members->count; k++) {
        free(members->of[k].shape.length);
        free(members->of[k].boxes.lists);
    }
    free(members->of);
}

/* Adds a variable; false where there is no room, or no such variable. */
static bool add_member(Members *members, int var)
{
    Member member = {.var = var};
    Member *of = realloc(members->of, (members->count + 1) * sizeof *of);
    if (of == NULL)
        return false;
    members->of = of;
    if (ncmpi_inq_varoffset(members->ncid, var, &member.begin) != NC_NOERR || !shape_of(members->ncid, var, &member.shape))
        return false;
    member.boxes.dims = member.shape.dims;
    of[members->count++] = member;
    return member.shape.dims <= DIMS && basic_of_variable(member.shape.type) != OTHER;
}

/* The index of the element that begins at a place in the file; false where the variable has none there. */
static bool index_of(const Members *members, const Member *member, MPI_Offset place, MPI_Offset *index)
{
    const Shape *shape = &member->shape;
    MPI_Offset size = (MPI_Offset)basic_size(basic_of_variable(shape->type)), rest = place - member->begin;
    bool records = shape->record == 0;
    if (rest < 0 || (records && members->record_size <= 0))
        return false;
    if (records) {
        index[0] = rest / members->record_size;
        rest %= members->record_size;
    }
    if (rest % size != 0)
        return false;
    rest /= size;
    for (int i = shape->dims - 1; i >= (records ? 1 : 0); i--) {
        if (shape->length[i] == 0)
            return false;
        index[i] = rest % shape->length[i];
        rest /= shape->length[i];
    }
    return rest == 0;
}

/* Adds the element at a place in the file to the last variable, or to the one that lies there. */
static bool add_place(Members *members, MPI_Offset place)
{
    MPI_Offset index[DIMS];
    int vars = 0;
    Member *last = &members->of[members->count - 1];
    if (index_of(members, last, place, index))
        return add_element(&last->boxes, index);
    ncmpi_inq_nvars(members->ncid, &vars);
    for (int var = 0; var < vars && members->count < BOXES; var++) {
        if (!add_member(members, var))
            return false;
        last = &members->of[members->count - 1];
        if (index_of(members, last, place, index))
            return add_element(&last->boxes, index);
        free(last->shape.length);
        members->count--;
    }
    return false;
}

/* The elements that a file type reaches, by boxes; why not, where it can't be told. */
static const char *take_boxes(Members *members, const Typed *typed, size_t size)
{
    int length = 0;
    MPI_Offset begin = members->of[0].begin;
    unsigned *places = places_of(typed->file_type, &length);
    const char *why = places == NULL ? "a file type that goes back, or over more than 64 MiB" : NULL;
    for (size_t i = 0; why == NULL && i < (size_t)length; i++) {
        if (places[i] != places[i - i % size] + i % size)
            why = "a file type that takes elements apart";
        else if (i % size == 0 && !add_place(members, begin + places[i]))
            why = "a file type that reaches where no variable lies";
    }
    for (size_t k = 0; why == NULL && k < members->count; k++)
        for (int along = members->of[k].shape.dims - 1; along >= 0; along--)
            join(&members->of[k].boxes, along);
    free(places);
    return why;
}

/* ---- the fields */

static void boxes_fields(const Boxes *boxes)
{
    number_field("dims", boxes->dims);
    if (boxes->count > BOXES) {
        number_field("boxes", (long long)boxes->count);
        return;
    }
    number_field("parts", (long long)boxes->count);
    for (int counts = 0; counts < 2 && line_open(); counts++) {
        say(counts ? ",\"counts\":[" : ",\"starts\":[");
        for (size_t k = 0; k < boxes->count; k++) {
            say(k == 0 ? "" : ",");
            say_list(boxes->dims, counts ? count_of(boxes, k) : start_of(boxes, k));
        }
        say("]");
    }
}

/* One variable is told like a varn call; several ones are told one after another. */
static void members_fields(const Members *members)
{
    size_t first = members->count > 1 && members->of[0].boxes.count == 0 ? 1 : 0;
    if (members->count == 1) {
        boxes_fields(&members->of[0].boxes);
        return;
    }
    say(",\"members\":[");
    for (size_t k = first; k < members->count; k++) {
        say(k == first ? "{\"var\":%d" : ",{\"var\":%d", members->of[k].var);
        boxes_fields(&members->of[k].boxes);
        number_field("elements", (long long)members->of[k].boxes.elements);
        say("}");
    }
    say("]");
}

/* A call without a file type, or without values, takes part with nothing. */
static bool is_empty(const Typed *typed)
{
    return typed->file_type == MPI_DATATYPE_NULL || (typed->bufcount == 0 && typed->type != MPI_DATATYPE_NULL);
}

static void typed_fields(const Typed *typed, Members *members, Memory *memory)
{
    Access access = {.direction = typed->direction, .form = VARN, .ncid = typed->ncid, .varid = typed->varid, .buffer = typed->buffer,
                     .flexible = true, .bufcount = typed->bufcount, .type = typed->type};
    Shape shape = members->of[0].shape;
    size_t size = basic_size(basic_of_variable(shape.type));
    int bytes = 0;
    ncmpi_inq_recsize(typed->ncid, &members->record_size);
    const char *why = is_empty(typed) ? NULL : take_boxes(members, typed, size);
    if (why != NULL)
        text_field("why", why);
    else
        members_fields(members);
    if (!is_empty(typed))
        MPI_Type_size(typed->file_type, &bytes);
    MPI_Offset elements = bytes / (int)size;
    number_field("elements", elements);
    *memory = memory_of(&access, &shape, elements);
    memory_fields(memory, is_put(typed->direction));
    if (is_put(typed->direction))
        stored_field(memory, true);
}

void begin_typed(const Typed *typed, Memory *memory)
{
    Members members = {.ncid = typed->ncid};
    *memory = (Memory){.basic = OTHER, .own = OTHER, .type = MPI_DATATYPE_NULL};
    begin_call(typed->ncid, typed->name);
    number_field("var", typed->varid);
    if (line_open() && add_member(&members, typed->varid))
        typed_fields(typed, &members, memory);
    free_members(&members);
    call_made();
}

int end_typed(const Typed *typed, Memory *memory, int code)
{
    call_answered();
    if (typed->direction == GET && (code == NC_NOERR || code == NC_ERANGE))
        stored_field(memory, false);
    free_memory(memory);
    return end_call(code);
}
