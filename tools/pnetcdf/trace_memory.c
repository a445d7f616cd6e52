/* Values in a user's memory: their types, how they lie there, and how they are kept in the file of values. */
#define _GNU_SOURCE
#include "trace.h"

#include <limits.h>
#include <math.h>
#include <stdio.h>
#include <stdlib.h>
#include <string.h>
#include <sys/uio.h>
#include <unistd.h>

static const struct { const char *name; size_t size; } basics[] = {
    [TEXT] = {"text", 1}, [SCHAR] = {"schar", 1}, [UCHAR] = {"uchar", 1}, [SHORT] = {"short", sizeof(short)},
    [USHORT] = {"ushort", sizeof(short)}, [INT] = {"int", sizeof(int)}, [UINT] = {"uint", sizeof(int)},
    [FLOAT] = {"float", sizeof(float)}, [DOUBLE] = {"double", sizeof(double)},
    [LONGLONG] = {"longlong", sizeof(long long)}, [ULONGLONG] = {"ulonglong", sizeof(long long)}, [OTHER] = {"other", 0},
};

const char *basic_name(Basic basic)
{
    return basics[basic].name;
}

size_t basic_size(Basic basic)
{
    return basics[basic].size;
}

Basic basic_of_variable(nc_type type)
{
    static const Basic owns[] = {OTHER, SCHAR, TEXT, SHORT, INT, FLOAT, DOUBLE, UCHAR, USHORT, UINT, LONGLONG, ULONGLONG};
    return type >= NC_BYTE && type <= NC_UINT64 ? owns[type] : OTHER;
}

typedef struct { MPI_Datatype type; Basic basic; } Pair;

Basic basic_of(MPI_Datatype type)
{
    const Basic whole = sizeof(long) == sizeof(int) ? INT : LONGLONG, natural = sizeof(long) == sizeof(int) ? UINT : ULONGLONG;
    const Pair pairs[] = {
        {MPI_CHAR, TEXT}, {MPI_SIGNED_CHAR, SCHAR}, {MPI_UNSIGNED_CHAR, UCHAR}, {MPI_SHORT, SHORT}, {MPI_UNSIGNED_SHORT, USHORT},
        {MPI_INT, INT}, {MPI_UNSIGNED, UINT}, {MPI_LONG, whole}, {MPI_UNSIGNED_LONG, natural}, {MPI_FLOAT, FLOAT},
        {MPI_DOUBLE, DOUBLE}, {MPI_LONG_LONG_INT, LONGLONG}, {MPI_UNSIGNED_LONG_LONG, ULONGLONG}, {MPI_INT8_T, SCHAR},
        {MPI_UINT8_T, UCHAR}, {MPI_INT16_T, SHORT}, {MPI_UINT16_T, USHORT}, {MPI_INT32_T, INT}, {MPI_UINT32_T, UINT},
        {MPI_INT64_T, LONGLONG}, {MPI_UINT64_T, ULONGLONG},
        /* Fortran's, as PnetCDF takes them */
        {MPI_CHARACTER, TEXT}, {MPI_INTEGER, INT}, {MPI_INTEGER1, SCHAR}, {MPI_INTEGER2, SHORT}, {MPI_INTEGER4, INT},
        {MPI_INTEGER8, LONGLONG}, {MPI_REAL, FLOAT}, {MPI_REAL4, FLOAT}, {MPI_REAL8, DOUBLE}, {MPI_DOUBLE_PRECISION, DOUBLE},
    };
    for (size_t i = 0; i < sizeof pairs / sizeof *pairs && type != MPI_DATATYPE_NULL; i++)
        if (type == pairs[i].type)
            return pairs[i].basic;
    return OTHER;
}

void free_memory(Memory *memory)
{
    if (memory->type != MPI_DATATYPE_NULL)
        MPI_Type_free(&memory->type);
    free(memory->counts);
    free(memory->imap);
    *memory = (Memory){.basic = OTHER, .own = OTHER, .type = MPI_DATATYPE_NULL};
}

/* ---- values one after another */

/* Marks the places of memory that the index map reaches. */
static void mark_reached(const Memory *memory, int dim, MPI_Offset at, char *reached)
{
    if (dim == memory->dims) {
        reached[at] = 1;
        return;
    }
    for (MPI_Offset i = 0; i < memory->counts[dim]; i++)
        mark_reached(memory, dim + 1, at + i * memory->imap[dim], reached);
}

/* Sets the places that the index map doesn't reach to zero: nobody may have set them. */
static bool clear_unreached(const Memory *memory, char *values)
{
    size_t size = basic_size(memory->basic);
    char *reached = calloc((size_t)memory->length + 1, 1);
    if (reached == NULL)
        return false;
    mark_reached(memory, 0, 0, reached);
    for (MPI_Offset i = 0; i < memory->length; i++)
        if (!reached[i])
            memset(values + (size_t)i * size, 0, size);
    free(reached);
    return true;
}

/* Copies memory of this process, which may not be there any more. */
static bool copy_safely(void *to, const void *from, size_t length)
{
    struct iovec here = {to, length}, there = {(void *)from, length};
    return process_vm_readv(getpid(), &here, 1, &there, 1, 0) == (ssize_t)length;
}

/* Packs values of a derived type from the bytes between its bounds. */
static bool pack(const Memory *memory, void *to, size_t length, bool safely)
{
    MPI_Aint low, extent, true_low, true_extent;
    int at = 0;
    if (length > INT_MAX || memory->count > INT_MAX)
        return false;
    if (!safely)
        return MPI_Pack(memory->buffer, (int)memory->count, memory->type, to, (int)length, &at, MPI_COMM_SELF) == MPI_SUCCESS;
    MPI_Type_get_extent(memory->type, &low, &extent);
    MPI_Type_get_true_extent(memory->type, &true_low, &true_extent);
    size_t span = (size_t)(true_extent + (memory->count - 1) * extent);
    char *copy = extent < 0 ? NULL : malloc(span + 1);
    bool done = copy != NULL && copy_safely(copy, (const char *)memory->buffer + true_low, span)
        && MPI_Pack(copy - true_low, (int)memory->count, memory->type, to, (int)length, &at, MPI_COMM_SELF) == MPI_SUCCESS;
    free(copy);
    return done;
}

void *packed_values(const Memory *memory, bool safely)
{
    size_t length = (size_t)memory->length * basic_size(memory->basic);
    char *values = memory->buffer == NULL ? NULL : malloc(length + 1);
    bool done = values != NULL;
    if (done && length > 0) {
        if (memory->type != MPI_DATATYPE_NULL)
            done = pack(memory, values, length, safely);
        else if (safely)
            done = copy_safely(values, memory->buffer, length);
        else
            memcpy(values, memory->buffer, length);
    }
    if (done && memory->imap != NULL)
        done = clear_unreached(memory, values);
    if (!done) {
        free(values);
        return NULL;
    }
    return values;
}

void sums_of(const Memory *memory, const void *values, unsigned long long sums[2])
{
    const unsigned char *bytes = values;
    size_t size = basic_size(memory->basic), count = (size_t)memory->length;
    sums[0] = sums[1] = 14695981039346656037ULL;    /* FNV-1a */
    for (size_t i = 0; i < count; i++)
        for (size_t k = 0; k < size; k++) {
            sums[0] = (sums[0] ^ bytes[i * size + k]) * 1099511628211ULL;
            sums[1] = (sums[1] ^ bytes[i * size + size - 1 - k]) * 1099511628211ULL;
        }
}

/* ---- the file of values */

void memory_fields(const Memory *memory, bool put)
{
    bool turned = put && converts(memory);
    text_field("memory", basic_name(turned ? memory->own : memory->basic));
    if (converts(memory))
        text_field("converted", basic_name(turned ? memory->basic : memory->own));
}

long long store_memory(const Memory *memory)
{
    size_t length = (size_t)memory->length * basic_size(memory->basic);
    if (memory->buffer == NULL || !values_wanted())
        return -1;
    if (memory->type == MPI_DATATYPE_NULL && memory->imap == NULL)
        return store_values(memory->buffer, length);
    void *values = packed_values(memory, false);
    long long at = values == NULL ? -1 : store_values(values, length);
    free(values);
    return at;
}

void stored_field(const Memory *memory, bool put)
{
    if (!line_open() || memory->buffer == NULL || !values_wanted())
        return;
    if (put && converts(memory)) {
        store_converted(memory);
        return;
    }
    long long at = store_memory(memory);
    if (at >= 0)
        say(",\"stored\":[%lld,%lld]", at, (long long)memory->length);
}

/* ---- numbers in a line */

/* One value as a whole number; of a float its pattern. */
static void say_value(Basic basic, const void *at)
{
    switch (basic) {
    case SCHAR: say("%d", *(const signed char *)at); break;
    case SHORT: say("%d", *(const short *)at); break;
    case USHORT: say("%u", *(const unsigned short *)at); break;
    case INT: say("%d", *(const int *)at); break;
    case UINT: case FLOAT: say("%u", *(const unsigned *)at); break;
    case LONGLONG: say("%lld", *(const long long *)at); break;
    case DOUBLE: case ULONGLONG: say("%llu", *(const unsigned long long *)at); break;
    default: say("%u", *(const unsigned char *)at); break;
    }
}

void values_field(Basic basic, MPI_Offset length, const void *values)
{
    if (!line_open() || values == NULL || basic == OTHER || length < 0)
        return;
    say(",\"values\":[");
    for (MPI_Offset i = 0; i < length; i++) {
        say(i == 0 ? "" : ",");
        say_value(basic, (const char *)values + (size_t)i * basic_size(basic));
    }
    say("]");
}
