/* Types with their memory, and the text of a run. */
#include "replay.h"

#include <stdarg.h>
#include <stdio.h>
#include <stdlib.h>
#include <string.h>

static External externals[] = {
    {NC_BYTE, "byte", 0, 1}, {NC_CHAR, "char", 0, 1}, {NC_SHORT, "short", 0, 2}, {NC_INT, "int", 0, 4},
    {NC_FLOAT, "float", 0, 4}, {NC_DOUBLE, "double", 0, 8}, {NC_UBYTE, "ubyte", 0, 1}, {NC_USHORT, "ushort", 0, 2},
    {NC_UINT, "uint", 0, 4}, {NC_INT64, "int64", 0, 8}, {NC_UINT64, "uint64", 0, 8},
};

enum { TYPES = sizeof externals / sizeof *externals, DIMS = 1024 };

static const External *with_memory(External *type)
{
    MPI_Datatype memory[TYPES] = {
        MPI_SIGNED_CHAR, MPI_CHAR, MPI_SHORT, MPI_INT, MPI_FLOAT, MPI_DOUBLE, MPI_UNSIGNED_CHAR, MPI_UNSIGNED_SHORT,
        MPI_UNSIGNED, MPI_LONG_LONG_INT, MPI_UNSIGNED_LONG_LONG,
    };
    type->memory = memory[type - externals];
    return type;
}

const External *external_of_type(nc_type type)
{
    return type >= NC_BYTE && type <= NC_UINT64 ? with_memory(&externals[type - NC_BYTE]) : NULL;
}

const External *external_of_word(const char *word)
{
    for (int i = 0; i < TYPES; i++)
        if (strcmp(word, externals[i].word) == 0)
            return with_memory(&externals[i]);
    return NULL;
}

static bool fits(const External *type, __int128 value)
{
    int bits = 8 * (int)type->size;
    bool any = type->type == NC_CHAR || type->type == NC_FLOAT || type->type == NC_DOUBLE || type->type >= NC_UBYTE;
    if (any && type->type != NC_INT64)
        return value >= 0 && value < (__int128)1 << bits;
    return value >= -((__int128)1 << (bits - 1)) && value < (__int128)1 << (bits - 1);
}

static bool all_fit(const External *type, const Values *values)
{
    for (size_t i = 0; i < values->count; i++)
        if (!fits(type, values->of[i]))
            return false;
    return true;
}

const External *memory_type(const External *own, const Values *values)
{
    const External *wide = external_of_type(NC_INT64), *widest = external_of_type(NC_UINT64);
    if (all_fit(own, values))
        return own;
    return all_fit(wide, values) ? wide : all_fit(widest, values) ? widest : NULL;
}

void store_value(const External *type, void *memory, size_t at, __int128 value)
{
    unsigned long long bits = (unsigned long long)value;
    unsigned char *to = (unsigned char *)memory + at * type->size;
    switch (type->size) {
    case 1: *to = (unsigned char)bits; break;
    case 2: *(uint16_t *)to = (uint16_t)bits; break;
    case 4: *(uint32_t *)to = (uint32_t)bits; break;
    default: *(uint64_t *)to = bits; break;
    }
}

/* ---- the text */

void add(Text *text, const char *format, ...)
{
    va_list rest, again;
    va_start(rest, format);
    va_copy(again, rest);
    int length = vsnprintf(NULL, 0, format, rest);
    va_end(rest);
    if (text->room < text->length + (size_t)length + 1) {
        text->room = 2 * text->room + (size_t)length + 1024;
        text->bytes = realloc(text->bytes, text->room);
        if (text->bytes == NULL)
            stop(0, "no memory is left");
    }
    vsnprintf(text->bytes + text->length, (size_t)length + 1, format, again);
    va_end(again);
    text->length += (size_t)length;
}

static void add_characters(Text *text, const unsigned char *bytes, size_t count)
{
    add(text, " \"");
    for (size_t i = 0; i < count; i++) {
        switch (bytes[i]) {
        case '"': add(text, "\\\""); break;
        case '\\': add(text, "\\\\"); break;
        case '\n': add(text, "\\n"); break;
        case '\t': add(text, "\\t"); break;
        default: add(text, bytes[i] >= 32 && bytes[i] <= 126 ? "%c" : "\\x%02X", bytes[i]);
        }
    }
    add(text, "\"");
}

void add_values(Text *text, const External *type, const void *memory, size_t count)
{
    if (type->type == NC_CHAR && count > 0)
        add_characters(text, memory, count);
    for (size_t i = 0; i < count && type->type != NC_CHAR; i++) {
        const unsigned char *at = (const unsigned char *)memory + i * type->size;
        switch (type->type) {
        case NC_BYTE: add(text, " %d", *(const signed char *)at); break;
        case NC_UBYTE: add(text, " %u", *at); break;
        case NC_SHORT: add(text, " %d", *(const int16_t *)at); break;
        case NC_USHORT: add(text, " %u", *(const uint16_t *)at); break;
        case NC_INT: add(text, " %d", *(const int32_t *)at); break;
        case NC_UINT: add(text, " %u", *(const uint32_t *)at); break;
        case NC_FLOAT: add(text, " x%08X", *(const uint32_t *)at); break;
        case NC_INT64: add(text, " %lld", *(const long long *)at); break;
        case NC_UINT64: add(text, " %llu", *(const unsigned long long *)at); break;
        default: add(text, " x%016llX", *(const unsigned long long *)at); break;
        }
    }
}

const char *code_name(int code)
{
    return code == NC_NOERR ? "ok" : ncmpi_strerrno(code);
}

static void check(int code, const char *what)
{
    if (code != NC_NOERR)
        stop(0, "%s: %s", what, ncmpi_strerror(code));
}

static void add_dims(Text *text, int ncid, int count, int unlimited)
{
    char name[NC_MAX_NAME + 1];
    MPI_Offset length;
    add(text, "dimensions:\n");
    for (int i = 0; i < count; i++) {
        check(ncmpi_inq_dim(ncid, i, name, &length), "a dimension");
        add(text, i == unlimited ? "  %s = UNLIMITED // (%lld currently)\n" : "  %s = %lld\n", name, (long long)length);
    }
}

/* A variable's name and dimensions in brackets; the answer is its slab in bytes. */
static MPI_Offset add_variable_name(Text *text, int ncid, int var, const int *dims, int count, int unlimited)
{
    char name[NC_MAX_NAME + 1];
    nc_type type;
    MPI_Offset length;
    check(ncmpi_inq_varname(ncid, var, name), "a variable");
    check(ncmpi_inq_vartype(ncid, var, &type), "a variable");
    MPI_Offset slab = (MPI_Offset)external_of_type(type)->size;
    add(text, "  %s %s", external_of_type(type)->word, name);
    for (int i = 0; i < count; i++) {
        check(ncmpi_inq_dim(ncid, dims[i], name, &length), "a dimension");
        slab *= dims[i] == unlimited ? 1 : length;
        add(text, "%s%s", i == 0 ? "(" : ", ", name);
    }
    add(text, count > 0 ? "):\n" : ":\n");
    return slab;
}

static void add_variables(Text *text, int ncid, int vars, int unlimited, bool records)
{
    add(text, records ? "record variables:\n" : "fixed-size variables:\n");
    for (int i = 0; i < vars; i++) {
        int count, dims[DIMS];
        MPI_Offset begin;
        check(ncmpi_inq_varndims(ncid, i, &count), "a variable");
        if (count > DIMS)
            stop(0, "variable %d has more than %d dimensions", i, DIMS);
        check(ncmpi_inq_vardimid(ncid, i, dims), "a variable");
        if ((count > 0 && dims[0] == unlimited) != records)
            continue;
        check(ncmpi_inq_varoffset(ncid, i, &begin), "a variable");
        MPI_Offset slab = add_variable_name(text, ncid, i, dims, count, unlimited);
        add(text, "    start file offset = %lld\n    end file offset = %lld\n    size in bytes = %lld\n", (long long)begin,
            (long long)(begin + slab), (long long)slab);
    }
}

void add_offsets(Text *text, const char *path)
{
    int ncid, format, dims, vars, unlimited;
    MPI_Offset size, extent;
    check(ncmpi_open(MPI_COMM_SELF, path, NC_NOWRITE, MPI_INFO_NULL, &ncid), path);
    check(ncmpi_inq_format(ncid, &format), path);
    check(ncmpi_inq(ncid, &dims, &vars, NULL, &unlimited), path);
    check(ncmpi_inq_header_size(ncid, &size), path);
    extent = size;
    for (int i = 0; i < vars; i++) {
        MPI_Offset begin;
        check(ncmpi_inq_varoffset(ncid, i, &begin), path);
        extent = i == 0 || begin < extent ? begin : extent;
    }
    add(text, "// file format: CDF-%d\nfile header:\n  size = %lld bytes\n  extent = %lld bytes\n", format, (long long)size,
        (long long)extent);
    add_dims(text, ncid, dims, unlimited);
    add_variables(text, ncid, vars, unlimited, false);
    add_variables(text, ncid, vars, unlimited, true);
    check(ncmpi_close(ncid), path);
}
