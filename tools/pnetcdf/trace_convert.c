/* Values that PnetCDF converts to or from float and double: a put's are kept as it writes them. Its rules are those of C, but a value
   that the variable's type doesn't hold is replaced by the variable's fill value. */
#include "trace.h"

#include <limits.h>
#include <float.h>
#include <stdlib.h>
#include <string.h>

enum { PLACES = 1000 };     /* of values out of range, how many are told */

static bool is_float(Basic basic)
{
    return basic == FLOAT || basic == DOUBLE;
}

bool converts(const Memory *memory)
{
    bool known = memory->basic != OTHER && memory->own != OTHER && memory->basic != TEXT && memory->own != TEXT;
    return known && memory->basic != memory->own && (is_float(memory->basic) || is_float(memory->own));
}

/* A value as a double, where it isn't of 64 bits. */
static double number_at(Basic basic, const void *at)
{
    switch (basic) {
    case SCHAR: return *(const signed char *)at;
    case UCHAR: return *(const unsigned char *)at;
    case SHORT: return *(const short *)at;
    case USHORT: return *(const unsigned short *)at;
    case INT: return *(const int *)at;
    case UINT: return *(const unsigned *)at;
    case FLOAT: return (double)*(const float *)at;
    case LONGLONG: return (double)*(const long long *)at;
    case ULONGLONG: return (double)*(const unsigned long long *)at;
    default: return *(const double *)at;
    }
}

static const struct { double least, greatest; } ranges[] = {
    [SCHAR] = {SCHAR_MIN, SCHAR_MAX}, [UCHAR] = {0, UCHAR_MAX}, [SHORT] = {SHRT_MIN, SHRT_MAX}, [USHORT] = {0, USHRT_MAX},
    [INT] = {INT_MIN, INT_MAX}, [UINT] = {0, UINT_MAX}, [LONGLONG] = {(double)LLONG_MIN, (double)LLONG_MAX},
    [ULONGLONG] = {0, (double)ULLONG_MAX}, [FLOAT] = {-FLT_MAX, FLT_MAX}, [DOUBLE] = {-DBL_MAX, DBL_MAX},
};

/* What a double is in a type of whole numbers or as a float; what isn't a number, or is the first one past 64 bits, C leaves open. */
static void put_number(Basic own, double number, void *to)
{
    switch (own) {
    case SCHAR: *(signed char *)to = (signed char)number; break;
    case UCHAR: *(unsigned char *)to = (unsigned char)number; break;
    case SHORT: *(short *)to = (short)number; break;
    case USHORT: *(unsigned short *)to = (unsigned short)number; break;
    case INT: *(int *)to = (int)number; break;
    case UINT: *(unsigned *)to = (unsigned)number; break;
    case LONGLONG: *(long long *)to = (long long)number; break;
    case ULONGLONG: *(unsigned long long *)to = (unsigned long long)number; break;
    case FLOAT: *(float *)to = (float)number; break;
    default: *(double *)to = number; break;
    }
}

/* Whole numbers of 64 bits become a float in one step, or they would be rounded twice. */
static void put_wide(Basic basic, const void *at, float *to)
{
    *to = basic == LONGLONG ? (float)*(const long long *)at : (float)*(const unsigned long long *)at;
}

/* The answer is whether the variable's type holds the value. */
static bool convert(const Memory *memory, const void *at, void *to)
{
    double number = number_at(memory->basic, at);
    bool from_float = is_float(memory->basic);
    if (from_float && (number > ranges[memory->own].greatest || number < ranges[memory->own].least)) {
        memcpy(to, memory->fill, basic_size(memory->own));
        return false;
    }
    if (memory->own == FLOAT && (memory->basic == LONGLONG || memory->basic == ULONGLONG))
        put_wide(memory->basic, at, to);
    else
        put_number(memory->own, number, to);
    return true;
}

static void beyond_fields(const Memory *memory, const char *beyond, MPI_Offset count)
{
    MPI_Offset told = 0;
    number_field("beyond_count", count);
    say(",\"beyond\":[");
    for (MPI_Offset i = 0; i < memory->length && told < PLACES; i++)
        if (beyond[i])
            say(told++ == 0 ? "%lld" : ",%lld", (long long)i);
    say("]");
}

/* Stores the values as they are in the variable, and tells which ones its type doesn't hold. */
void store_converted(const Memory *memory)
{
    size_t length = (size_t)memory->length, from = basic_size(memory->basic), to = basic_size(memory->own);
    char *values = packed_values(memory, false), *turned = malloc(length * to + 1), *beyond = calloc(length + 1, 1);
    MPI_Offset count = 0;
    if (values != NULL && turned != NULL && beyond != NULL) {
        for (size_t i = 0; i < length; i++) {
            beyond[i] = !convert(memory, values + i * from, turned + i * to);
            count += beyond[i];
        }
        long long at = store_values(turned, length * to);
        if (at >= 0)
            say(",\"stored\":[%lld,%zu]", at, length);
        if (count > 0)
            beyond_fields(memory, beyond, count);
    }
    free(values);
    free(turned);
    free(beyond);
}
