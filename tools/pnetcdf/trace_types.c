/* MPI types that a program made: the basic type that they are made of, and the places that they reach. */
#include "trace.h"
#include "trace_types.h"

#include <stdlib.h>
#include <string.h>

enum { MOST_EXTENT = 1 << 26 };     /* bytes between the bounds of a file type that is taken apart */

static bool is_named(MPI_Datatype type)
{
    int numbers, addresses, types, combiner;
    MPI_Type_get_envelope(type, &numbers, &addresses, &types, &combiner);
    return combiner == MPI_COMBINER_NAMED;
}

static void free_made(int count, MPI_Datatype *types)
{
    for (int i = 0; i < count; i++)
        if (!is_named(types[i]))
            MPI_Type_free(&types[i]);
}

/* The one basic type among those; OTHER where they are several. */
static Basic common_element(int count, const MPI_Datatype *types)
{
    Basic found = count > 0 ? element_of(types[0]) : OTHER;
    for (int i = 1; i < count; i++)
        if (element_of(types[i]) != found)
            return OTHER;
    return found;
}

Basic element_of(MPI_Datatype type)
{
    int numbers, addresses, types, combiner;
    MPI_Type_get_envelope(type, &numbers, &addresses, &types, &combiner);
    if (combiner == MPI_COMBINER_NAMED)
        return basic_of(type);
    int *number = calloc((size_t)numbers + 1, sizeof *number);
    MPI_Aint *address = calloc((size_t)addresses + 1, sizeof *address);
    MPI_Datatype *inner = calloc((size_t)types + 1, sizeof *inner);
    Basic found = OTHER;
    bool open = number != NULL && address != NULL && inner != NULL && types > 0
        && MPI_Type_get_contents(type, numbers, addresses, types, number, address, inner) == MPI_SUCCESS;
    if (open) {
        found = common_element(types, inner);
        free_made(types, inner);
    }
    free(number);
    free(address);
    free(inner);
    return found;
}

MPI_Offset elements_of(MPI_Datatype type)
{
    int size = 0;
    Basic basic = type == MPI_DATATYPE_NULL ? OTHER : element_of(type);
    if (basic == OTHER || MPI_Type_size(type, &size) != MPI_SUCCESS || size < 0)
        return 0;
    return size / (int)basic_size(basic);
}

/* ---- the bytes that a type reaches, in its order

   A buffer whose bytes hold their own places is packed: what comes out are the places. A place has four bytes, so that is done four times. */

/* Adds byte number `byte` of each place that the type reaches. */
static bool add_bytes(MPI_Datatype type, unsigned char *buffer, MPI_Aint low, int byte, unsigned char *packed, int size, unsigned *places)
{
    MPI_Aint extent, true_low;
    int at = 0;
    MPI_Type_get_true_extent(type, &true_low, &extent);
    for (MPI_Aint i = 0; i < extent; i++)
        buffer[i] = (unsigned char)((unsigned)(i + low) >> (8 * byte));
    if (MPI_Pack(buffer - low, 1, type, packed, size, &at, MPI_COMM_SELF) != MPI_SUCCESS)
        return false;
    for (int i = 0; i < size; i++)
        places[i] |= (unsigned)packed[i] << (8 * byte);
    return true;
}

unsigned *places_of(MPI_Datatype type, int *size)
{
    MPI_Aint low, extent;
    if (MPI_Type_size(type, size) != MPI_SUCCESS || MPI_Type_get_true_extent(type, &low, &extent) != MPI_SUCCESS
        || *size < 0 || low < 0 || low + extent > MOST_EXTENT)
        return NULL;
    unsigned char *buffer = malloc((size_t)extent + 1), *packed = malloc((size_t)*size + 1);
    unsigned *places = calloc((size_t)*size + 1, sizeof *places);
    bool done = buffer != NULL && packed != NULL && places != NULL;
    for (int byte = 0; done && byte < 4; byte++)
        done = add_bytes(type, buffer, low, byte, packed, *size, places);
    free(buffer);
    free(packed);
    if (!done) {
        free(places);
        return NULL;
    }
    return places;
}
