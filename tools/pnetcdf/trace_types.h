/* MPI types that a program made. */
#ifndef TRACE_TYPES_H
#define TRACE_TYPES_H

#include "trace.h"

/* The basic type that an MPI type is made of; OTHER where there are several, or one that PnetCDF doesn't take. */
Basic element_of(MPI_Datatype type);
/* How many of them it has. */
MPI_Offset elements_of(MPI_Datatype type);
/* The places of the bytes that the type reaches, in its order, and how many; NULL where they are too many or lie before its start.
   To be freed. */
unsigned *places_of(MPI_Datatype type, int *size);

#endif
