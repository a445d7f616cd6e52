/* A put, get or post of a script as PnetCDF takes it. */
#ifndef ACCESS_H
#define ACCESS_H

#include "replay.h"

enum { DIMS = 32, PARTS = 1024, ELEMENTS = 1 << 20 };

typedef enum { VAR1, VAR, VARA, VARS, VARM, VARN } Form;
typedef enum { PUT, GET, IPUT, IGET, BPUT } Verb;

/* One put, get or post: the region as PnetCDF takes it, and memory for its values. */
typedef struct {
    Verb verb;
    bool all;
    Form form;
    int varid, dims, parts, record;     /* record: the place of the record dimension, -1 for none */
    const External *type, *memory_type;
    MPI_Offset start[DIMS], count[DIMS], stride[DIMS], imap[DIMS], length[DIMS];
    MPI_Offset **starts, **counts;
    MPI_Offset elements, reach;
    void *memory;
    const char *refusal;    /* what this program refuses itself, since PnetCDF has no such test */
} Access;

/* The verb and form that a word of the script names; false where it names none. */
bool read_verb(const char *word, Access *access);
/* The variable of that name, or the number past the last one, which PnetCDF then refuses. */
void find_variable(int ncid, const char *name, Access *access);
/* Takes variable, region and values from that word of the line on. */
void read_access(int ncid, const Line *line, int at, Access *access);

int blocking_call(int ncid, Access *access);
int posting_call(int ncid, Access *access, int *request);
/* A call that reaches no element, for a rank that takes part with nothing. */
int take_part(int ncid, Access *access);

#endif
