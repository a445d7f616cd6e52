/* What the wrappers of PnetCDF's calls share: the trace file of this rank, and the account of one put or get. */
#ifndef TRACE_H
#define TRACE_H

#include <mpi.h>
#include <pnetcdf.h>
#include <stdbool.h>
#include <stddef.h>

/* The function of that name behind this library. */
void *real_call(const char *name);
#define REAL(name) ((__typeof__(&ncmpi_##name))real_call("ncmpi_" #name))

/* ---- lines of the trace

   One before a call and one after it, each a JSON object. Outside a traced call (PnetCDF's own calls of itself, a dataset that isn't
   known) nothing is written. Each begin_call has its end_call; both count for the thread that makes them. */
void begin_call(int ncid, const char *name);
void call_made(void);
/* The call's time begins now: what was done for the trace since call_made doesn't count. */
void call_begins(void);
/* PnetCDF has answered: what is asked for until end_call doesn't count as the call's time. */
void call_answered(void);
int end_call(int code);
/* Whether this thread is inside a call. */
bool inside_call(void);

/* Datasets that are open, by PnetCDF's number. */
void begin_dataset(const char *name);
void dataset_opened(int ncid);
void dataset_closed(int ncid);
/* A call of no dataset: while one is open, or at any time. */
void begin_barrier(void);
void begin_delete(void);

/* What this rank's trace is called, before ".before" and the like. */
const char *trace_name(void);
/* Whether values and copies of datasets are wanted. */
bool values_wanted(void);
/* The ranks of MPI_COMM_WORLD that share the communicator, in its order. */
void world_field(const char *name, MPI_Comm comm);
/* The last line, with fields that say how the rank ended. */
void end_trace(const char *how);

/* ---- fields of a line */

/* A part of the line. Fields are only said in a traced call, after begin_call and before end_call; where line_open holds, say may be. */
bool line_open(void);
void say(const char *format, ...) __attribute__((format(printf, 1, 2)));
void number_field(const char *name, long long number);
void text_field(const char *name, const char *text);
void list_field(const char *name, int count, const MPI_Offset *list);
void ids_field(const char *name, int count, const int *list);
/* A text in quotes, and a list in brackets. */
void say_text(const char *text);
void say_list(int count, const MPI_Offset *list);

/* ---- values in memory */

typedef enum { TEXT, SCHAR, UCHAR, SHORT, USHORT, INT, UINT, FLOAT, DOUBLE, LONGLONG, ULONGLONG, OTHER } Basic;

const char *basic_name(Basic basic);
size_t basic_size(Basic basic);
/* The basic type of values of an external type, and of an MPI type that is one itself. */
Basic basic_of_variable(nc_type type);
Basic basic_of(MPI_Datatype type);

/* Values of a basic type in a user's memory: places 0 to length - 1, of which an index map (where it isn't NULL) reaches some. Where
   `type` isn't MPI_DATATYPE_NULL, `count` of that derived type say where they lie. */
typedef struct {
    Basic basic, own;       /* of memory and of the variable */
    const void *buffer;     /* NULL where nothing can be told */
    MPI_Offset length, count;
    MPI_Datatype type;
    int dims;
    MPI_Offset *counts, *imap;
    unsigned char fill[8];  /* of the variable, for values out of its range */
} Memory;

/* Whether PnetCDF converts these values to or from float or double; and the values of such a put as the variable holds them. */
bool converts(const Memory *memory);
void store_converted(const Memory *memory);
/* The fields "memory" and "converted"; and "stored" with the values in the file of values, those of a put in the variable's type. */
void memory_fields(const Memory *memory, bool put);
void stored_field(const Memory *memory, bool put);
/* The place of the values in the file of values, -1 where they can't be told. */
long long store_memory(const Memory *memory);
/* Values one after another in memory of their own; NULL where there is none. `safely` reads memory that may be gone. */
void *packed_values(const Memory *memory, bool safely);
/* Numbers in the line itself. */
void values_field(Basic basic, MPI_Offset length, const void *values);
void free_memory(Memory *memory);
/* A sum over the values, and over them with their bytes in the other order. */
void sums_of(const Memory *memory, const void *values, unsigned long long sums[2]);

/* Appends to the file of values; the answer is the place, -1 where it can't be. */
long long store_values(const void *values, size_t length);

/* ---- puts and gets */

typedef enum { VAR1, VAR, VARA, VARS, VARM, VARN } Form;
typedef enum { PUT, GET, POSTED_PUT, BUFFERED_PUT, POSTED_GET } Direction;

/* A put or get as it was called. What its form lacks is NULL; bufcount counts only where flexible holds. */
typedef struct {
    const char *name;
    Direction direction;
    Form form;
    int ncid, varid, parts;
    const MPI_Offset *start, *count, *stride, *imap;
    MPI_Offset *const *starts, *const *counts;
    const void *buffer;
    bool flexible;
    MPI_Offset bufcount;
    MPI_Datatype type;
} Access;

typedef struct {
    int dims, record;       /* record: the place of the record dimension, -1 for none */
    MPI_Offset *length;
    nc_type type;
} Shape;

/* Whether PnetCDF knows the variable. The lengths are to be freed. */
bool shape_of(int ncid, int varid, Shape *shape);
/* The user's memory, of which that many values are meant; no buffer where that can't be told. */
Memory memory_of(const Access *access, const Shape *shape, MPI_Offset values);
void begin_access(const Access *access, Memory *memory);
int end_access(const Access *access, Memory *memory, int code, const int *request);
/* The fields of an access within a line. */
void access_fields(const Access *access, Memory *memory);
bool is_put(Direction direction);

/* An attribute's values, which are of that type in memory. */
void attribute_fields(int varid, const char *name, nc_type xtype, Basic memory, MPI_Offset length, const void *values);

/* Calls of several variables at once: one access for each. */
typedef struct {
    const char *name;
    Direction direction;
    Form form;
    int ncid, count;
    const int *varids;
    MPI_Offset *const *starts, *const *counts, *const *strides, *const *imaps;
    void *const *buffers;
    const MPI_Offset *bufcounts;    /* NULL where the call isn't flexible */
    const MPI_Datatype *types;
    MPI_Datatype type;
} Many;

Memory *begin_many(const Many *many);
int end_many(const Many *many, Memory *memories, int code);

/* A put or get whose region is an MPI type. */
typedef struct {
    const char *name;
    Direction direction;
    int ncid, varid;
    MPI_Datatype file_type, type;
    const void *buffer;
    MPI_Offset bufcount;
} Typed;

void begin_typed(const Typed *typed, Memory *memory);
int end_typed(const Typed *typed, Memory *memory, int code);

/* ---- posted requests: the values of gets are there after a wait, those of puts are to stay as they are until then */

void keep_posted(const Access *access, int request, Memory *memory);
/* The field "changed" of a wait, and the field "gets". */
void tell_changed(int ncid, int count, const int *requests);
void tell_completed(int ncid, int count, const int *requests, bool filled);
void drop_posted(int ncid);

#endif
