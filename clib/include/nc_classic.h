/* nc_classic.h: files in the netCDF classic format (CDF-1, CDF-2 and CDF-5), by their bytes.
 *
 * The functions make the header of a file and say what one holds, where the bytes of its variables lie, and whether requests share
 * bytes. They do no input or output, start no thread and keep nothing between two calls: what a call answers depends on
 * its arguments alone, and any number of threads may call at once. All numbers are counts of bytes or of elements;
 * places in a file and places in a list are counted from 0.
 *
 * What a caller owes. Nothing can check it, and the proofs take it for granted:
 *   - A pointer points to as many items as the length after it says, and is never NULL: where the length is 0, pass the
 *     address of any variable.
 *   - What a call writes overlaps none of its other arguments, and no other thread touches it during the call.
 *   - malloc, realloc and free are one allocator's. No call is made from a signal handler, or in the child of a fork of
 *     a program with threads.
 * Every other argument is allowed: what can't be done is answered by a code. No call reads or writes past the lengths
 * that it is given, and none keeps a pointer or leaves memory behind.
 *
 * A header is passed as the first bytes of its file: the whole file, or as much of it as is at hand. The library reads
 * 2^20 bytes at most, which is the longest header that it takes; what follows is not looked at. Each function reads the
 * header anew.
 *
 * Limits: 1,024 dimensions, 8,192 variables, 32 dimensions of a variable, every end of a file below 2^62 bytes, and
 * 2^20 elements of one region (cut a larger one).
 *
 * The processor has to be an x86-64-v2 one or later, and the system Linux.
 */
#ifndef NC_CLASSIC_H
#define NC_CLASSIC_H

#include <stdbool.h>
#include <stddef.h>
#include <stdint.h>

#ifdef __cplusplus
extern "C" {
#endif

/* ---- what a call answers ------------------------------------------------------------------------------------------ */

/* NCV_OK, a cause of this library's (above 0), or an error of netCDF by netCDF's own number (below 0), so that
 * nc_strerror and ncmpi_strerror have a text for it. */
typedef int32_t ncv_code;

enum {
    NCV_OK = 0,

    NCV_MEMORY = 1,    /* malloc gave NULL */
    NCV_HEADER = 2,    /* the bytes begin with no header: ncv_header_check says why */
    NCV_TOO_LARGE = 3, /* a region of more than 2^20 elements, or an index map that reaches as far, or a region or a file
                          past the greatest record count or the greatest end of a file, or a header of more
                          than 2^20 bytes */
    NCV_ARGUMENT = 4,  /* a number is outside the limits that the function names */
    NCV_SHARED = 5,    /* two requests hold a byte in common */
    NCV_ROOM = 6,      /* an array is too short for what it is to take */

    NCV_EINVAL = -36,       /* the bytes of an attribute's values are not those of whole values */
    NCV_EINVALCOORDS = -40, /* a start is past the end of its dimension, or not one start, count and stride for each */
    NCV_EMAXDIMS = -41,     /* more than 1,024 dimensions, or more than 32 of a variable */
    NCV_ENAMEINUSE = -42,   /* the name is that of one before */
    NCV_ENOTATT = -43,      /* no attribute has this number or name */
    NCV_EMAXATTS = -44,     /* more than 65,536 attributes of one owner */
    NCV_EBADTYPE = -45,     /* no type has this number, or its values are floats where whole numbers are packed */
    NCV_EBADDIM = -46,      /* no dimension has this number or name */
    NCV_EUNLIMPOS = -47,    /* the record dimension stands elsewhere than first */
    NCV_EMAXVARS = -48,     /* more than 8,192 variables */
    NCV_ENOTVAR = -49,      /* no variable has this number or name */
    NCV_EMAXNAME = -53,     /* a name of more than 256 bytes */
    NCV_EUNLIMIT = -54,     /* a second record dimension */
    NCV_ECHAR = -56,        /* the values of the type are text */
    NCV_EEDGE = -57,        /* the last element is past the end of its dimension */
    NCV_ESTRIDE = -58,      /* a stride is 0 */
    NCV_EBADNAME = -59,     /* a name that netCDF does not allow */
    NCV_ERANGE = -60,       /* a value is outside the range of the type that is to hold it */
    NCV_EVARSIZE = -62,     /* a variable is too large for the version, or begins too far in the file */
    NCV_EDIMSIZE = -63,     /* a dimension's length is 2^31 or more, in CDF-5 2^62 or more */
    NCV_ESTRICTCDF2 = -232  /* a type that CDF-5 alone has (PnetCDF's error) */
};

/* The library's version, and the kit that proved it with the sum of its logic, as a text ended by a zero. Takes no memory. */
const char *ncv_version(void);

/* ---- reading a header --------------------------------------------------------------------------------------------- */

/* What is wrong with the bytes of a header. */
typedef struct {
    uint32_t kind;  /* one of NCV_FAULT_.. */
    uint64_t place; /* the byte at which the field at fault begins, or the number of the variable; else 0 */
    uint64_t other; /* NCV_FAULT_SHARED: the second variable; else 0 */
} ncv_fault;

enum {
    NCV_FAULT_NOT_CDF = 1,          /* the first three bytes are not C, D and F */
    NCV_FAULT_BAD_VERSION = 2,      /* the fourth byte is not 1, 2 or 5 */
    NCV_FAULT_TRUNCATED = 3,        /* the bytes end within the field at `place` */
    NCV_FAULT_BAD_TAG = 4,          /* the tag at `place` */
    NCV_FAULT_BAD_TYPE = 5,         /* the type at `place` */
    NCV_FAULT_BAD_NUMBER = 6,       /* the number at `place`: negative, or not 0 where a list is absent */
    NCV_FAULT_TWO_RECORD_DIMS = 7,  /* two dimensions of length 0 */
    NCV_FAULT_RECORD_NOT_FIRST = 8, /* variable `place` has the record dimension elsewhere than first */
    NCV_FAULT_BAD_DIM_ID = 9,       /* variable `place` names a dimension that is not there */
    NCV_FAULT_STREAMING = 10,       /* the record count is that of a stream */
    NCV_FAULT_TOO_LARGE = 11,       /* a count or a size is past a limit */
    NCV_FAULT_SHARED = 12           /* variables `place` and `other` share a byte; where the two are equal, the variable
                                       shares one with the header */
};

typedef struct {
    uint32_t version;  /* 1, 2 or 5 */
    uint64_t length;   /* of the header, in bytes, as its lists have it */
    uint64_t records;  /* the record count */
    uint64_t dims;     /* how many dimensions */
    uint64_t attrs;    /* how many attributes of the dataset, those of variables left out */
    uint64_t vars;     /* how many variables */
} ncv_counts;

/* Whether the bytes begin with a sound header.
 *
 *   NCV_OK      they do, and *counts tells its numbers
 *   NCV_HEADER  they do not, and *fault tells the first fault from the front
 *   NCV_MEMORY
 *
 * What the answer does not name is left as it was. Takes memory for the time of the call: a few times the header's bytes.
 */
ncv_code ncv_header_check(const uint8_t *bytes, size_t len, ncv_counts *counts, ncv_fault *fault);

/* The parts of a header, by a number, from 0, or by a name. Names are compared byte by byte, and of two parts with one
 * name the first is found.
 *
 * A function that gives a part sets a struct of numbers, and copies the part's lists into arrays of the caller's: as many
 * items as an array has room for, and what is behind them in the array stays as it was. The struct says how many there
 * are. A name has no zero behind it: it is a C string in an array that was zero before and has more room than the name.
 * An array that is not wanted has room 0.
 *
 * They answer NCV_OK; NCV_EBADDIM, NCV_ENOTVAR or NCV_ENOTATT, where there is no such part; NCV_HEADER or NCV_MEMORY. But
 * for NCV_OK nothing is written. They take memory as ncv_header_check does. */

typedef struct {
    uint64_t length;   /* 0 for the record dimension */
    uint64_t name_len; /* bytes of its name */
} ncv_dim;

ncv_code ncv_inq_dim(const uint8_t *bytes, size_t len, uint64_t number, uint8_t *name, size_t name_room, ncv_dim *dim);
ncv_code ncv_inq_dimid(const uint8_t *bytes, size_t len, const uint8_t *name, size_t name_len, uint64_t *number);

typedef struct {
    uint64_t begin;    /* the byte of the file at which it begins */
    uint64_t slab;     /* the bytes of its values, or of those of one record */
    uint64_t vsize;    /* the slab rounded up to a multiple of 4 */
    uint64_t dims;     /* how many dimensions it has */
    uint64_t attrs;    /* how many attributes */
    uint64_t name_len; /* bytes of its name */
    uint32_t type;     /* the number of its type, as in netcdf.h: 1 for NC_BYTE to 11 for NC_UINT64 */
    bool is_record;    /* its first dimension is the record dimension */
} ncv_var;

/* `ids` takes the numbers of its dimensions, the slowest first. */
ncv_code ncv_inq_var(const uint8_t *bytes, size_t len, uint64_t number, uint8_t *name, size_t name_room, uint32_t *ids,
                     size_t ids_room, ncv_var *var);
ncv_code ncv_inq_varid(const uint8_t *bytes, size_t len, const uint8_t *name, size_t name_len, uint64_t *number);

typedef struct {
    uint64_t count;      /* how many values it has */
    uint64_t values_len; /* their bytes */
    uint64_t name_len;   /* bytes of its name */
    uint32_t type;       /* the number of their type, as in netcdf.h */
} ncv_att;

#define NCV_GLOBAL UINT64_MAX /* in place of a variable's number: the dataset */

/* An attribute of variable `owner`, or of the dataset. `values` takes its values as they stand in the file: big-endian. */
ncv_code ncv_inq_att(const uint8_t *bytes, size_t len, uint64_t owner, uint64_t number, uint8_t *name, size_t name_room,
                     uint8_t *values, size_t values_room, ncv_att *att);
ncv_code ncv_inq_attid(const uint8_t *bytes, size_t len, uint64_t owner, const uint8_t *name, size_t name_len,
                       uint64_t *number);

typedef struct {
    uint64_t record_size; /* bytes from one record of a variable to its next one; 0 without a record variable */
    uint64_t end;         /* the length of the file in bytes: where the header or the last of its variables ends */
} ncv_sizes;

/* The sizes of a file that has this header and `records` records, whatever count the header has.
 *
 *   NCV_OK         *sizes is set
 *   NCV_TOO_LARGE  the file would end at byte 2^62 or later, or `records` is 2^31 or more, in CDF-5 2^62 or more
 *   NCV_HEADER, NCV_MEMORY
 *
 * But for NCV_OK nothing is written. Takes memory as ncv_header_check does. */
ncv_code ncv_inq_sizes(const uint8_t *bytes, size_t len, uint64_t records, ncv_sizes *sizes);

/* ---- making a header ---------------------------------------------------------------------------------------------- */

/* The definitions of a header. A name is UTF-8 of 1 to 256 bytes, without a zero behind it: it begins with a letter, a digit,
 * an underscore or a character beyond ASCII, has neither a slash nor a control character, and does not end with a space. It is
 * taken as it is: names that differ in a byte are two. */
typedef struct {
    const char *name;
    size_t name_len;
    uint64_t length; /* 0 for the record dimension */
} ncv_dim_def;

typedef struct {
    const char *name;
    size_t name_len;
    const uint8_t *values; /* as they are to stand in the file: big-endian */
    size_t values_len;     /* their bytes, a multiple of the type's size; 2^20 at most */
    uint32_t type;         /* the number of their type, as in netcdf.h */
} ncv_att_def;

typedef struct {
    const char *name;
    size_t name_len;
    const uint32_t *ids; /* the numbers of its dimensions, the slowest first */
    size_t dims;
    const ncv_att_def *atts;
    size_t att_count;
    uint32_t type;
} ncv_var_def;

typedef struct {
    const ncv_dim_def *dims;
    size_t dim_count;
    const ncv_att_def *atts; /* of the dataset */
    size_t att_count;
    const ncv_var_def *vars;
    size_t var_count;
    uint64_t records;      /* the record count that the header is to have; 0 for a file that is new */
    uint64_t header_align; /* the bytes of which the variables begin at a multiple, as by PnetCDF's hint */
    uint64_t var_align;    /*   nc_header_align_size, and by nc_var_align_size; each 1 to 2^20 */
    uint32_t version;      /* 1, 2 or 5 */
} ncv_header_def;

/* What of a header is refused. */
typedef struct {
    uint32_t part;   /* one of NCV_PART_.. */
    uint64_t number; /* of the dimension, attribute or variable, from 0; else 0 */
    uint64_t owner;  /* of an attribute: the number of its variable, or NCV_GLOBAL; else 0 */
} ncv_refused;

enum {
    NCV_PART_HEADER = 0, /* the whole */
    NCV_PART_DIM = 1,
    NCV_PART_ATT = 2,
    NCV_PART_VAR = 3
};

/* Makes the bytes of a header.
 *
 * The definitions are taken one after another: the dimensions, the attributes of the dataset, then each variable and its
 * attributes. Then the variables get their begins, those without records first, each in the order of the definitions. The first
 * one begins where the header ends, rounded up to a multiple of header_align, then of var_align; each next one where the one
 * before ends, rounded up to a multiple of var_align; the records begin at such a multiple too, and within a record the variables
 * follow one another at multiples of 4. The file is to have zeros, or fill values, wherever no value is written.
 *
 *   NCV_OK        the first *len bytes of `into` are the header. ncv_header_check takes them, and ncv_inq_var tells the begins
 *   NCV_ROOM      *len is the number of bytes, which is more than `room`
 *   another       *refused tells the first definition that is refused, or that the header as a whole is. Of several causes for one
 *                 definition the first in this order answers, which is that of PnetCDF:
 *                   of each       NCV_EBADNAME for no name, NCV_EMAXNAME, NCV_EBADNAME
 *                   a dimension   NCV_EDIMSIZE, NCV_EUNLIMIT, NCV_ENAMEINUSE, NCV_EMAXDIMS
 *                   an attribute  NCV_EBADTYPE, NCV_ESTRICTCDF2, NCV_EINVAL, NCV_TOO_LARGE for more than 2^20 bytes,
 *                                 NCV_ENAMEINUSE, NCV_EMAXATTS
 *                   a variable    NCV_EBADTYPE, NCV_ESTRICTCDF2, NCV_ENAMEINUSE, NCV_EBADDIM, NCV_EUNLIMPOS, NCV_EMAXDIMS,
 *                                 NCV_EMAXVARS
 *                 Before all definitions: NCV_ARGUMENT for the version or an alignment. After them: NCV_EVARSIZE for a variable
 *                 of more than 2^31 - 4 bytes in CDF-1 and CDF-2; NCV_TOO_LARGE for a header of more than 2^20 bytes;
 *                 NCV_EVARSIZE for a variable that begins at byte 2^31 or later in CDF-1, or ends at 2^62 or later;
 *                 NCV_TOO_LARGE for the record count, as by ncv_inq_sizes
 *   NCV_MEMORY
 *
 * What an answer does not name is left as it was, but that NCV_ROOM sets *refused to the whole. Takes memory for the time of the
 * call: a few times the header's bytes. Names are compared with all those before, so that thousands of variables take longer than
 * their bytes. */
ncv_code ncv_header_make(const ncv_header_def *def, uint8_t *into, size_t room, uint64_t *len, ncv_refused *refused);

/* ---- regions ------------------------------------------------------------------------------------------------------ */

/* Elements of a variable, as the forms vara, vars and varm of netCDF have them: one start, count and stride for each
 * dimension, the slowest dimension first. An index map is given for memory that is not packed: how far apart, in
 * elements, the neighbours of a dimension stand there; with imaps 0 there is none. */
typedef struct {
    uint64_t var; /* the variable's number, from 0 */
    const uint64_t *start;
    size_t starts; /* how many there are */
    const uint64_t *count;
    size_t counts;
    const uint64_t *stride; /* each 1 or more */
    size_t strides;
    const uint64_t *imap;
    size_t imaps;
} ncv_region;

typedef struct {
    uint64_t bytes;   /* of its elements, without padding */
    uint64_t records; /* the record count that a file needs to have it: its last record plus one; 0 for a variable without
                         records, or a region without an element */
} ncv_needs;

/* Whether a region is accepted, and what it needs. `put` and `records` are those of ncv_extents, and so are the codes.
 * *needs is set for NCV_OK alone. Takes memory as ncv_header_check does. */
ncv_code ncv_region_check(const uint8_t *bytes, size_t len, const ncv_region *region, uint64_t records, bool put,
                          ncv_needs *needs);

/* Bytes of a file that follow one another. */
typedef struct {
    uint64_t at;  /* the first */
    uint64_t len; /* how many */
} ncv_extent;

/* Where in the file the elements of a region lie: its extents, in row-major order of the elements. Two extents that
 * follow one another in that order and in the file are one; none is empty.
 *
 * `put` says whether the region is to be written; a region that is read lies within the `records` records that the file
 * has. The extents from number `from` on go to into[0], into[1] and so on, as many as there are and as there is room
 * for; what is behind them in `into` stays as it was. *total is the number of all extents of the region, so that
 * where from + room is below *total there are more: call again with a later `from`.
 *
 *   NCV_OK      `into` and *total are set
 *   NCV_EINVALCOORDS, NCV_ENOTVAR, NCV_EEDGE, NCV_ESTRIDE, NCV_TOO_LARGE
 *               the region is refused. Of several causes the first in this order answers: NCV_ENOTVAR; NCV_EINVALCOORDS
 *               by a list of another length than the variable's dimensions; NCV_ESTRIDE; NCV_EINVALCOORDS by a start;
 *               NCV_EEDGE; NCV_TOO_LARGE
 *   NCV_HEADER, NCV_MEMORY
 *
 * But for NCV_OK nothing is written. Takes memory as ncv_header_check does, and none for the extents. */
ncv_code ncv_extents(const uint8_t *bytes, size_t len, const ncv_region *region, uint64_t records, bool put,
                     uint64_t from, ncv_extent *into, size_t room, uint64_t *total);

/* ---- several requests --------------------------------------------------------------------------------------------- */

/* Bytes of a file that follow one another, and the request that holds them: the number of its rank, and its own number among
 * those of the rank. One request may stand in any number of extents. */
typedef struct {
    uint64_t at;
    uint64_t len;
    uint32_t rank;
    uint32_t request;
} ncv_held;

/* Two requests that hold a byte: the lesser by rank, then by number, is the first. */
typedef struct {
    uint64_t at; /* the byte */
    uint32_t rank1;
    uint32_t request1;
    uint32_t rank2;
    uint32_t request2;
} ncv_pair;

/* Whether no two requests hold a byte in common, as is asked of requests that are written at once. The extents may stand in
 * any order.
 *
 *   NCV_OK         no two do
 *   NCV_SHARED     *pair tells the least byte that two requests hold, and the two least of the requests that hold it
 *   NCV_TOO_LARGE  an extent ends at byte 2^62 or later
 *   NCV_MEMORY
 *
 * *pair is written for NCV_SHARED alone. Takes memory for the time of the call: 80 bytes for each extent. */
ncv_code ncv_first_shared(const ncv_held *held, size_t count, ncv_pair *pair);

/* The domain of one of several aggregators, where the bytes from `lo` up to `hi`, which is not one of them, are divided among
 * them: `number` counts from 0. The domains stand one after another without a gap, each but the first begins at a multiple of
 * `unit` (a striping unit, or 1), and each has the same whole number of units, the first and the last what lies within the
 * bytes. A domain without bytes has length 0.
 *
 *   NCV_OK        *domain is set
 *   NCV_ARGUMENT  lo is above hi, or hi is 2^62 or more; there are not 1 to 64 aggregators, or none has this number; unit is
 *                 not 1 to 2^25. Nothing is written
 *
 * Takes no memory. */
ncv_code ncv_domain(uint64_t lo, uint64_t hi, uint32_t aggregators, uint64_t unit, uint32_t number, ncv_extent *domain);

/* A window of a collective step, by its hull: from the first byte asked for to the last. */
typedef struct {
    uint64_t at;         /* the first byte of the hull */
    uint64_t len;        /* its bytes, at least 1 */
    uint32_t aggregator; /* whose domain it lies in, from 0 */
    bool full;           /* every byte of the hull is asked for. Else there is a hole: who writes the window reads its hull first */
} ncv_window;

/* What a collective step asks for. */
typedef struct {
    uint64_t lo;      /* the least byte; ncv_domain takes `lo` and `hi` for the domain of each aggregator */
    uint64_t hi;      /* the greatest byte plus one; both are 0 where no byte is asked for */
    uint64_t windows; /* how many windows there are */
} ncv_step;

/* The windows of a collective step (two-phase I/O) that asks for the bytes of these extents, which are those of all ranks, in
 * any order and also several times. The step is divided by the hints cb_nodes (`aggregators`), striping_unit (`unit`) and
 * cb_buffer_size (`buffer`): the bytes from the least to the greatest into the domains of ncv_domain, and each domain into
 * windows of `buffer` bytes from the first of its bytes that is asked for. A window without such a byte is left out.
 *
 * The windows are in order of their places, and so domain after domain. Those from number `from` on go to into[0], into[1] and
 * so on, as ncv_extents has it; *step tells how many there are in all.
 *
 *   NCV_OK         `into` and *step are set
 *   NCV_ARGUMENT   there are not 1 to 64 aggregators, or `unit` or `buffer` is not 1 to 2^25
 *   NCV_TOO_LARGE  an extent ends at byte 2^62 or later
 *   NCV_MEMORY
 *
 * But for NCV_OK nothing is written. Takes memory for the time of the call: less than 100 bytes for
 * each extent. */
ncv_code ncv_windows(const ncv_extent *asked, size_t count, uint32_t aggregators, uint64_t unit, uint64_t buffer,
                     uint64_t from, ncv_window *into, size_t room, ncv_step *step);

/* ---- values ------------------------------------------------------------------------------------------------------- */

/* Values to the bytes that stand for them in a file, and back. `type` is the number of the type in the file, as in netcdf.h,
 * and `len` has to be `count` times the bytes of one value: 1 for NC_BYTE and NC_UBYTE, 2 for NC_SHORT and NC_USHORT, 4 for
 * NC_INT, NC_UINT and NC_FLOAT, 8 for NC_INT64, NC_UINT64 and NC_DOUBLE. The bytes of a value are big-endian, whole numbers in
 * two's complement. There is no function for NC_CHAR: a char stands in the file as it is. No value is turned from a whole number
 * to a float, or from one to the other kind of float.
 *
 *   NCV_OK        all values are written to `into`
 *   NCV_EBADTYPE  no type has this number, or it is NC_FLOAT or NC_DOUBLE
 *   NCV_ECHAR     it is NC_CHAR
 *   NCV_ARGUMENT  `len` is not `count` times the bytes of one value
 *   NCV_ERANGE    a value is outside the range of the type that is to hold it: that of the file for a pack, that of the array
 *                 for an unpack. *refused is the number of the first such value, from 0
 *
 * Of several causes the first in this order answers. But for NCV_OK nothing is written to `into`, not even the values that
 * fit (PnetCDF writes those), and *refused is written for NCV_ERANGE alone. Takes no memory. */
ncv_code ncv_pack_int64(uint32_t type, const int64_t *values, size_t count, uint8_t *into, size_t len, uint64_t *refused);
ncv_code ncv_pack_uint64(uint32_t type, const uint64_t *values, size_t count, uint8_t *into, size_t len, uint64_t *refused);
ncv_code ncv_unpack_int64(uint32_t type, const uint8_t *bytes, size_t len, int64_t *into, size_t count, uint64_t *refused);
ncv_code ncv_unpack_uint64(uint32_t type, const uint8_t *bytes, size_t len, uint64_t *into, size_t count, uint64_t *refused);

/* The same of NC_FLOAT and NC_DOUBLE, by the bit patterns of IEEE 754: each value comes back as it was, a NaN too. They answer
 * NCV_OK or NCV_ARGUMENT. */
ncv_code ncv_pack_float(const float *values, size_t count, uint8_t *into, size_t len);
ncv_code ncv_pack_double(const double *values, size_t count, uint8_t *into, size_t len);
ncv_code ncv_unpack_float(const uint8_t *bytes, size_t len, float *into, size_t count);
ncv_code ncv_unpack_double(const uint8_t *bytes, size_t len, double *into, size_t count);

#ifdef __cplusplus
}
#endif
#endif
