/* A variable of each type of CDF-5 is put and got by the function of each type that C has for it, of which some values don't fit;
   attributes are put by each function, and a record is filled. */
#include "test.h"

enum { COUNT = 4 };

static int ncid, vars[NC_UINT64 + 1];
static MPI_Offset start[2], count[2] = {1, COUNT};

/* put and get of one variable by the functions of that type of memory */
#define BOTH(word, type, variable, ...)                                                                                      \
    do {                                                                                                                     \
        type values[COUNT] = {__VA_ARGS__};                                                                                  \
        OK(ncmpi_put_vara_##word##_all(ncid, vars[variable], start, count, values));                                         \
        OK(ncmpi_get_vara_##word##_all(ncid, vars[variable], start, count, values));                                         \
    } while (0)

static void own_types(void)
{
    BOTH(schar, signed char, NC_BYTE, -128, -1, 0, 127);
    BOTH(text, char, NC_CHAR, 'a', '\t', '"', (char)0xFE);
    BOTH(short, short, NC_SHORT, -32768, -1, 0, 32767);
    BOTH(int, int, NC_INT, -2147483647 - 1, -1, 0, 2147483647);
    BOTH(float, float, NC_FLOAT, 0.1f, -0.0f, 1e-45f, 3e38f);
    BOTH(double, double, NC_DOUBLE, 0.1, -0.0, 5e-324, 1e308);
    BOTH(uchar, unsigned char, NC_UBYTE, 0, 1, 128, 255);
    BOTH(ushort, unsigned short, NC_USHORT, 0, 1, 32768, 65535);
    BOTH(uint, unsigned, NC_UINT, 0, 1, 1u << 31, ~0u);
    BOTH(longlong, long long, NC_INT64, -9223372036854775807LL - 1, -1, 0, 9223372036854775807LL);
    BOTH(ulonglong, unsigned long long, NC_UINT64, 0, 1, 1ULL << 63, ~0ULL);
}

static void other_types(void)
{
    BOTH(longlong, long long, NC_BYTE, -5, 5, 100, -100);
    BOTH(ulonglong, unsigned long long, NC_SHORT, 1, 2, 3, 4);
    BOTH(uchar, unsigned char, NC_INT, 1, 2, 3, 255);
    BOTH(long, long, NC_UINT, 1, 2, 3, 4000000000L);
    BOTH(schar, signed char, NC_INT64, -1, -2, -3, 4);
    BOTH(ushort, unsigned short, NC_UINT64, 1, 2, 3, 65535);
    BOTH(uint, unsigned, NC_USHORT, 1, 2, 3, 4);
}

static void attributes(void)
{
    signed char small = -3;
    unsigned char byte = 250;
    unsigned short half = 65000;
    unsigned whole = 4000000000u;
    long long large = -1099511627776LL;
    unsigned long long larger = ~0ULL;
    float real = 0.5f, reals[2] = {-1.5f, 2};
    int number = 7;
    OK(ncmpi_put_att_text(ncid, NC_GLOBAL, "title", 7, "a\n\"b\" c"));
    OK(ncmpi_put_att_text(ncid, NC_GLOBAL, "empty", 0, ""));
    OK(ncmpi_put_att_schar(ncid, vars[NC_BYTE], "schar", NC_BYTE, 1, &small));
    OK(ncmpi_put_att_uchar(ncid, vars[NC_UBYTE], "uchar", NC_UBYTE, 1, &byte));
    OK(ncmpi_put_att_ushort(ncid, vars[NC_USHORT], "ushort", NC_USHORT, 1, &half));
    OK(ncmpi_put_att_uint(ncid, vars[NC_UINT], "uint", NC_UINT, 1, &whole));
    OK(ncmpi_put_att_longlong(ncid, vars[NC_INT64], "longlong", NC_INT64, 1, &large));
    OK(ncmpi_put_att_ulonglong(ncid, vars[NC_UINT64], "ulonglong", NC_UINT64, 1, &larger));
    OK(ncmpi_put_att_float(ncid, vars[NC_DOUBLE], "float", NC_DOUBLE, 2, reals));
    OK(ncmpi_put_att(ncid, vars[NC_FLOAT], "own", NC_FLOAT, 1, &real));
    OK(ncmpi_put_att_int(ncid, vars[NC_SHORT], "int", NC_BYTE, 1, &number));
    OK(ncmpi_put_att_int(ncid, vars[NC_SHORT], "int", NC_SHORT, 1, &number));
}

int main(int argc, char **argv)
{
    static const char *const names[] = {"", "byte", "char", "short", "int", "float", "double", "ubyte", "ushort", "uint", "int64", "uint64"};
    int rank, ranks, dims[2];
    begin(&argc, &argv, &rank, &ranks);
    OK(ncmpi_create(MPI_COMM_WORLD, argv[1], NC_CLOBBER | NC_64BIT_DATA, MPI_INFO_NULL, &ncid));
    OK(ncmpi_def_dim(ncid, "time", NC_UNLIMITED, &dims[0]));
    OK(ncmpi_def_dim(ncid, "x", ranks * COUNT, &dims[1]));
    for (int t = NC_BYTE; t <= NC_UINT64; t++)
        OK(ncmpi_def_var(ncid, names[t], t, 2, dims, &vars[t]));
    for (int t = NC_BYTE; t <= NC_UINT64; t++)
        OK(ncmpi_def_var_fill(ncid, vars[t], 0, NULL));
    attributes();
    OK(ncmpi_enddef(ncid));
    for (int t = NC_BYTE; t <= NC_UINT64; t++)
        OK(ncmpi_fill_var_rec(ncid, vars[t], 1));
    start[1] = rank * COUNT;
    own_types();
    start[0] = 2;
    for (int t = NC_BYTE; t <= NC_UINT64; t++)
        OK(ncmpi_fill_var_rec(ncid, vars[t], 2));
    other_types();
    OK(ncmpi_close(ncid));
    MPI_Finalize();
    return 0;
}
