/* The parts of a header, by number and by name, and the sizes of a file. */
#include "check.h"

#include <string.h>

/* A file of CDF-1, written by hand from the format specification: one dimension x of length 3, the attribute title = "a b" of the
 * dataset, and short s(x) with the attribute n = 7, 8 of type int. */
static const uint8_t noted_header[] = {
    'C', 'D', 'F', 1, 0, 0, 0, 0, /* no record */
    0, 0, 0, 10, 0, 0, 0, 1, 0, 0, 0, 1, 'x', 0, 0, 0, 0, 0, 0, 3,
    0, 0, 0, 12, 0, 0, 0, 1, 0, 0, 0, 5, 't', 'i', 't', 'l', 'e', 0, 0, 0, 0, 0, 0, 2, 0, 0, 0, 3, 'a', ' ', 'b', 0,
    0, 0, 0, 11, 0, 0, 0, 1, 0, 0, 0, 1, 's', 0, 0, 0, 0, 0, 0, 1, 0, 0, 0, 0,
    0, 0, 0, 12, 0, 0, 0, 1, 0, 0, 0, 1, 'n', 0, 0, 0, 0, 0, 0, 4, 0, 0, 0, 2, 0, 0, 0, 7, 0, 0, 0, 8,
    0, 0, 0, 3, 0, 0, 0, 8, 0, 0, 0, 128,
};

static uint8_t name[8], values[9];
static uint32_t ids[3];
static uint64_t number;

static void clear(void)
{
    memset(name, 0, sizeof name);
    memset(values, 0, sizeof values);
    memset(ids, 255, sizeof ids);
    number = UINT64_MAX;
}

static void check_dims(void)
{
    ncv_dim dim;
    clear();
    CHECK(ncv_inq_dim(small_header, SMALL_LENGTH, 0, name, sizeof name, &dim) == NCV_OK);
    CHECK(dim.length == 0 && dim.name_len == 4 && strcmp((char *)name, "time") == 0);
    CHECK(ncv_inq_dim(small_header, SMALL_LENGTH, 1, name, sizeof name, &dim) == NCV_OK);
    CHECK(dim.length == 4 && dim.name_len == 1 && strcmp((char *)name, "xime") == 0);
    clear();
    CHECK(ncv_inq_dim(small_header, SMALL_LENGTH, 0, name, 2, &dim) == NCV_OK);
    CHECK(dim.name_len == 4 && strcmp((char *)name, "ti") == 0);
    CHECK(ncv_inq_dim(small_header, SMALL_LENGTH, 2, name, sizeof name, &dim) == NCV_EBADDIM);
    CHECK(ncv_inq_dim(small_header, 100, 0, name, sizeof name, &dim) == NCV_HEADER);
    CHECK(dim.name_len == 4 && strcmp((char *)name, "ti") == 0);

    CHECK(ncv_inq_dimid(small_header, SMALL_LENGTH, (const uint8_t *)"x", 1, &number) == NCV_OK && number == 1);
    CHECK(ncv_inq_dimid(small_header, SMALL_LENGTH, (const uint8_t *)"tim", 3, &number) == NCV_EBADDIM && number == 1);
    CHECK(ncv_inq_dimid(small_header, 100, (const uint8_t *)"x", 1, &number) == NCV_HEADER && number == 1);
}

static void check_vars(void)
{
    ncv_var var;
    clear();
    CHECK(ncv_inq_var(small_header, SMALL_LENGTH, 0, name, sizeof name, ids, 3, &var) == NCV_OK);
    CHECK(var.begin == 132 && var.slab == 16 && var.vsize == 16 && var.dims == 1 && var.attrs == 0 && var.name_len == 1);
    CHECK(var.type == 4 && !var.is_record && strcmp((char *)name, "v") == 0);
    CHECK(ids[0] == 1 && ids[1] == UINT32_MAX);
    CHECK(ncv_inq_var(small_header, SMALL_LENGTH, 1, name, sizeof name, ids, 3, &var) == NCV_OK);
    CHECK(var.begin == 148 && var.slab == 8 && var.dims == 2 && var.type == 3 && var.is_record);
    CHECK(ids[0] == 0 && ids[1] == 1 && ids[2] == UINT32_MAX);
    clear();
    CHECK(ncv_inq_var(small_header, SMALL_LENGTH, 1, name, 0, ids, 1, &var) == NCV_OK);
    CHECK(var.dims == 2 && name[0] == 0 && ids[0] == 0 && ids[1] == UINT32_MAX);
    CHECK(ncv_inq_var(small_header, SMALL_LENGTH, 2, name, sizeof name, ids, 3, &var) == NCV_ENOTVAR);
    CHECK(ncv_inq_var(small_header, 100, 0, name, sizeof name, ids, 3, &var) == NCV_HEADER);
    CHECK(var.dims == 2 && name[0] == 0 && ids[0] == 0);
    CHECK(ncv_inq_var(noted_header, sizeof noted_header, 0, name, sizeof name, ids, 3, &var) == NCV_OK);
    CHECK(var.slab == 6 && var.vsize == 8 && var.attrs == 1);

    CHECK(ncv_inq_varid(small_header, SMALL_LENGTH, (const uint8_t *)"r", 1, &number) == NCV_OK && number == 1);
    CHECK(ncv_inq_varid(small_header, SMALL_LENGTH, name, 0, &number) == NCV_ENOTVAR && number == 1);
    CHECK(ncv_inq_varid(small_header, 100, (const uint8_t *)"r", 1, &number) == NCV_HEADER && number == 1);
}

static void check_atts(void)
{
    ncv_att att;
    clear();
    CHECK(ncv_inq_att(noted_header, sizeof noted_header, NCV_GLOBAL, 0, name, sizeof name, values, sizeof values, &att) == NCV_OK);
    CHECK(att.count == 3 && att.values_len == 3 && att.name_len == 5 && att.type == 2);
    CHECK(strcmp((char *)name, "title") == 0 && strcmp((char *)values, "a b") == 0);
    clear();
    CHECK(ncv_inq_att(noted_header, sizeof noted_header, 0, 0, name, sizeof name, values, sizeof values, &att) == NCV_OK);
    CHECK(att.count == 2 && att.values_len == 8 && att.name_len == 1 && att.type == 4);
    CHECK(strcmp((char *)name, "n") == 0 && memcmp(values, (uint8_t[]){0, 0, 0, 7, 0, 0, 0, 8, 0}, 9) == 0);
    CHECK(ncv_inq_att(noted_header, sizeof noted_header, 0, 1, name, sizeof name, values, sizeof values, &att) == NCV_ENOTATT);
    CHECK(ncv_inq_att(noted_header, sizeof noted_header, 1, 0, name, sizeof name, values, sizeof values, &att) == NCV_ENOTVAR);
    CHECK(ncv_inq_att(noted_header, 100, 0, 0, name, sizeof name, values, sizeof values, &att) == NCV_HEADER);
    CHECK(att.count == 2 && strcmp((char *)name, "n") == 0 && values[3] == 7);

    const uint8_t *title = (const uint8_t *)"title";
    CHECK(ncv_inq_attid(noted_header, sizeof noted_header, NCV_GLOBAL, title, 5, &number) == NCV_OK && number == 0);
    CHECK(ncv_inq_attid(noted_header, sizeof noted_header, 0, title, 5, &number) == NCV_ENOTATT);
    CHECK(ncv_inq_attid(noted_header, sizeof noted_header, 1, title, 5, &number) == NCV_ENOTVAR);
    CHECK(ncv_inq_attid(noted_header, 100, 0, title, 5, &number) == NCV_HEADER && number == 0);
}

static void check_sizes(void)
{
    ncv_sizes sizes = {7, 7};
    CHECK(ncv_inq_sizes(small_header, SMALL_LENGTH, 2, &sizes) == NCV_OK && sizes.record_size == 8 && sizes.end == 164);
    CHECK(ncv_inq_sizes(small_header, SMALL_LENGTH, 0, &sizes) == NCV_OK && sizes.end == 148);
    CHECK(ncv_inq_sizes(small_header, SMALL_LENGTH, 1u << 31, &sizes) == NCV_TOO_LARGE && sizes.end == 148);
    CHECK(ncv_inq_sizes(small_header, 100, 2, &sizes) == NCV_HEADER && sizes.end == 148);
    CHECK(ncv_inq_sizes(noted_header, sizeof noted_header, 0, &sizes) == NCV_OK);
    CHECK(sizes.record_size == 0 && sizes.end == sizeof noted_header + 8);
}

void check_parts_of_header(void)
{
    CHECK(sizeof noted_header == 128);
    check_dims();
    check_vars();
    check_atts();
    check_sizes();
}
