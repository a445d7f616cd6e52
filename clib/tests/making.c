/* Headers that are made: their bytes, each refusal, and room. */
#include "check.h"

#include <string.h>

/* A text and its length; an array and its length. */
#define NAMED(text) (text), sizeof(text) - 1
#define ARRAY(items) (items), sizeof(items) / sizeof *(items)

static const uint8_t no_value;
static const uint32_t no_id;
static const ncv_att_def no_att = {NAMED("unused"), &no_value, 0, 2};

static const ncv_dim_def dims[] = {{NAMED("time"), 0}, {NAMED("x"), 4}};
static const uint32_t of_x[] = {1}, of_time_x[] = {0, 1};
static const ncv_var_def vars[] = {
    {NAMED("v"), ARRAY(of_x), &no_att, 0, 4},
    {NAMED("r"), ARRAY(of_time_x), &no_att, 0, 3},
};

static uint8_t made[512];
static uint64_t len;
static ncv_refused refused;

/* The header of main.c. */
static ncv_header_def small_def(void)
{
    ncv_header_def def = {ARRAY(dims), &no_att, 0, ARRAY(vars), 2, 4, 4, 1};
    return def;
}

static ncv_code make(const ncv_header_def *def, size_t room)
{
    memset(made, 7, sizeof made);
    len = 77;
    refused = (ncv_refused){88, 88, 88};
    return ncv_header_make(def, made, room, &len, &refused);
}

static bool is_untouched(void)
{
    for (size_t k = 0; k < sizeof made; k++)
        if (made[k] != 7)
            return false;
    return true;
}

/* Whether this is refused, and nothing else is written. */
static bool is_refused(const ncv_header_def *def, ncv_code code, uint32_t part, uint64_t number, uint64_t owner)
{
    return make(def, sizeof made) == code && refused.part == part && refused.number == number && refused.owner == owner
        && len == 77 && is_untouched();
}

static void check_bytes(void)
{
    ncv_header_def def = small_def();
    CHECK(make(&def, sizeof made) == NCV_OK);
    CHECK(len == SMALL_LENGTH && memcmp(made, small_header, SMALL_LENGTH) == 0);
    CHECK(made[SMALL_LENGTH] == 7);
    CHECK(refused.part == 88 && refused.number == 88 && refused.owner == 88);
    CHECK(make(&def, SMALL_LENGTH) == NCV_OK);
}

static void check_room(void)
{
    ncv_header_def def = small_def();
    CHECK(make(&def, SMALL_LENGTH - 1) == NCV_ROOM);
    CHECK(len == SMALL_LENGTH && refused.part == NCV_PART_HEADER && is_untouched());
    CHECK(make(&def, 0) == NCV_ROOM && len == SMALL_LENGTH);
}

static void check_begins(void)
{
    ncv_header_def def = small_def();
    def.header_align = 512;
    def.var_align = 100;
    CHECK(make(&def, sizeof made) == NCV_OK);
    ncv_var var;
    uint8_t name;
    uint32_t id;
    CHECK(ncv_inq_var(made, len, 0, &name, 0, &id, 0, &var) == NCV_OK && var.begin == 600);
    CHECK(ncv_inq_var(made, len, 1, &name, 0, &id, 0, &var) == NCV_OK && var.begin == 700);
}

static void check_attributes(void)
{
    const uint8_t title[] = {'a', ' ', 'b'}, numbers[] = {0, 0, 0, 7, 0, 0, 0, 8};
    const ncv_att_def of_set[] = {{NAMED("title"), ARRAY(title), 2}};
    const ncv_att_def of_var[] = {{NAMED("n"), ARRAY(numbers), 4}};
    const ncv_var_def noted[] = {{NAMED("s"), &no_id, 0, ARRAY(of_var), 6}};
    ncv_header_def def = {ARRAY(dims), ARRAY(of_set), ARRAY(noted), 0, 1, 1, 5};
    CHECK(make(&def, sizeof made) == NCV_OK);
    ncv_att att;
    uint8_t name[8], values[9] = {0};
    CHECK(ncv_inq_att(made, len, NCV_GLOBAL, 0, name, 0, values, 9, &att) == NCV_OK);
    CHECK(att.type == 2 && att.count == 3 && memcmp(values, title, 3) == 0);
    CHECK(ncv_inq_att(made, len, 0, 0, name, 0, values, 9, &att) == NCV_OK);
    CHECK(att.type == 4 && att.count == 2 && memcmp(values, numbers, 8) == 0);
    ncv_counts counts;
    ncv_fault fault;
    CHECK(ncv_header_check(made, len, &counts, &fault) == NCV_OK && counts.version == 5 && counts.length == len);
}

static bool dims_refused(const ncv_dim_def *two, ncv_code code, uint64_t number)
{
    ncv_header_def def = {two, 2, &no_att, 0, vars, 0, 0, 4, 4, 1};
    return is_refused(&def, code, NCV_PART_DIM, number, 0);
}

static void check_dims(void)
{
    char long_name[257];
    memset(long_name, 'n', sizeof long_name);
    CHECK(dims_refused((ncv_dim_def[]){{NAMED("x"), 1}, {NAMED(""), 1}}, NCV_EBADNAME, 1));
    CHECK(dims_refused((ncv_dim_def[]){{NAMED("a/b"), 1}, {NAMED("a b"), 1}}, NCV_EBADNAME, 0));
    CHECK(dims_refused((ncv_dim_def[]){{NAMED("x"), 1}, {NAMED("x "), 1}}, NCV_EBADNAME, 1));
    CHECK(dims_refused((ncv_dim_def[]){{NAMED("x"), 1}, {NAMED("\xc3"), 1}}, NCV_EBADNAME, 1));
    CHECK(dims_refused((ncv_dim_def[]){{NAMED("\xc3\xa4"), 1}, {long_name, 257, 1}}, NCV_EMAXNAME, 1));
    CHECK(dims_refused((ncv_dim_def[]){{NAMED("x"), 1}, {NAMED("x"), 2147483648u}}, NCV_EDIMSIZE, 1));
    CHECK(dims_refused((ncv_dim_def[]){{NAMED("x"), 0}, {NAMED("x"), 0}}, NCV_EUNLIMIT, 1));
    CHECK(dims_refused((ncv_dim_def[]){{NAMED("x"), 1}, {NAMED("x"), 2}}, NCV_ENAMEINUSE, 1));
}

static bool vars_refused(const ncv_var_def *two, ncv_code code, uint64_t number)
{
    ncv_header_def def = {ARRAY(dims), &no_att, 0, two, 2, 0, 4, 4, 1};
    return is_refused(&def, code, NCV_PART_VAR, number, 0);
}

static void check_vars(void)
{
    const uint32_t late[] = {1, 0}, far[] = {1, 2};
    uint32_t many[33];
    for (size_t k = 0; k < 33; k++)
        many[k] = 1;
    CHECK(vars_refused((ncv_var_def[]){{NAMED("v"), &no_id, 0, &no_att, 0, 4}, {NAMED("-"), &no_id, 0, &no_att, 0, 4}}, NCV_EBADNAME, 1));
    CHECK(vars_refused((ncv_var_def[]){{NAMED("v"), &no_id, 0, &no_att, 0, 12}, vars[1]}, NCV_EBADTYPE, 0));
    CHECK(vars_refused((ncv_var_def[]){{NAMED("v"), &no_id, 0, &no_att, 0, 7}, vars[1]}, NCV_ESTRICTCDF2, 0));
    CHECK(vars_refused((ncv_var_def[]){vars[0], {NAMED("v"), far, 2, &no_att, 0, 4}}, NCV_ENAMEINUSE, 1));
    CHECK(vars_refused((ncv_var_def[]){vars[0], {NAMED("w"), far, 2, &no_att, 0, 4}}, NCV_EBADDIM, 1));
    CHECK(vars_refused((ncv_var_def[]){vars[0], {NAMED("w"), late, 2, &no_att, 0, 4}}, NCV_EUNLIMPOS, 1));
    CHECK(vars_refused((ncv_var_def[]){vars[0], {NAMED("w"), many, 33, &no_att, 0, 4}}, NCV_EMAXDIMS, 1));
}

static bool atts_refused(ncv_att_def second, ncv_code code)
{
    const ncv_att_def atts[] = {{NAMED("n"), &no_value, 0, 4}, second};
    const ncv_var_def noted[] = {vars[0], {NAMED("w"), &no_id, 0, ARRAY(atts), 4}};
    ncv_header_def of_var = {ARRAY(dims), &no_att, 0, ARRAY(noted), 0, 4, 4, 1};
    ncv_header_def of_set = {ARRAY(dims), ARRAY(atts), ARRAY(noted), 0, 4, 4, 1};
    return is_refused(&of_var, code, NCV_PART_ATT, 1, 1) && is_refused(&of_set, code, NCV_PART_ATT, 1, NCV_GLOBAL);
}

static void check_atts(void)
{
    const uint8_t values[6] = {0};
    CHECK(atts_refused((ncv_att_def){NAMED("/"), values, 4, 4}, NCV_EBADNAME));
    CHECK(atts_refused((ncv_att_def){NAMED("m"), values, 4, 0}, NCV_EBADTYPE));
    CHECK(atts_refused((ncv_att_def){NAMED("m"), values, 4, 11}, NCV_ESTRICTCDF2));
    CHECK(atts_refused((ncv_att_def){NAMED("n"), values, 6, 4}, NCV_EINVAL));
    CHECK(atts_refused((ncv_att_def){NAMED("n"), values, 4, 4}, NCV_ENAMEINUSE));
}

static void check_whole(void)
{
    ncv_header_def def = small_def();
    def.version = 3;
    CHECK(is_refused(&def, NCV_ARGUMENT, NCV_PART_HEADER, 0, 0));
    def = small_def();
    def.var_align = 0;
    CHECK(is_refused(&def, NCV_ARGUMENT, NCV_PART_HEADER, 0, 0));
    def = small_def();
    def.records = 2147483648u;
    CHECK(is_refused(&def, NCV_TOO_LARGE, NCV_PART_HEADER, 0, 0));
    const ncv_dim_def long_dims[] = {{NAMED("time"), 0}, {NAMED("x"), 1 << 30}};
    def = small_def();
    def.dims = long_dims;
    CHECK(is_refused(&def, NCV_EVARSIZE, NCV_PART_VAR, 0, 0));
}

void check_making(void)
{
    check_bytes();
    check_room();
    check_begins();
    check_attributes();
    check_dims();
    check_vars();
    check_atts();
    check_whole();
}
