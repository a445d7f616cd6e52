/* A dataset of the netCDF classic format, CDF-1: its definitions, where their values lie, its header, and the text that tells them. */
#include "limit.h"
#include <stdio.h>
#include <unistd.h>

enum { DIMENSIONS = 10, VARIABLES = 11, ATTRIBUTES = 12 };         /* tags of lists, as a header spells them */
enum { MOST_DIMENSIONS = 3, MOST_VARIABLES = 8192 };

static struct { const char *name; uint32_t length; } dims[MOST_DIMENSIONS];
static struct { char name[16]; uint32_t type, rank, attributes, slab, begin; } vars[MOST_VARIABLES];
static uint32_t dim_count, var_count, record_count;

/* What passes 2^20 bytes is counted and not kept. */
static unsigned char head[1 << 20];
static size_t head_len;

void new_dataset(void)
{
    dim_count = var_count = 0;
}

void dimension(const char *name, uint32_t length)
{
    need(dim_count < MOST_DIMENSIONS, "too many dimensions");
    dims[dim_count].name = name;
    dims[dim_count++].length = length;
}

static uint32_t size_of(uint32_t type)
{
    return type == DOUBLE ? 8 : type == SHORT ? 2 : 4;
}

static int is_record(uint32_t v)
{
    return vars[v].rank > 0 && dims[0].length == 0;
}

void variable(const char *name, int number, uint32_t type, uint32_t rank)
{
    need(var_count < MOST_VARIABLES && rank <= dim_count, "too many variables");
    if (number < 0)
        sprintf(vars[var_count].name, "%s", name);
    else
        sprintf(vars[var_count].name, "%s%d", name, number);
    vars[var_count].type = type;
    vars[var_count].rank = rank;
    vars[var_count].attributes = 0;
    vars[var_count].slab = size_of(type);
    for (uint32_t id = is_record(var_count); id < rank; id++)
        vars[var_count].slab *= dims[id].length;
    var_count++;
}

void attributes_of_last(uint32_t count)
{
    vars[var_count - 1].attributes = count;
}

/* ---- the header */

static void bytes(const void *from, size_t len)
{
    if (len <= sizeof head && head_len <= sizeof head - len)
        memcpy(head + head_len, from, len);
    head_len += len;
}

static void word(uint32_t number)
{
    uint32_t big = htobe32(number);
    bytes(&big, 4);
}

static void name(const char *text)
{
    size_t len = strlen(text);
    word(len);
    bytes(text, len);
    bytes("\0\0\0", -len & 3);
}

static void list(uint32_t tag, uint32_t count)
{
    word(count > 0 ? tag : 0);
    word(count);
}

static void spell_attributes(uint32_t count)
{
    char text[16];
    list(ATTRIBUTES, count);
    for (uint32_t k = 0; k < count; k++) {
        sprintf(text, "a%u", k);
        name(text);
        word(INT);
        word(1);
        word(k);
    }
}

static void spell_variable(uint32_t v)
{
    name(vars[v].name);
    word(vars[v].rank);
    for (uint32_t id = 0; id < vars[v].rank; id++)
        word(id);
    spell_attributes(vars[v].attributes);
    word(vars[v].type);
    word((vars[v].slab + 3) & ~3u);
    word(vars[v].begin);
}

static void spell(void)
{
    head_len = 0;
    bytes("CDF\1", 4);
    word(record_count);
    list(DIMENSIONS, dim_count);
    for (uint32_t id = 0; id < dim_count; id++) {
        name(dims[id].name);
        word(dims[id].length);
    }
    list(ATTRIBUTES, 0);
    list(VARIABLES, var_count);
    for (uint32_t v = 0; v < var_count; v++)
        spell_variable(v);
}

/* The rows have variables of one kind, and whole words of 4 bytes each. */
void lay_out(uint32_t records)
{
    record_count = records;
    spell();
    uint32_t begin = head_len;
    for (uint32_t v = 0; v < var_count; v++) {
        vars[v].begin = begin;
        begin += vars[v].slab;
    }
    spell();
}

size_t header_length(void)
{
    return head_len;
}

off_t begin_of(uint32_t variable)
{
    return vars[variable].begin;
}

uint32_t header_word(size_t at)
{
    uint32_t big;
    memcpy(&big, head + at, 4);
    return be32toh(big);
}

/* ---- the file */

void write_at(int file, const void *bytes, size_t len, off_t at)
{
    need(pwrite(file, bytes, len, at) == (ssize_t)len, "cannot write");
}

void read_at(int file, void *bytes, size_t len, off_t at)
{
    need(pread(file, bytes, len, at) == (ssize_t)len, "cannot read");
}

void lengthen(int file, off_t len)
{
    need(ftruncate(file, len) == 0, "cannot lengthen");
}

void write_header(int file)
{
    write_at(file, head, head_len, 0);
}

void read_header(int file)
{
    read_at(file, head, head_len, 0);
}

/* ---- the text */

static void say_of_bytes(const char *what, int64_t number)
{
    say(what);
    say_number(number);
}

static void say_dimension(uint32_t id)
{
    say("  ");
    say(dims[id].name);
    if (dims[id].length == 0) {
        say_of_bytes(" = UNLIMITED // (", record_count);
        say(" currently)");
    } else
        say_of_bytes(" = ", dims[id].length);
    say("\n");
}

static void say_variable(uint32_t v)
{
    static const char *const types[] = {[SHORT] = "  short ", [INT] = "  int ", [FLOAT] = "  float ", [DOUBLE] = "  double "};
    say(types[vars[v].type]);
    say(vars[v].name);
    for (uint32_t id = 0; id < vars[v].rank; id++) {
        say(id == 0 ? "(" : ", ");
        say(dims[id].name);
    }
    say(vars[v].rank > 0 ? "):\n" : ":\n");
    say_of_bytes("    start file offset = ", vars[v].begin);
    say_of_bytes("\n    end file offset = ", (int64_t)vars[v].begin + vars[v].slab);
    say_of_bytes("\n    size in bytes = ", vars[v].slab);
    say("\n");
}

static void say_variables(int records)
{
    say(records ? "record variables:\n" : "fixed-size variables:\n");
    for (uint32_t v = 0; v < var_count; v++)
        if (is_record(v) == records)
            say_variable(v);
}

void say_dataset(void)
{
    say_of_bytes("// file format: CDF-1\nfile header:\n  size = ", head_len);
    say_of_bytes(" bytes\n  extent = ", vars[0].begin);
    say(" bytes\ndimensions:\n");
    for (uint32_t id = 0; id < dim_count; id++)
        say_dimension(id);
    say_variables(0);
    say_variables(1);
    say_all();
}
