/* The limit of rows of fields of 4 MiB, which the ranks divide into blocks of three dimensions. */
#include "limit.h"

enum { DEPTH = 128, HEIGHT = 128, WIDTH = 64, PLACES = DEPTH * HEIGHT * WIDTH };

struct box { uint32_t start[3], end[3]; };

static const uint32_t sizes[3] = {DEPTH, HEIGHT, WIDTH};

/* The first two dimensions are halved where the ranks can be, and the third divided among what is left. */
static struct box box_of(int rank)
{
    struct box box;
    uint32_t left = ranks, parts[3];
    for (int k = 0; k < 3; k++) {
        parts[k] = k == 2 ? left : left % 2 == 0 ? 2 : 1;
        left /= parts[k];
    }
    for (int k = 2; k >= 0; k--) {
        uint32_t part = rank % parts[k];
        rank /= parts[k];
        box.start[k] = sizes[k] * part / parts[k];
        box.end[k] = sizes[k] * (part + 1) / parts[k];
    }
    return box;
}

static uint32_t size_of(int rank)
{
    struct box box = box_of(rank);
    return (box.end[0] - box.start[0]) * (box.end[1] - box.start[1]) * (box.end[2] - box.start[2]);
}

static void define(uint32_t n)
{
    dimension("z", DEPTH);
    dimension("y", HEIGHT);
    dimension("x", WIDTH);
    for (uint32_t k = 0; k < n; k++)
        variable("v", k, FLOAT, 3);
    lay_out(0);
}

static uint32_t place_of(uint32_t z, uint32_t y, uint32_t x)
{
    return (z * HEIGHT + y) * WIDTH + x;
}

static void make_block(uint32_t *field, int rank)
{
    struct box box = box_of(rank);
    uint32_t value = 0x3F000000 + ((uint32_t)rank << 20);
    for (uint32_t z = box.start[0]; z < box.end[0]; z++)
        for (uint32_t y = box.start[1]; y < box.end[1]; y++)
            for (uint32_t x = box.start[2]; x < box.end[2]; x++)
                field[place_of(z, y, x)] = htobe32(value++);
}

static void write_blocks(int file, uint32_t n)
{
    uint32_t *field = room(PLACES, sizeof *field);
    define(n);
    write_header(file);
    for (uint32_t k = 0; k < n; k++) {
        for (int rank = 0; rank < ranks; rank++)
            make_block(field, rank);
        write_at(file, field, 4 * PLACES, begin_of(k));
    }
    free(field);
}

int blocks(int file, uint32_t n)
{
    write_blocks(file, n);
    say_alike(n, "put_vara_all");
    return 0;
}

int before_block_reads(int file, uint32_t n)
{
    write_blocks(file, n);
    return 0;
}

/* What is read goes to the rank that asked for it, field after field. */
static uint32_t *take_block(uint32_t *to, const uint32_t *field, int rank)
{
    struct box box = box_of(rank);
    for (uint32_t z = box.start[0]; z < box.end[0]; z++)
        for (uint32_t y = box.start[1]; y < box.end[1]; y++)
            for (uint32_t x = box.start[2]; x < box.end[2]; x++)
                *to++ = be32toh(field[place_of(z, y, x)]);
    return to;
}

static const uint32_t *say_blocks(const uint32_t *values, uint32_t n, int rank, uint32_t first)
{
    const uint32_t size = size_of(rank);
    say_rank(rank);
    for (uint32_t k = 0; k < n; k++) {
        say_call(k, "get_vara_all");
        for (uint32_t i = 0; i < size; i++)
            say_bits(*values++, 8);
        say("\n");
    }
    say_call(n, "get_var1_all");
    say_bits(first, 8);
    say("\n");
    say_end_of_rank();
    return values;
}

/* The blocks of all ranks, those of a rank field after field. */
static uint32_t *read_blocks(int file, uint32_t n)
{
    uint32_t *field = room(PLACES, sizeof *field), *read = room((size_t)n * PLACES, sizeof *read), *ends[MOST_RANKS], *end = read;
    for (int rank = 0; rank < ranks; rank++) {
        ends[rank] = end;
        end += (size_t)n * size_of(rank);
    }
    for (uint32_t k = 0; k < n; k++) {
        read_at(file, field, 4 * PLACES, begin_of(k));
        for (int rank = 0; rank < ranks; rank++)
            ends[rank] = take_block(ends[rank], field, rank);
    }
    free(field);
    return read;
}

/* n fields, each read by its blocks, and an element. */
int block_reads(int file, uint32_t n)
{
    uint32_t first;
    define(n);
    read_header(file);
    uint32_t *read = read_blocks(file, n);
    read_at(file, &first, sizeof first, begin_of(0));
    say_start(n + 1);
    const uint32_t *values = read;
    for (int rank = 0; rank < ranks; rank++)
        values = say_blocks(values, n, rank, be32toh(first));
    say_dataset();
    free(read);
    return 0;
}
