/* The limit of rows of many calls: of one rank each by itself, and of all ranks together. */
#include "limit.h"

enum { RECORD = 1024, POSTS = 100, SHARE = 256 };          /* floats of a record, posts of a step, and floats of a rank's post */

/* One int variable of n elements. */
static off_t vector(uint32_t n)
{
    dimension("x", n);
    variable("v", -1, INT, 1);
    lay_out(0);
    return begin_of(0);
}

/* n elements, each by a put of its own. */
int calls(int file, uint32_t n)
{
    off_t begin = vector(n);
    write_header(file);
    for (uint32_t k = 0; k < n; k++) {
        uint32_t value = htobe32(k);
        write_at(file, &value, 4, begin + 4 * (off_t)k);
    }
    say_alike(n, "put_var1_all");
    return 0;
}

/* n elements, each posted, and then each written by a wait of its own. */
int waits(int file, uint32_t n)
{
    struct post { uint32_t value; off_t at; } *posts = room(n, sizeof *posts);
    off_t begin = vector(n);
    write_header(file);
    for (uint32_t k = 0; k < n; k++)
        posts[k] = (struct post){htobe32(k), begin + 4 * (off_t)k};
    for (uint32_t k = 0; k < n; k++)
        write_at(file, &posts[k].value, 4, posts[k].at);
    say_start(n);
    say_rank(0);
    say_calls(0, n, "iput_var1");
    for (uint32_t k = 0; k < n; k++) {
        say_call(n + k, "wait_all");
        say("\n  ");
        say_number(k);
        say(" ok\n");
    }
    say_end_of_rank();
    say_dataset();
    free(posts);
    return 0;
}

/* n variables, each written once, an element by each rank. */
static void write_elements(int file, uint32_t n)
{
    uint32_t elements[MOST_RANKS];
    write_header(file);
    for (uint32_t k = 0; k < n; k++) {
        for (int rank = 0; rank < ranks; rank++)
            elements[rank] = htobe32(ranks * k + rank);
        write_at(file, elements, 4 * ranks, begin_of(k));
    }
    say_alike(n, "put_vara_all");
}

int small(int file, uint32_t n)
{
    dimension("x", ranks);
    for (uint32_t k = 0; k < n; k++)
        variable("v", k, INT, 1);
    lay_out(0);
    write_elements(file, n);
    return 0;
}

/* The same over records, of which there is one. */
int variables(int file, uint32_t n)
{
    dimension("t", 0);
    dimension("x", ranks);
    for (uint32_t k = 0; k < n; k++)
        variable("v", k, INT, 2);
    lay_out(1);
    write_elements(file, n);
    return 0;
}

/* n records of 4 KiB, each by a call of all ranks. */
int steps(int file, uint32_t n)
{
    uint32_t record[RECORD];
    dimension("t", 0);
    dimension("x", RECORD);
    variable("v", -1, FLOAT, 2);
    lay_out(n);
    write_header(file);
    for (uint32_t t = 0; t < n; t++) {
        for (uint32_t x = 0; x < RECORD; x++)
            record[x] = htobe32(0x3F000000 + RECORD * t + x);
        write_at(file, record, sizeof record, begin_of(0) + (off_t)t * sizeof record);
    }
    say_alike(n, "put_vara_all");
    return 0;
}

static void say_posts(uint32_t n)
{
    for (uint32_t t = 0; t < n; t++) {
        say_calls((POSTS + 1) * t, POSTS, "iput_vara");
        say_call((POSTS + 1) * t + POSTS, "wait_all");
        say("\n");
        for (uint32_t k = 0; k < POSTS; k++) {
            say("  ");
            say_number(POSTS * t + k);
            say(" ok\n");
        }
    }
}

/* n records of a hundred variables, each of which every rank posts its share of, and one wait a record. */
int posted(int file, uint32_t n)
{
    uint32_t width = SHARE * ranks, *record = room(POSTS * width, sizeof *record);
    dimension("t", 0);
    dimension("x", width);
    for (uint32_t k = 0; k < POSTS; k++)
        variable("f", k, FLOAT, 2);
    lay_out(n);
    write_header(file);
    for (uint32_t t = 0; t < n; t++) {
        for (uint32_t k = 0; k < POSTS; k++)
            for (uint32_t x = 0; x < width; x++)
                record[width * k + x] = htobe32(0x3F000000 + k + x);
        write_at(file, record, 4ul * POSTS * width, begin_of(0) + (off_t)t * 4 * POSTS * width);
    }
    say_start(n);
    for (int rank = 0; rank < ranks; rank++) {
        say_rank(rank);
        say_posts(n);
        say_end_of_rank();
    }
    say_dataset();
    free(record);
    return 0;
}

static void say_solo_order(uint32_t n)
{
    say("ranks ");
    say_number(ranks);
    say("\norder m0");
    for (int rank = 0; rank < ranks; rank++)
        for (uint32_t k = 1; k <= n; k++) {
            say(" s");
            say_number(rank);
            say(".");
            say_number(k);
        }
    say(" m1\n");
}

/* n elements of each rank, each by a put of that rank alone. */
int independent(int file, uint32_t n)
{
    dimension("r", ranks);
    dimension("x", n);
    variable("v", -1, INT, 2);
    lay_out(0);
    write_header(file);
    for (uint32_t k = 0; k < n * ranks; k++) {
        uint32_t value = htobe32(k);
        write_at(file, &value, 4, begin_of(0) + 4 * (off_t)k);
    }
    say_solo_order(n);
    for (int rank = 0; rank < ranks; rank++) {
        say_rank(rank);
        say_calls(0, 1, "begin_indep_data");
        say_calls(1, n, "put_var1");
        say_calls(n + 1, 1, "end_indep_data");
        say_end_of_rank();
    }
    say_dataset();
    return 0;
}
