/* The limit of the row numbers, whose values stand in the script as decimal numbers. */
#include "limit.h"
#include <unistd.h>

enum { WIDTH = 1 << 20 };                                 /* numbers of a call */

static uint32_t *values;

static char *whole_script(void)
{
    size_t most = 1 << 20, len = 0;
    char *script = room(most, 1);
    for (ssize_t some; (some = read(0, script + len, most - len)) > 0;) {
        len += some;
        if (len == most) {
            script = realloc(script, (most *= 2) + 1);
            need(script != NULL, "no memory");
        }
    }
    script[len] = 0;
    return script;
}

static const char *take_number(const char *from, uint32_t *number)
{
    *number = 0;
    for (; *from >= '0' && *from <= '9'; from++)
        *number = 10 * *number + (*from - '0');
    return from;
}

/* The values behind the start and the count of a call. */
static const char *take_values(const char *from, uint32_t *into)
{
    from = strchr(strchr(from, ']') + 1, ']') + 1;
    for (; *from == ' '; into++) {
        from = take_number(from + 1, into);
        *into = htobe32(*into);
    }
    return from;
}

/* Reads the script, before the dataset is opened. */
void read_numbers(uint32_t n)
{
    char *script = whole_script();
    const char *line = strstr(script, "\n0 ");
    values = room((size_t)n * WIDTH, sizeof *values);
    for (uint32_t k = 0; k < n; k++) {
        need(line != NULL, "another script");
        line = take_values(line + 1, values + (size_t)k * WIDTH);
    }
    free(script);
}

/* n calls of 2^20 numbers. */
int numbers(int file, uint32_t n)
{
    dimension("y", n);
    dimension("x", WIDTH);
    variable("v", -1, INT, 2);
    lay_out(0);
    write_header(file);
    for (uint32_t k = 0; k < n; k++)
        write_at(file, values + (size_t)k * WIDTH, 4 * WIDTH, begin_of(0) + 4 * (off_t)k * WIDTH);
    say_alike(n, "put_vara_all");
    return 0;
}
