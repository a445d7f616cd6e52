/* The limit that bench/run measures ncrun against: the same bytes of the dataset and the same text, by one plain thread.

     limit generate SEED SIZE FILE          what `ncrun --generate SEED --size SIZE FILE` does
     limit ROW N RANKS FILE < SCRIPT        what `ncrun FILE < SCRIPT` does, where SCRIPT is that of bench/scripts.py for the row
     limit before ROW N RANKS FILE          makes the dataset that the row's script opens

   A script is read to its end and not looked at, but for that of the row numbers: the values come of plain loops. What several ranks
   put together is one pwrite, 16 MiB at most; gets read whole windows. The dataset is opened behind the script, and the text comes when
   all of it is written and read. Layout and text are written here anew, from the netCDF classic format and docs/OUTPUT.md. */
#include "limit.h"
#include <fcntl.h>
#include <stdio.h>
#include <unistd.h>

int ranks = 8;

static const struct row {
    const char *name;
    int (*run)(int file, uint32_t n), (*before)(int file, uint32_t n);
} rows[] = {
    {"fields", fields, NULL},
    {"blocks", blocks, NULL},
    {"cyclic_rows", cyclic_rows, NULL},
    {"cyclic_columns", cyclic_columns, NULL},
    {"aggregators", aggregators, NULL},
    {"varn", varn, NULL},
    {"fill", fill, NULL},
    {"numbers", numbers, NULL},
    {"small", small, NULL},
    {"variables", variables, NULL},
    {"steps", steps, NULL},
    {"posted", posted, NULL},
    {"independent", independent, NULL},
    {"calls", calls, NULL},
    {"waits", waits, NULL},
    {"attributes", attributes, before_attributes},
    {"header", header, before_header},
    {"reads", reads, before_reads},
    {"reads_by_mib", reads_by_mib, before_reads},
    {"block_reads", block_reads, before_block_reads},
    {"column", column, before_column},
};

void need(int holds, const char *what)
{
    if (!holds) {
        fprintf(stderr, "limit: %s\n", what);
        exit(1);
    }
}

void *room(size_t count, size_t size)
{
    void *memory = malloc(count * size + 1);
    need(memory != NULL, "no memory");
    return memory;
}

static void pass_script(void)
{
    static char block[1 << 16];
    while (read(0, block, sizeof block) > 0) {
    }
}

static int opened(const char *path, int flags)
{
    int file = open(path, O_RDWR | flags, 0666);
    need(file >= 0, "cannot open the dataset");
    return file;
}

static const struct row *row_of(const char *name)
{
    for (size_t k = 0; k < sizeof rows / sizeof *rows; k++)
        if (strcmp(name, rows[k].name) == 0)
            return &rows[k];
    need(0, "no row of this name");
    return NULL;
}

int main(int count, char **words)
{
    if (count == 5 && strcmp(words[1], "generate") == 0)
        return generate(opened(words[4], O_CREAT | O_TRUNC), strtoull(words[2], NULL, 10), atoi(words[3]));
    int before = count > 1 && strcmp(words[1], "before") == 0;
    need(count == 5 + before, "limit: [before] ROW N RANKS FILE, or generate SEED SIZE FILE");
    words += before;
    const struct row *row = row_of(words[1]);
    int makes = before || row->before == NULL;
    int (*run)(int, uint32_t) = before ? row->before : row->run;
    need(run != NULL, "the row opens no dataset");
    ranks = atoi(words[3]);
    need(ranks >= 1 && ranks <= MOST_RANKS, "1 to 8 ranks");
    if (run == numbers)
        read_numbers(atoi(words[2]));
    else if (!before)
        pass_script();
    return run(opened(words[4], makes ? O_CREAT | O_TRUNC : 0), atoi(words[2]));
}
