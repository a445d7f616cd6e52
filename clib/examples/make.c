/* Makes a file of one variable: int squares(x), in CDF-1. */
#include <nc_classic.h>

#include <inttypes.h>
#include <stdio.h>

enum { LENGTH = 5, NC_INT = 4, NC_CHAR = 2 };

int main(int argc, char **argv)
{
    const ncv_dim_def x = {"x", 1, LENGTH};
    const uint32_t of_x[] = {0};
    const ncv_att_def units = {"units", 5, (const uint8_t *)"m2", 2, NC_CHAR};
    const ncv_var_def squares = {"squares", 7, of_x, 1, &units, 1, NC_INT};
    const ncv_header_def def = {&x, 1, &units, 0, &squares, 1, 0, 4, 4, 1};

    uint8_t bytes[1024], values[4 * LENGTH];
    uint64_t len;
    ncv_refused refused = {0}; /* which stays where memory is wanting */
    ncv_code code = ncv_header_make(&def, bytes, sizeof bytes, &len, &refused);
    if (code != NCV_OK) {
        printf("code %" PRId32 ": part %" PRIu32 ", number %" PRIu64 "\n", code, refused.part, refused.number);
        return 1;
    }
    ncv_var var;
    uint8_t name;
    uint32_t id;
    if (ncv_inq_var(bytes, len, 0, &name, 0, &id, 0, &var) != NCV_OK)
        return 1;
    printf("a header of %" PRIu64 " bytes, squares from %" PRIu64 "\n", len, var.begin);

    for (uint32_t k = 0; k < sizeof values; k++)
        values[k] = (uint8_t)(k / 4 * (k / 4) >> (24 - k % 4 * 8));
    FILE *file = argc == 2 ? fopen(argv[1], "wb") : NULL;
    if (file == NULL) {
        fprintf(stderr, "usage: make FILE\n");
        return 2;
    }
    fwrite(bytes, 1, len, file);
    fseek(file, (long)var.begin, SEEK_SET);
    fwrite(values, 1, sizeof values, file);
    return fclose(file) != 0;
}
