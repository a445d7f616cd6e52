/* Tells what the header of a file holds, or what is wrong with it. */
#include <nc_classic.h>

#include <inttypes.h>
#include <stdio.h>

int main(int argc, char **argv)
{
    static uint8_t bytes[1 << 20];
    FILE *file = argc == 2 ? fopen(argv[1], "rb") : NULL;
    if (file == NULL) {
        fprintf(stderr, "usage: first FILE\n");
        return 2;
    }
    size_t len = fread(bytes, 1, sizeof bytes, file);
    fclose(file);

    ncv_counts counts;
    ncv_fault fault;
    ncv_code code = ncv_header_check(bytes, len, &counts, &fault);
    if (code == NCV_HEADER)
        printf("fault %" PRIu32 " at %" PRIu64 "\n", fault.kind, fault.place);
    if (code != NCV_OK)
        return 1;
    printf("CDF-%" PRIu32 ", %" PRIu64 " dimensions, %" PRIu64 " variables, %" PRIu64 " records\n", counts.version, counts.dims,
           counts.vars, counts.records);

    /* the first value of variable 0, if that has one dimension */
    const uint64_t start[] = {0}, count[] = {1}, stride[] = {1};
    ncv_region first = {.var = 0, .start = start, .starts = 1, .count = count, .counts = 1, .stride = stride, .strides = 1, .imap = start, .imaps = 0};
    ncv_extent extent;
    uint64_t total;
    code = ncv_extents(bytes, len, &first, counts.records, false, 0, &extent, 1, &total);
    if (code == NCV_OK && total == 1)
        printf("the first value of variable 0 has %" PRIu64 " bytes from %" PRIu64 "\n", extent.len, extent.at);
    else
        printf("variable 0 has not one dimension: code %" PRId32 "\n", code);
    return 0;
}
