/* Any bytes as a header, and any numbers as a region: for libFuzzer. The library's own code is not instrumented, so the fuzzer goes by the
 * answers alone. */
#include <nc_classic.h>

#include <stdlib.h>
#include <string.h>

#define ROOM 8

static uint64_t number_at(const uint8_t *data, size_t len, size_t k)
{
    uint64_t number = 0;
    if (8 * k + 8 <= len)
        memcpy(&number, data + len - 8 * k - 8, 8);
    return number;
}

static void must(bool holds)
{
    if (!holds)
        abort();
}

static void check_header(const uint8_t *data, size_t len)
{
    ncv_counts counts;
    ncv_fault fault;
    ncv_code code = ncv_header_check(data, len, &counts, &fault);
    must(code == NCV_OK || code == NCV_HEADER || code == NCV_MEMORY);
    must(code != NCV_OK || counts.length <= len);
    must(code != NCV_HEADER || (fault.kind >= NCV_FAULT_NOT_CDF && fault.kind <= NCV_FAULT_SHARED));
    must(code != NCV_HEADER || fault.kind != NCV_FAULT_TRUNCATED || fault.place <= len);
}

static void check_extents(const uint8_t *data, size_t len)
{
    uint64_t numbers[16];
    for (size_t k = 0; k < 16; k++)
        numbers[k] = number_at(data, len, k) % (k < 4 ? 8 : 64);
    size_t rank = numbers[0] % 4;
    ncv_region region = {numbers[1], numbers + 4, rank, numbers + 7, rank, numbers + 10, rank, numbers + 13, numbers[2] % 2 ? rank : 0};
    ncv_extent found[ROOM];
    uint64_t total;
    ncv_code code = ncv_extents(data, len, &region, numbers[3], numbers[2] & 2, 0, found, ROOM, &total);
    if (code != NCV_OK)
        return;
    for (uint64_t k = 0; k < total && k < ROOM; k++) {
        must(found[k].len > 0 && found[k].at + found[k].len < (uint64_t)1 << 62);
        must(k == 0 || found[k].at != found[k - 1].at + found[k - 1].len);
    }
}

int LLVMFuzzerTestOneInput(const uint8_t *data, size_t len)
{
    check_header(data, len);
    check_extents(data, len);
    return 0;
}
