/* Extents of regions, by the formulas of the format specification. */
#include "check.h"

#include <string.h>

#define NONE UINT64_MAX

/* A region of a variable of at most two dimensions. */
static ncv_region region(uint64_t var, size_t rank, const uint64_t *start, const uint64_t *count, const uint64_t *stride)
{
    return (ncv_region){var, start, rank, count, rank, stride, rank, stride, 0};
}

static const uint64_t ones[] = {1, 1};

static ncv_extent found[4];
static uint64_t total;

/* What a call answers, the extents and their number being in `found` and `total`. */
static ncv_code ask(const ncv_region *asked, bool put, uint64_t from, size_t room)
{
    for (size_t k = 0; k < 4; k++)
        found[k] = (ncv_extent){NONE, NONE};
    total = NONE;
    return ncv_extents(small_header, SMALL_LENGTH, asked, 2, put, from, found, room, &total);
}

static bool is(size_t k, uint64_t at, uint64_t len)
{
    return found[k].at == at && found[k].len == len;
}

static void check_fixed(void)
{
    ncv_region row = region(0, 1, (uint64_t[]){1}, (uint64_t[]){2}, ones);
    CHECK(ask(&row, false, 0, 4) == NCV_OK);
    CHECK(total == 1 && is(0, 136, 8) && is(1, NONE, NONE));

    ncv_region every_other = region(0, 1, (uint64_t[]){0}, (uint64_t[]){2}, (uint64_t[]){2});
    CHECK(ask(&every_other, false, 0, 4) == NCV_OK);
    CHECK(total == 2 && is(0, 132, 4) && is(1, 140, 4) && is(2, NONE, NONE));

    ncv_region none = region(0, 1, (uint64_t[]){4}, (uint64_t[]){0}, ones);
    CHECK(ask(&none, false, 0, 4) == NCV_OK);
    CHECK(total == 0 && is(0, NONE, NONE));
}

static void check_records(void)
{
    /* the only record variable is not padded, so its records follow one another */
    ncv_region whole = region(1, 2, (uint64_t[]){0, 0}, (uint64_t[]){2, 4}, ones);
    CHECK(ask(&whole, false, 0, 4) == NCV_OK);
    CHECK(total == 1 && is(0, 148, 16));

    ncv_region later = region(1, 2, (uint64_t[]){5, 0}, (uint64_t[]){1, 4}, ones);
    CHECK(ask(&later, true, 0, 4) == NCV_OK);
    CHECK(total == 1 && is(0, 188, 8));
}

static void check_parts(void)
{
    ncv_region columns = region(1, 2, (uint64_t[]){0, 1}, (uint64_t[]){2, 2}, ones);
    CHECK(ask(&columns, false, 0, 4) == NCV_OK);
    CHECK(total == 2 && is(0, 150, 4) && is(1, 158, 4) && is(2, NONE, NONE));
    CHECK(ask(&columns, false, 0, 1) == NCV_OK);
    CHECK(total == 2 && is(0, 150, 4) && is(1, NONE, NONE));
    CHECK(ask(&columns, false, 1, 4) == NCV_OK);
    CHECK(total == 2 && is(0, 158, 4) && is(1, NONE, NONE));
    CHECK(ask(&columns, false, 2, 4) == NCV_OK);
    CHECK(total == 2 && is(0, NONE, NONE));
    CHECK(ask(&columns, false, NONE, 4) == NCV_OK);
    CHECK(total == 2 && is(0, NONE, NONE));
    CHECK(ask(&columns, false, 0, 0) == NCV_OK);
    CHECK(total == 2 && is(0, NONE, NONE));
}

/* A refusal writes nothing. */
static bool refuses(const ncv_region *asked, bool put, ncv_code code)
{
    return ask(asked, put, 0, 4) == code && total == NONE && is(0, NONE, NONE);
}

static void check_refusals(void)
{
    ncv_region other = region(2, 1, (uint64_t[]){0}, (uint64_t[]){1}, ones);
    CHECK(refuses(&other, false, NCV_ENOTVAR));

    ncv_region few = region(1, 1, (uint64_t[]){0}, (uint64_t[]){1}, ones);
    CHECK(refuses(&few, false, NCV_EINVALCOORDS));

    ncv_region still = region(0, 1, (uint64_t[]){0}, (uint64_t[]){1}, (uint64_t[]){0});
    CHECK(refuses(&still, false, NCV_ESTRIDE));

    ncv_region past = region(0, 1, (uint64_t[]){4}, (uint64_t[]){1}, ones);
    CHECK(refuses(&past, true, NCV_EINVALCOORDS));

    ncv_region edge = region(1, 2, (uint64_t[]){1, 0}, (uint64_t[]){2, 4}, ones);
    CHECK(refuses(&edge, false, NCV_EEDGE));
    CHECK(ask(&edge, true, 0, 4) == NCV_OK);

    ncv_region large = region(1, 2, (uint64_t[]){0, 0}, (uint64_t[]){1 << 19, 4}, ones);
    CHECK(refuses(&large, true, NCV_TOO_LARGE));

    ncv_region far = region(0, 1, (uint64_t[]){0}, (uint64_t[]){2}, ones);
    far.imap = (uint64_t[]){1 << 20};
    far.imaps = 1;
    CHECK(refuses(&far, false, NCV_TOO_LARGE));

    CHECK(ncv_extents(small_header, 100, &past, 2, false, 0, found, 4, &total) == NCV_HEADER);
}

static void check_needs(void)
{
    ncv_needs needs = {NONE, NONE};
    ncv_region some = region(1, 2, (uint64_t[]){2, 0}, (uint64_t[]){2, 3}, (uint64_t[]){3, 1});
    CHECK(ncv_region_check(small_header, SMALL_LENGTH, &some, 2, true, &needs) == NCV_OK);
    CHECK(needs.bytes == 12 && needs.records == 6);
    CHECK(ncv_region_check(small_header, SMALL_LENGTH, &some, 2, false, &needs) == NCV_EINVALCOORDS && needs.records == 6);
    CHECK(ncv_region_check(small_header, 100, &some, 2, true, &needs) == NCV_HEADER && needs.records == 6);

    ncv_region row = region(0, 1, (uint64_t[]){1}, (uint64_t[]){2}, ones);
    CHECK(ncv_region_check(small_header, SMALL_LENGTH, &row, 2, false, &needs) == NCV_OK);
    CHECK(needs.bytes == 8 && needs.records == 0);
}

void check_extents(void)
{
    check_needs();
    check_fixed();
    check_records();
    check_parts();
    check_refusals();
}
