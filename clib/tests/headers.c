/* Headers: sound ones, and each fault with its place. */
#include "check.h"

#include <string.h>

static const ncv_counts no_counts = {77, 77, 77, 77, 77, 77};
static const ncv_fault no_fault = {88, 88, 88};

/* Whether the numbers are as they were; the structs have bytes that belong to no field. */
static bool counts_kept(const ncv_counts *c)
{
    return c->version == 77 && c->length == 77 && c->records == 77 && c->dims == 77 && c->attrs == 77 && c->vars == 77;
}

static bool fault_kept(const ncv_fault *f)
{
    return f->kind == 88 && f->place == 88 && f->other == 88;
}

/* Whether a header with one byte changed has this fault, and nothing else is written. */
static bool has_fault(size_t at, uint8_t byte, uint32_t kind, uint64_t place, uint64_t other)
{
    uint8_t bytes[SMALL_LENGTH];
    memcpy(bytes, small_header, sizeof bytes);
    bytes[at] = byte;
    ncv_counts counts = no_counts;
    ncv_fault fault = no_fault;
    ncv_code code = ncv_header_check(bytes, sizeof bytes, &counts, &fault);
    return code == NCV_HEADER && fault.kind == kind && fault.place == place && fault.other == other
        && counts_kept(&counts);
}

static void check_sound(void)
{
    ncv_counts counts = no_counts;
    ncv_fault fault = no_fault;
    CHECK(ncv_header_check(small_header, SMALL_LENGTH, &counts, &fault) == NCV_OK);
    CHECK(counts.version == 1);
    CHECK(counts.length == SMALL_LENGTH);
    CHECK(counts.records == 2);
    CHECK(counts.dims == 2);
    CHECK(counts.attrs == 0);
    CHECK(counts.vars == 2);
    CHECK(fault_kept(&fault));
}

static void check_faults(void)
{
    CHECK(has_fault(0, 'X', NCV_FAULT_NOT_CDF, 0, 0));
    CHECK(has_fault(3, 4, NCV_FAULT_BAD_VERSION, 0, 0));
    CHECK(has_fault(11, 9, NCV_FAULT_BAD_TAG, 8, 0));
    CHECK(has_fault(83, 7, NCV_FAULT_BAD_TYPE, 80, 0));
    CHECK(has_fault(24, 128, NCV_FAULT_BAD_NUMBER, 24, 0));
    CHECK(has_fault(39, 0, NCV_FAULT_TWO_RECORD_DIMS, 0, 0));
    CHECK(has_fault(111, 0, NCV_FAULT_RECORD_NOT_FIRST, 1, 0));
    CHECK(has_fault(71, 2, NCV_FAULT_BAD_DIM_ID, 0, 0));
    CHECK(has_fault(52, 1, NCV_FAULT_TOO_LARGE, 0, 0));
    CHECK(has_fault(131, 140, NCV_FAULT_SHARED, 0, 1));
    CHECK(has_fault(91, 131, NCV_FAULT_SHARED, 0, 0));
}

static void check_prefixes(void)
{
    bool truncated = true;
    for (size_t len = 0; len < SMALL_LENGTH; len++) {
        ncv_counts counts = no_counts;
        ncv_fault fault = no_fault;
        truncated &= ncv_header_check(small_header, len, &counts, &fault) == NCV_HEADER
            && fault.kind == NCV_FAULT_TRUNCATED && fault.place <= len;
    }
    CHECK(truncated);
}

/* A stream's record count, all ones. */
static void check_streaming(void)
{
    uint8_t bytes[SMALL_LENGTH];
    memcpy(bytes, small_header, sizeof bytes);
    memset(bytes + 4, 255, 4);
    ncv_counts counts = no_counts;
    ncv_fault fault = no_fault;
    CHECK(ncv_header_check(bytes, sizeof bytes, &counts, &fault) == NCV_HEADER);
    CHECK(fault.kind == NCV_FAULT_STREAMING);
}

void check_headers(void)
{
    check_sound();
    check_faults();
    check_prefixes();
    check_streaming();
}
