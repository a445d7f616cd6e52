/* Each call for memory refused in turn: the call answers NCV_MEMORY, writes nothing and leaves no block behind. */
#include "check.h"

long blocks_held(void);
void refuse_after(long calls);

static bool header_is_kept(void)
{
    ncv_counts counts = {7, 7, 7, 7, 7, 7};
    ncv_fault fault = {7, 7, 7};
    return ncv_header_check(small_header, SMALL_LENGTH, &counts, &fault) == NCV_MEMORY && counts.version == 7
        && counts.length == 7 && fault.kind == 7 && fault.place == 7;
}

static bool extents_are_kept(void)
{
    ncv_region row = {0, (uint64_t[]){1}, 1, (uint64_t[]){2}, 1, (uint64_t[]){1}, 1, (uint64_t[]){1}, 1};
    ncv_extent found = {7, 7};
    uint64_t total = 7;
    return ncv_extents(small_header, SMALL_LENGTH, &row, 2, false, 0, &found, 1, &total) == NCV_MEMORY && found.at == 7
        && found.len == 7 && total == 7;
}

static bool parts_are_kept(void)
{
    uint8_t name = 7;
    uint32_t id = 7;
    ncv_var var = {.begin = 7};
    uint64_t number = 7;
    return ncv_inq_var(small_header, SMALL_LENGTH, 0, &name, 1, &id, 1, &var) == NCV_MEMORY && var.begin == 7 && name == 7
        && id == 7 && ncv_inq_dimid(small_header, SMALL_LENGTH, (const uint8_t *)"x", 1, &number) == NCV_MEMORY && number == 7;
}

static bool pair_is_kept(void)
{
    const ncv_held held[] = {{8, 4, 1, 0}, {0, 9, 0, 0}};
    ncv_pair pair = {.at = 7};
    return ncv_first_shared(held, 2, &pair) == NCV_MEMORY && pair.at == 7;
}

static bool step_is_kept(void)
{
    const ncv_extent asked[] = {{8, 4}, {0, 9}};
    ncv_window window = {.at = 7};
    ncv_step step = {.lo = 7};
    return ncv_windows(asked, 2, 1, 1, 1, 0, &window, 1, &step) == NCV_MEMORY && window.at == 7 && step.lo == 7;
}

static bool making_is_kept(void)
{
    const uint32_t id = 0;
    const ncv_dim_def dim = {"x", 1, 4};
    const ncv_att_def att = {"n", 1, (const uint8_t *)"ab", 2, 2};
    const ncv_var_def var = {"v", 1, &id, 1, &att, 1, 4};
    const ncv_header_def def = {&dim, 1, &att, 1, &var, 1, 0, 4, 4, 1};
    uint8_t made = 7;
    uint64_t len = 7;
    ncv_refused refused = {7, 7, 7};
    return ncv_header_make(&def, &made, 1, &len, &refused) == NCV_MEMORY && made == 7 && len == 7 && refused.part == 7;
}

/* How many calls for memory the test takes before it is no more refused. */
static long refusals(bool (*is_kept)(void))
{
    long before = blocks_held(), calls = 0;
    bool kept = true;
    while (kept && calls < 1000) {
        refuse_after(calls);
        kept = is_kept();
        refuse_after(-1);
        CHECK(blocks_held() == before);
        calls++;
    }
    return calls - 1;
}

void check_memory(void)
{
    CHECK(refusals(header_is_kept) > 10);
    CHECK(refusals(extents_are_kept) > 10);
    CHECK(refusals(parts_are_kept) > 10);
    CHECK(refusals(pair_is_kept) > 0);
    CHECK(refusals(step_is_kept) > 0);
    CHECK(refusals(making_is_kept) > 10);
}
