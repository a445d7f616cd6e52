/* The windows of a collective step. */
#include "check.h"

#define ROOM 8
static ncv_window windows[ROOM];
static ncv_step step;

static ncv_code ask(const ncv_extent *asked, size_t count, uint32_t aggregators, uint64_t unit, uint64_t buffer, uint64_t from, size_t room)
{
    for (size_t i = 0; i < ROOM; i++)
        windows[i] = (ncv_window){7, 7, 7, false};
    step = (ncv_step){7, 7, 7};
    return ncv_windows(asked, count, aggregators, unit, buffer, from, windows, room, &step);
}

static bool is_window(size_t number, uint64_t at, uint64_t len, uint32_t aggregator, bool full)
{
    const ncv_window *window = windows + number;
    return window->at == at && window->len == len && window->aggregator == aggregator && window->full == full;
}

static bool is_step(uint64_t lo, uint64_t hi, uint64_t count)
{
    return step.lo == lo && step.hi == hi && step.windows == count;
}

/* 100 to 108, 112 to 120 and 140 to 150, out of order, and one byte of them twice. */
static const ncv_extent asked[] = {{140, 10}, {112, 8}, {100, 8}, {119, 1}, {130, 0}};

static void check_one_aggregator(void)
{
    CHECK(ask(asked, 5, 1, 1, 16, 0, ROOM) == NCV_OK && is_step(100, 150, 4));
    CHECK(is_window(0, 100, 16, 0, false) && is_window(1, 116, 4, 0, true) && is_window(2, 140, 8, 0, true) && is_window(3, 148, 2, 0, true));
    CHECK(is_window(4, 7, 7, 7, false));
    CHECK(ask(asked, 5, 1, 1, 1 << 25, 0, ROOM) == NCV_OK && is_step(100, 150, 1) && is_window(0, 100, 50, 0, false));
}

static void check_several(void)
{
    CHECK(ask(asked, 5, 4, 1, 1 << 20, 0, ROOM) == NCV_OK && is_step(100, 150, 3));
    CHECK(is_window(0, 100, 13, 0, false) && is_window(1, 113, 7, 1, true) && is_window(2, 140, 10, 3, true));
    ncv_extent domain;
    CHECK(ncv_domain(step.lo, step.hi, 4, 1, 3, &domain) == NCV_OK && domain.at == 139 && domain.len == 11);
    CHECK(ask(asked, 5, 2, 64, 1 << 20, 0, ROOM) == NCV_OK && is_step(100, 150, 2) && is_window(0, 100, 20, 0, false) && is_window(1, 140, 10, 1, true));
}

static void check_parts(void)
{
    CHECK(ask(asked, 5, 1, 1, 16, 2, 1) == NCV_OK && is_step(100, 150, 4) && is_window(0, 140, 8, 0, true) && is_window(1, 7, 7, 7, false));
    CHECK(ask(asked, 5, 1, 1, 16, 9, ROOM) == NCV_OK && is_step(100, 150, 4) && is_window(0, 7, 7, 7, false));
    CHECK(ask(asked, 0, 1, 1, 16, 0, ROOM) == NCV_OK && is_step(0, 0, 0) && is_window(0, 7, 7, 7, false));
    CHECK(ask(asked + 4, 1, 64, 1, 16, 0, ROOM) == NCV_OK && is_step(0, 0, 0));
}

static void check_refusals(void)
{
    const ncv_extent far[] = {{(1ull << 62) - 1, 1}, {UINT64_MAX, UINT64_MAX}};
    CHECK(ask(far, 1, 1, 1, 16, 0, ROOM) == NCV_TOO_LARGE && is_step(7, 7, 7) && is_window(0, 7, 7, 7, false));
    CHECK(ask(far + 1, 1, 1, 1, 16, 0, ROOM) == NCV_TOO_LARGE);
    CHECK(ask(asked, 5, 0, 1, 16, 0, ROOM) == NCV_ARGUMENT && is_step(7, 7, 7) && is_window(0, 7, 7, 7, false));
    CHECK(ask(asked, 5, 65, 1, 16, 0, ROOM) == NCV_ARGUMENT);
    CHECK(ask(asked, 5, 1, 0, 16, 0, ROOM) == NCV_ARGUMENT);
    CHECK(ask(asked, 5, 1, (1 << 25) + 1, 16, 0, ROOM) == NCV_ARGUMENT);
    CHECK(ask(asked, 5, 1, 1, 0, 0, ROOM) == NCV_ARGUMENT);
    CHECK(ask(far, 1, 1, 1, (1 << 25) + 1, 0, ROOM) == NCV_ARGUMENT);
}

void check_windows(void)
{
    check_one_aggregator();
    check_several();
    check_parts();
    check_refusals();
}
