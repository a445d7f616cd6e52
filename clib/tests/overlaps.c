/* Bytes that several requests hold. */
#include "check.h"

static ncv_pair pair;

static ncv_code ask(const ncv_held *held, size_t count)
{
    pair = (ncv_pair){7, 7, 7, 7, 7};
    return ncv_first_shared(held, count, &pair);
}

static bool is(uint64_t at, uint32_t rank1, uint32_t request1, uint32_t rank2, uint32_t request2)
{
    return pair.at == at && pair.rank1 == rank1 && pair.request1 == request1 && pair.rank2 == rank2 && pair.request2 == request2;
}

static void check_domains(void)
{
    ncv_extent domain = {7, 7};
    CHECK(ncv_domain(5, 100, 4, 1, 0, &domain) == NCV_OK && domain.at == 5 && domain.len == 24);
    CHECK(ncv_domain(5, 100, 4, 1, 3, &domain) == NCV_OK && domain.at == 77 && domain.len == 23);
    CHECK(ncv_domain(5, 100, 4, 16, 0, &domain) == NCV_OK && domain.at == 5 && domain.len == 27);
    CHECK(ncv_domain(5, 100, 4, 16, 3, &domain) == NCV_OK && domain.at == 96 && domain.len == 4);
    CHECK(ncv_domain(5, 100, 4, 64, 3, &domain) == NCV_OK && domain.len == 0);
    domain.at = 7;
    CHECK(ncv_domain(5, 4, 4, 1, 0, &domain) == NCV_ARGUMENT && domain.at == 7);
    CHECK(ncv_domain(5, 1ull << 62, 4, 1, 0, &domain) == NCV_ARGUMENT && domain.at == 7);
    CHECK(ncv_domain(5, 100, 4, 1, 4, &domain) == NCV_ARGUMENT);
    CHECK(ncv_domain(5, 100, 65, 1, 0, &domain) == NCV_ARGUMENT);
    CHECK(ncv_domain(5, 100, 4, 0, 0, &domain) == NCV_ARGUMENT);
    CHECK(ncv_domain(5, 100, 4, (1ull << 25) + 1, 0, &domain) == NCV_ARGUMENT && domain.at == 7);
}

void check_overlaps(void)
{
    check_domains();
    const ncv_held apart[] = {{8, 4, 1, 0}, {0, 8, 0, 0}, {9, 0, 2, 0}, {4, 4, 0, 0}};
    CHECK(ask(apart, 4) == NCV_OK && is(7, 7, 7, 7, 7));
    CHECK(ask(apart, 0) == NCV_OK && is(7, 7, 7, 7, 7));

    const ncv_held shared[] = {{8, 4, 3, 1}, {0, 9, 2, 5}, {8, 1, 2, 4}, {11, 1, 0, 0}};
    CHECK(ask(shared, 4) == NCV_SHARED && is(8, 2, 4, 2, 5));
    CHECK(ask(shared, 2) == NCV_SHARED && is(8, 2, 5, 3, 1));
    CHECK(ask(shared, 1) == NCV_OK);

    const ncv_held far[] = {{(1ull << 62) - 1, 1, 0, 0}, {UINT64_MAX, UINT64_MAX, 0, 0}};
    CHECK(ask(far, 1) == NCV_TOO_LARGE && is(7, 7, 7, 7, 7));
    CHECK(ask(far + 1, 1) == NCV_TOO_LARGE);
    const ncv_held last[] = {{(1ull << 62) - 2, 1, 0, 0}};
    CHECK(ask(last, 1) == NCV_OK);
}
