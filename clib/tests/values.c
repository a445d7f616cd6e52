/* Values to external form and back. */
#include "check.h"

#include <string.h>

enum { BYTE = 1, CHAR, SHORT, INT, FLOAT, DOUBLE, UBYTE, USHORT, UINT, INT64, UINT64 };

static uint8_t form[32];
static uint64_t refused;

static void clear(void)
{
    memset(form, 0xEE, sizeof form);
    refused = 77;
}

static bool is_form(const char *bytes, size_t len)
{
    return memcmp(form, bytes, len) == 0 && form[len] == 0xEE;
}

static bool is_kept(void)
{
    return form[0] == 0xEE && form[sizeof form - 1] == 0xEE;
}

static void check_packs(void)
{
    const int64_t small[] = {-1, 2, -128};
    clear();
    CHECK(ncv_pack_int64(SHORT, small, 3, form, 6, &refused) == NCV_OK && is_form("\xFF\xFF\0\2\xFF\x80", 6) && refused == 77);
    clear();
    CHECK(ncv_pack_int64(BYTE, small, 3, form, 3, &refused) == NCV_OK && is_form("\xFF\2\x80", 3));
    clear();
    CHECK(ncv_pack_int64(INT, small + 2, 1, form, 4, &refused) == NCV_OK && is_form("\xFF\xFF\xFF\x80", 4));
    clear();
    CHECK(ncv_pack_int64(INT64, small + 1, 1, form, 8, &refused) == NCV_OK && is_form("\0\0\0\0\0\0\0\2", 8));
    clear();
    CHECK(ncv_pack_int64(UBYTE, small, 3, form, 3, &refused) == NCV_ERANGE && is_kept() && refused == 0);
    clear();
    CHECK(ncv_pack_int64(UBYTE, small + 1, 2, form, 2, &refused) == NCV_ERANGE && is_kept() && refused == 1);
    clear();
    CHECK(ncv_pack_int64(INT, small, 0, form, 0, &refused) == NCV_OK && is_kept());

    const uint64_t large[] = {255, 65535, UINT64_MAX};
    clear();
    CHECK(ncv_pack_uint64(USHORT, large, 2, form, 4, &refused) == NCV_OK && is_form("\0\xFF\xFF\xFF", 4));
    clear();
    CHECK(ncv_pack_uint64(UINT64, large + 2, 1, form, 8, &refused) == NCV_OK && is_form("\xFF\xFF\xFF\xFF\xFF\xFF\xFF\xFF", 8));
    clear();
    CHECK(ncv_pack_uint64(SHORT, large, 3, form, 6, &refused) == NCV_ERANGE && is_kept() && refused == 1);
    clear();
    CHECK(ncv_pack_uint64(INT64, large, 3, form, 24, &refused) == NCV_ERANGE && is_kept() && refused == 2);
}

static void check_unpacks(void)
{
    const uint8_t shorts[] = {0xFF, 0xFE, 0x7F, 0xFF}, high[] = {0, 0, 0, 0, 0, 0, 0, 1, 0x80, 0, 0, 0, 0, 0, 0, 0};
    int64_t signed_values[] = {7, 7, 7};
    uint64_t values[] = {7, 7, 7};
    clear();
    CHECK(ncv_unpack_int64(SHORT, shorts, 4, signed_values, 2, &refused) == NCV_OK && signed_values[0] == -2 && signed_values[1] == 32767
          && signed_values[2] == 7 && refused == 77);
    CHECK(ncv_unpack_int64(UBYTE, shorts, 3, signed_values, 3, &refused) == NCV_OK && signed_values[0] == 255 && signed_values[2] == 127);
    CHECK(ncv_unpack_int64(INT64, high, 16, signed_values, 2, &refused) == NCV_OK && signed_values[1] == INT64_MIN);
    signed_values[0] = 7;
    CHECK(ncv_unpack_int64(UINT64, high, 16, signed_values, 2, &refused) == NCV_ERANGE && signed_values[0] == 7 && refused == 1);
    CHECK(ncv_unpack_uint64(UINT64, high, 16, values, 2, &refused) == NCV_OK && values[0] == 1 && values[1] == 1ull << 63);
    values[1] = 7;
    CHECK(ncv_unpack_uint64(SHORT, shorts, 4, values, 2, &refused) == NCV_ERANGE && values[1] == 7 && refused == 0);
}

static void check_floats(void)
{
    const float floats[] = {1.5f, -0.0f};
    const double doubles[] = {-2.0};
    float float_back[] = {7, 7};
    double double_back[] = {7};
    clear();
    CHECK(ncv_pack_float(floats, 2, form, 8) == NCV_OK && is_form("\x3F\xC0\0\0\x80\0\0\0", 8));
    CHECK(ncv_unpack_float(form, 8, float_back, 2) == NCV_OK && memcmp(floats, float_back, sizeof floats) == 0);
    clear();
    CHECK(ncv_pack_double(doubles, 1, form, 8) == NCV_OK && is_form("\xC0\0\0\0\0\0\0\0", 8));
    CHECK(ncv_unpack_double(form, 8, double_back, 1) == NCV_OK && double_back[0] == -2.0);
    CHECK(ncv_unpack_float((const uint8_t *)"\x7F\xA0\0\1", 4, float_back, 1) == NCV_OK && memcmp(float_back, "\1\0\xA0\x7F", 4) == 0);
    clear();
    CHECK(ncv_pack_float(floats, 2, form, 7) == NCV_ARGUMENT && is_kept());
    CHECK(ncv_pack_double(doubles, 1, form, 16) == NCV_ARGUMENT && is_kept());
    float_back[0] = 7;
    CHECK(ncv_unpack_float(form, 9, float_back, 2) == NCV_ARGUMENT && float_back[0] == 7);
    CHECK(ncv_unpack_double(form, 0, double_back, 1) == NCV_ARGUMENT && double_back[0] == -2.0);
}

static void check_refusals(void)
{
    const int64_t one[] = {300};
    int64_t into[] = {7};
    clear();
    CHECK(ncv_pack_int64(0, one, 1, form, 1, &refused) == NCV_EBADTYPE && is_kept());
    CHECK(ncv_pack_int64(12, one, 1, form, 1, &refused) == NCV_EBADTYPE && is_kept());
    CHECK(ncv_pack_int64(FLOAT, one, 1, form, 3, &refused) == NCV_EBADTYPE && is_kept());
    CHECK(ncv_pack_int64(CHAR, one, 1, form, 3, &refused) == NCV_ECHAR && is_kept());
    CHECK(ncv_pack_int64(BYTE, one, 1, form, 2, &refused) == NCV_ARGUMENT && is_kept());
    CHECK(ncv_unpack_int64(DOUBLE, form, 8, into, 1, &refused) == NCV_EBADTYPE);
    CHECK(ncv_unpack_int64(CHAR, form, 1, into, 1, &refused) == NCV_ECHAR);
    CHECK(ncv_unpack_int64(INT, form, 8, into, 1, &refused) == NCV_ARGUMENT && into[0] == 7 && refused == 77);
}

void check_values(void)
{
    check_packs();
    check_unpacks();
    check_floats();
    check_refusals();
}
