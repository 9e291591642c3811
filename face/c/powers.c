/*
 * Tests of gamma curves. The values and tables were worked out beforehand by another program, on whole numbers of any
 * size, from the words of the definition.
 */
#include "check.h"

#include <string.h>

static bool is_sample(bg_sample s, uint16_t n)
{
    return s.refusal == 0 && s.density.value == n;
}

static bool is_refused(bg_sample s)
{
    return s.refusal == BG_EXPONENT && s.density.value == 0;
}

/* At both ends and next to them, of exponents 1, next to 1, and at both ends of what is allowed. */
static void values(void)
{
    static const uint16_t xs[11] = {0, 1, 2, 255, 1000, 16384, 32767, 32768, 49152, 65534, 65535};
    static const struct {
        uint64_t exponent;
        uint16_t values[11];
    } curves[] = {
        {1, {0, 65524, 65525, 65530, 65531, 65534, 65535, 65535, 65535, 65535, 65535}},
        {2, {0, 65513, 65515, 65524, 65527, 65533, 65534, 65534, 65535, 65535, 65535}},
        {255, {0, 62768, 62937, 64136, 64478, 65183, 65359, 65359, 65462, 65535, 65535}},
        {256, {0, 62757, 62927, 64130, 64473, 65182, 65358, 65358, 65462, 65535, 65535}},
        {32768, {0, 256, 363, 4088, 8096, 32768, 46340, 46341, 56756, 65535, 65535}},
        {65535, {0, 2, 3, 256, 1001, 16385, 32768, 32769, 49153, 65534, 65535}},
        {65536, {0, 1, 2, 255, 1000, 16384, 32767, 32768, 49152, 65534, 65535}},
        {65537, {0, 1, 2, 255, 1000, 16384, 32767, 32768, 49152, 65534, 65535}},
        {98304, {0, 0, 0, 16, 124, 8192, 23170, 23171, 42567, 65533, 65535}},
        {131072, {0, 0, 0, 1, 15, 4096, 16383, 16384, 36865, 65533, 65535}},
        {144128, {0, 0, 0, 0, 7, 3108, 14270, 14271, 34811, 65533, 65535}},
        {163840, {0, 0, 0, 0, 2, 2048, 11585, 11586, 31926, 65533, 65535}},
        {196608, {0, 0, 0, 0, 0, 1024, 8192, 8192, 27649, 65532, 65535}},
        {262143, {0, 0, 0, 0, 0, 256, 4096, 4096, 20737, 65531, 65535}},
        {262144, {0, 0, 0, 0, 0, 256, 4096, 4096, 20737, 65531, 65535}},
    };
    for (size_t i = 0; i < sizeof curves / sizeof *curves; i++)
        for (size_t k = 0; k < 11; k++)
            EXPECT(is_sample(bg_power(drive(xs[k]), curves[i].exponent), curves[i].values[k]));
}

/* The same by a tag's entry, which is 256 times as much. */
static void tag_values(void)
{
    static const uint16_t xs[7] = {0, 1, 255, 16384, 32768, 65534, 65535};
    static const struct {
        uint16_t gamma, values[7];
    } curves[] = {
        {1, {0, 62757, 64130, 65182, 65358, 65535, 65535}},
        {2, {0, 60096, 62755, 64830, 65182, 65535, 65535}},
        {128, {0, 256, 4088, 32768, 46341, 65535, 65535}},
        {255, {0, 2, 261, 16473, 32857, 65535, 65535}},
        {256, {0, 1, 255, 16384, 32768, 65534, 65535}},
        {257, {0, 1, 250, 16296, 32679, 65534, 65535}},
        {384, {0, 0, 16, 8192, 23171, 65533, 65535}},
        {461, {0, 0, 3, 5399, 18810, 65533, 65535}},
        {512, {0, 0, 1, 4096, 16384, 65533, 65535}},
        {563, {0, 0, 0, 3108, 14271, 65533, 65535}},
        {640, {0, 0, 0, 2048, 11586, 65533, 65535}},
        {1023, {0, 0, 0, 257, 4107, 65531, 65535}},
        {1024, {0, 0, 0, 256, 4096, 65531, 65535}},
    };
    for (size_t i = 0; i < sizeof curves / sizeof *curves; i++)
        for (size_t k = 0; k < 7; k++)
            EXPECT(is_sample(bg_tag_power(drive(xs[k]), curves[i].gamma), curves[i].values[k]));
}

static void refused_exponents(void)
{
    static const uint16_t xs[] = {0, 1, 32768, 65535}, gammas[] = {0, 1025, 1026, 1280, 0x4000, 0x8001, 65535};
    static const uint64_t exponents[] = {
        0, 262145, 262146, 327680, UINT64_C(1) << 32, (UINT64_C(1) << 32) + 65536, (UINT64_C(1) << 48) + 1,
        UINT64_C(1) << 63, (UINT64_C(1) << 63) + 65536, UINT64_MAX,
    };
    for (size_t k = 0; k < 4; k++) {
        for (size_t i = 0; i < sizeof exponents / sizeof *exponents; i++)
            EXPECT(is_refused(bg_power(drive(xs[k]), exponents[i])));
        for (size_t i = 0; i < sizeof gammas / sizeof *gammas; i++)
            EXPECT(is_refused(bg_tag_power(drive(xs[k]), gammas[i])));
    }
}

/* A table by an exponent, and by a tag's entry where it is one of those. */
static void table_is(uint64_t exponent, const uint16_t *want, size_t n)
{
    uint16_t *out = LEND(uint16_t, n);
    GRANTED(out, bg_power_table(out, n, n, exponent));
    EXPECT(memcmp(out, want, n * sizeof *want) == 0);
    if (exponent % 256 == 0) {
        memset(out, 0x5a, n * sizeof *out);
        GRANTED(out, bg_tag_power_table(out, n, n, (uint16_t)(exponent / 256)));
        EXPECT(memcmp(out, want, n * sizeof *want) == 0);
    }
    EXPECT(bg_accept(out, n) == 0);
    give_back();
}

#define TABLE_IS(exponent, ...) \
    table_is((exponent), (const uint16_t[]){__VA_ARGS__}, sizeof((const uint16_t[]){__VA_ARGS__}) / sizeof(uint16_t))

static void tables(void)
{
    TABLE_IS(1, 0, 65535);
    TABLE_IS(256, 0, 65535);
    TABLE_IS(262144, 0, 65535);
    TABLE_IS(1, 0, 65535, 65535);
    TABLE_IS(65535, 0, 32769, 65535);
    TABLE_IS(65536, 0, 32768, 65535);
    TABLE_IS(131072, 0, 16384, 65535);
    TABLE_IS(65535, 0, 21846, 43691, 65535);
    TABLE_IS(65536, 0, 21845, 43690, 65535);
    TABLE_IS(163840, 0, 4204, 23782, 65535);
    TABLE_IS(131072, 0, 4096, 16384, 36863, 65535);
    TABLE_IS(262144, 0, 256, 4096, 20735, 65535);
    TABLE_IS(256, 0, 65125, 65301, 65405, 65478, 65535);
    TABLE_IS(262144, 0, 105, 1678, 8493, 26843, 65535);
    TABLE_IS(163840, 0, 743, 4204, 11586, 23782, 41546, 65535);
    TABLE_IS(144128, 0, 677, 3108, 7580, 14271, 23311, 34810, 48858, 65535);
    TABLE_IS(32768, 0, 23171, 32768, 40133, 46341, 51810, 56755, 61303, 65535);
}

/* The exponent 1 is the straight curve; of the longest one entry i is i, so that any other is each value in turn. */
static void straight(void)
{
    uint16_t *out = LEND(uint16_t, 1024), *start = LEND(uint16_t, 1024), *longest = LEND(uint16_t, 65536);
    bool each = true;
    EXPECT(bg_start(start, 1024) == 0);
    GRANTED(out, bg_power_table(out, 1024, 1024, 65536));
    EXPECT(memcmp(out, start, 2048) == 0);
    memset(out, 0x5a, 2048);
    GRANTED(out, bg_tag_power_table(out, 1024, 1024, 256));
    EXPECT(memcmp(out, start, 2048) == 0);
    GRANTED(longest, bg_tag_power_table(longest, 65536, 65536, 256));
    for (size_t i = 0; i < 65536; i++)
        each = each && longest[i] == i;
    EXPECT(each);
    GRANTED(longest, bg_power_table(longest, 65536, 65536, 131072));
    each = longest[0] == 0 && longest[65535] == 65535;
    for (size_t i = 1; i < 65535; i += 97)
        each = each && is_sample(bg_power(drive((uint16_t)i), 131072), longest[i]) && longest[i] >= longest[i - 1];
    EXPECT(each);
    give_back();
}

/* A tag of one entry, 2.2 as nearly as it can be, made a curve. */
static void from_a_tag(void)
{
    static const uint8_t tag[14] = {'c', 'u', 'r', 'v', 0, 0, 0, 0, 0, 0, 0, 1, 0x02, 0x33};
    uint16_t *gamma = LEND(uint16_t, 1), *table = LEND(uint16_t, 1024);
    GRANTED(gamma, bg_curv_read(tag, sizeof tag, gamma, 1));
    EXPECT(gamma[0] == 563);
    GRANTED(table, bg_tag_power_table(table, 1024, 1024, gamma[0]));
    EXPECT(table[0] == 0 && table[512] == 14302 && table[1023] == 65535);
    GRANTED(NULL, bg_accept(table, 1024));
    give_back();
}

/* 1, whatever else is wrong; then 18, whatever the output; then 6. */
static void refused_tables(void)
{
    static const size_t wrong[] = {0, 1, 65537, 65538, 131072, (size_t)1 << 32, ((size_t)1 << 32) + 3, SIZE_MAX};
    static const uint64_t exponents[] = {0, 262145, (UINT64_C(1) << 32) + 65536, UINT64_MAX};
    static const uint16_t gammas[] = {0, 1025, 1280, 65535};
    uint16_t *three = LEND(uint16_t, 3), *one = LEND(uint16_t, 1), *too_long = LEND(uint16_t, 65537);
    for (size_t i = 0; i < sizeof wrong / sizeof *wrong; i++) {
        REFUSED(BG_TABLE_LENGTH, bg_power_table(three, 3, wrong[i], 65536));
        REFUSED(BG_TABLE_LENGTH, bg_power_table(three, 3, wrong[i], 0));
        REFUSED(BG_TABLE_LENGTH, bg_tag_power_table(three, 3, wrong[i], 256));
        REFUSED(BG_TABLE_LENGTH, bg_tag_power_table(three, 3, wrong[i], 1025));
    }
    REFUSED(BG_TABLE_LENGTH, bg_power_table(NULL, 0, 0, 65536));
    REFUSED(BG_TABLE_LENGTH, bg_power_table(one, 1, 1, 65536));
    REFUSED(BG_TABLE_LENGTH, bg_power_table(too_long, 65537, 65537, 65536));
    REFUSED(BG_TABLE_LENGTH, bg_power_table(too_long, 65537, 65537, 0));
    REFUSED(BG_TABLE_LENGTH, bg_tag_power_table(NULL, 0, 0, 256));
    REFUSED(BG_TABLE_LENGTH, bg_tag_power_table(one, 1, 1, 256));
    REFUSED(BG_TABLE_LENGTH, bg_tag_power_table(too_long, 65537, 65537, 256));
    REFUSED(BG_TABLE_LENGTH, bg_tag_power_table(too_long, 65537, 65537, 0));
    for (size_t i = 0; i < 4; i++) {
        REFUSED(BG_EXPONENT, bg_power_table(three, 3, 3, exponents[i]));
        REFUSED(BG_EXPONENT, bg_power_table(three, 3, 2, exponents[i]));
        REFUSED(BG_EXPONENT, bg_power_table(three, 3, 65536, exponents[i]));
        REFUSED(BG_EXPONENT, bg_power_table(NULL, 0, 2, exponents[i]));
        REFUSED(BG_EXPONENT, bg_tag_power_table(three, 3, 3, gammas[i]));
        REFUSED(BG_EXPONENT, bg_tag_power_table(three, 3, 2, gammas[i]));
        REFUSED(BG_EXPONENT, bg_tag_power_table(three, 3, 65536, gammas[i]));
        REFUSED(BG_EXPONENT, bg_tag_power_table(NULL, 0, 2, gammas[i]));
    }
    for (uint64_t exponent = 256; exponent <= 262144; exponent *= 1024) {
        uint16_t gamma = (uint16_t)(exponent / 256);
        REFUSED(BG_OUTPUT_LENGTH, bg_power_table(three, 3, 2, exponent));
        REFUSED(BG_OUTPUT_LENGTH, bg_power_table(three, 3, 4, exponent));
        REFUSED(BG_OUTPUT_LENGTH, bg_power_table(NULL, 0, 2, exponent));
        REFUSED(BG_OUTPUT_LENGTH, bg_power_table(one, 1, 2, exponent));
        REFUSED(BG_OUTPUT_LENGTH, bg_power_table(too_long, 65537, 65536, exponent));
        REFUSED(BG_OUTPUT_LENGTH, bg_power_table(three, 3, 65536, exponent));
        REFUSED(BG_OUTPUT_LENGTH, bg_tag_power_table(three, 3, 2, gamma));
        REFUSED(BG_OUTPUT_LENGTH, bg_tag_power_table(three, 3, 4, gamma));
        REFUSED(BG_OUTPUT_LENGTH, bg_tag_power_table(NULL, 0, 2, gamma));
        REFUSED(BG_OUTPUT_LENGTH, bg_tag_power_table(one, 1, 2, gamma));
        REFUSED(BG_OUTPUT_LENGTH, bg_tag_power_table(too_long, 65537, 65536, gamma));
        REFUSED(BG_OUTPUT_LENGTH, bg_tag_power_table(three, 3, 65536, gamma));
    }
    give_back();
}

/* The house curve is a curve of exponent 2.5 to the nearest: at most 2 from this one, and 2 at one place alone. */
static void house_beside(void)
{
    uint16_t *house = LEND(uint16_t, 1024), *table = LEND(uint16_t, 1024);
    EXPECT(bg_house_fill(house, 1024) == 0 && bg_power_table(table, 1024, 1024, 163840) == 0);
    for (size_t i = 0; i < 1024; i++) {
        int apart = table[i] - house[i];
        EXPECT(i == 983 ? apart == 2 : apart >= -1 && apart <= 1);
    }
    give_back();
}

void powers(void)
{
    values();
    tag_values();
    refused_exponents();
    tables();
    straight();
    from_a_tag();
    refused_tables();
    house_beside();
}
