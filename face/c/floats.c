/* Tests of the float calls: the float lookups, the passthrough table, and numbers rounded to f32. */
#include "check.h"

#include <math.h>

static bool real_is(bg_real r, uint32_t refusal, uint32_t bits)
{
    return r.refusal == refusal && bits_of(r.value) == bits;
}

static void float_table(void)
{
    float *straight = LEND_COPY(float, 0.0f, 1.0f);
    float *one = LEND_COPY(float, 3.0f);
    float *smallest = LEND_COPY(float, 0.0f, 0x1p-149f);
    float *too_long = LEND(float, 65537);
    ANSWERS(real_is(bg_lut_interp_linear_float(straight, 2, 0.25f), 0, bits_of(0.25f)));
    ANSWERS(real_is(bg_lut_interp_linear_float(straight, 2, 2.0f), 0, bits_of(1.0f)));
    ANSWERS(real_is(bg_lut_interp_linear_float(straight, 2, NAN), 0, bits_of(1.0f)));
    ANSWERS(real_is(bg_lut_interp_linear_float(straight, 2, -1.0f), 0, bits_of(0.0f)));
    ANSWERS(real_is(bg_lut_interp_linear_float(one, 1, 0.7f), 0, bits_of(3.0f)));
    /* a fused build gives 0 here */
    ANSWERS(real_is(bg_lut_interp_linear_float(smallest, 2, 0.5f), 0, 1));
    ANSWERS(real_is(bg_lut_interp_linear_float(NULL, 0, 0.5f), BG_TABLE_LENGTH, 0));
    ANSWERS(real_is(bg_lut_interp_linear_float(too_long, 65537, 0.5f), BG_TABLE_LENGTH, 0));
    give_back();
}

static void wide_input(void)
{
    uint16_t *table = LEND_COPY(uint16_t, 8138, 10735);
    uint16_t *ends = LEND_COPY(uint16_t, 0, 65535);
    uint16_t *too_long = LEND(uint16_t, 65537);
    /* a fused build gives 3e1fcc9f here */
    ANSWERS(real_is(bg_lut_interp_linear(table, 2, 0x1.9bd8e3e7f2985p-1), 0, 0x3e1fcc9e));
    ANSWERS(real_is(bg_lut_interp_linear(ends, 2, 0.0), 0, bits_of(0.0f)));
    ANSWERS(real_is(bg_lut_interp_linear(ends, 2, 1.0), 0, bits_of(65535.0f * (1.0f / 65535.0f))));
    ANSWERS(real_is(bg_lut_interp_linear(NULL, 0, 0.1), 0, 0x3dcccccd));
    ANSWERS(real_is(bg_lut_interp_linear(NULL, 0, -0.0), 0, 0x80000000));
    ANSWERS(real_is(bg_lut_interp_linear(too_long, 65537, 0.5), BG_TABLE_LENGTH, 0));
    ANSWERS(real_is(bg_lut_interp_linear(table, 2, NAN), BG_OUTSIDE_UNIT, 0));
    ANSWERS(real_is(bg_lut_interp_linear(table, 2, -0x1p-1074), BG_OUTSIDE_UNIT, 0));
    ANSWERS(real_is(bg_lut_interp_linear(table, 2, 1.0 + 0x1p-52), BG_OUTSIDE_UNIT, 0));
    ANSWERS(real_is(bg_lut_interp_linear(NULL, 0, 2.0), BG_OUTSIDE_UNIT, 0));
    ANSWERS(real_is(bg_lut_interp_linear(too_long, 65537, 2.0), BG_TABLE_LENGTH, 0));
    give_back();
}

static void passthrough(void)
{
    float *five = LEND(float, 5);
    float *one = LEND(float, 1);
    float *longest = LEND(float, 65536);
    float *too_long = LEND(float, 65537);
    GRANTED(five, bg_passthrough_table_impl(five, 5));
    EXPECT(five[0] == 0.0f && five[1] == 0.25f && five[2] == 0.5f && five[3] == 0.75f && five[4] == 1.0f);
    GRANTED(longest, bg_passthrough_table_impl(longest, 65536));
    EXPECT(longest[0] == 0.0f && longest[1] == (float)(1.0 / 65535.0));
    REFUSED(BG_OUTSIDE_RANGE, bg_passthrough_table_impl(NULL, 0));
    REFUSED(BG_OUTSIDE_RANGE, bg_passthrough_table_impl(one, 1));
    REFUSED(BG_OUTSIDE_RANGE, bg_passthrough_table_impl(too_long, 65537));
    give_back();
}

void rounded(void)
{
    EXPECT(bits_of(bg_nearest_f64_to_f32(0.1)) == 0x3dcccccd);
    EXPECT(bits_of(bg_nearest_f64_to_f32(-0.0)) == 0x80000000);
    EXPECT(bits_of(bg_nearest_f64_to_f32(1e300)) == 0x7f800000);
    EXPECT(bits_of(bg_nearest_f64_to_f32(0x1p-150)) == 0);
    EXPECT(bits_of(bg_nearest_f64_to_f32(0x1.8p-150)) == 1);
    EXPECT(isnan(bg_nearest_f64_to_f32(NAN)));
    EXPECT(bg_u8_fixed_8number_to_float(0x0280) == 2.5f);
    EXPECT(bg_u8_fixed_8number_to_float(0xffff) == 255.99609375f);
    EXPECT(bg_s15_fixed16_number_to_float(65536) == 1.0f);
    EXPECT(bg_s15_fixed16_number_to_float(-98304) == -1.5f);
    EXPECT(bg_s15_fixed16_number_to_float(INT32_MIN) == -32768.0f);
    EXPECT(bg_s15_fixed16_number_to_float(INT32_MAX) == 32768.0f);
}

void floats(void)
{
    float_table();
    wide_input();
    passthrough();
}
