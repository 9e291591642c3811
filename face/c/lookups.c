/* Tests of the lookups. The worked numbers are document 01's. */
#include "check.h"

static bool sample_is(bg_sample s, uint32_t refusal, uint16_t density)
{
    return s.refusal == refusal && s.density.value == density;
}

static bool code_is(bg_code c, uint32_t refusal, uint16_t code)
{
    return c.refusal == refusal && c.code == code;
}

static void single(void)
{
    uint16_t *straight = LEND_COPY(uint16_t, 0, 65535);
    uint16_t *one = LEND_COPY(uint16_t, 1000);
    uint16_t *bent = LEND_COPY(uint16_t, 0, 100, 65535);
    uint16_t *falling = LEND_COPY(uint16_t, 65535, 0);
    uint16_t *longest = LEND(uint16_t, 65536);
    uint16_t *too_long = LEND(uint16_t, 65537);
    ANSWERS(sample_is(bg_lut_interp_linear16(straight, 2, drive(12345)), 0, 12345));
    ANSWERS(sample_is(bg_lut_interp_linear16(one, 1, drive(65535)), 0, 1000));
    ANSWERS(sample_is(bg_lut_interp_linear16(one, 1, drive(0)), 0, 1000));
    ANSWERS(sample_is(bg_lut_interp_linear16(bent, 3, drive(32767)), 0, 99));
    ANSWERS(sample_is(bg_lut_interp_linear16(bent, 3, drive(32768)), 0, 100));
    ANSWERS(sample_is(bg_lut_interp_linear16(bent, 3, drive(65535)), 0, 65535));
    ANSWERS(sample_is(bg_lut_interp_linear16(falling, 2, drive(1)), 0, 65534));
    for (uint32_t p = 0; p < 65536; p += 257)
        EXPECT(sample_is(bg_lut_interp_linear16(longest, 65536, drive((uint16_t)p)), 0, longest[p]));
    ANSWERS(sample_is(bg_lut_interp_linear16(NULL, 0, drive(7)), BG_TABLE_LENGTH, 0));
    ANSWERS(sample_is(bg_lut_interp_linear16(one, 0, drive(7)), BG_TABLE_LENGTH, 0));
    ANSWERS(sample_is(bg_lut_interp_linear16(too_long, 65537, drive(7)), BG_TABLE_LENGTH, 0));
    give_back();
}

static void row(void)
{
    uint16_t *bent = LEND_COPY(uint16_t, 0, 100, 65535);
    uint16_t *longest = LEND(uint16_t, 65536);
    uint16_t *too_long = LEND(uint16_t, 65537);
    uint16_t *positions = LEND_COPY(uint16_t, 0, 32767, 32768, 65535);
    uint16_t *out = LEND(uint16_t, 4);
    uint16_t *more = LEND(uint16_t, 5);
    GRANTED(out, bg_lut_interp_linear16_row(bent, 3, positions, 4, out, 4));
    EXPECT(out[0] == 0 && out[1] == 99 && out[2] == 100 && out[3] == 65535);
    GRANTED(out, bg_lut_interp_linear16_row(longest, 65536, positions, 4, out, 4));
    EXPECT(out[0] == longest[0] && out[1] == longest[32767] && out[2] == longest[32768] && out[3] == longest[65535]);
    GRANTED(NULL, bg_lut_interp_linear16_row(bent, 3, NULL, 0, NULL, 0));
    REFUSED(BG_TABLE_LENGTH, bg_lut_interp_linear16_row(NULL, 0, positions, 4, out, 4));
    REFUSED(BG_TABLE_LENGTH, bg_lut_interp_linear16_row(too_long, 65537, positions, 4, out, 4));
    REFUSED(BG_OUTPUT_LENGTH, bg_lut_interp_linear16_row(bent, 3, positions, 4, out, 3));
    REFUSED(BG_OUTPUT_LENGTH, bg_lut_interp_linear16_row(bent, 3, positions, 4, more, 5));
    REFUSED(BG_TABLE_LENGTH, bg_lut_interp_linear16_row(NULL, 0, positions, 4, more, 5));
    give_back();
}

static void bake(void)
{
    uint16_t *bent = LEND_COPY(uint16_t, 0, 100, 65535);
    uint16_t *too_long = LEND(uint16_t, 65537);
    uint16_t *out = LEND(uint16_t, 65536);
    uint16_t *more = LEND(uint16_t, 65537);
    bool same = true;
    GRANTED(out, bg_bake(bent, 3, out, 65536));
    for (uint32_t p = 0; p < 65536; p++)
        same = same && sample_is(bg_lut_interp_linear16(bent, 3, drive((uint16_t)p)), 0, out[p]);
    EXPECT(same);
    EXPECT(out[32767] == 99 && out[32768] == 100);
    REFUSED(BG_TABLE_LENGTH, bg_bake(NULL, 0, out, 65536));
    REFUSED(BG_TABLE_LENGTH, bg_bake(too_long, 65537, out, 65536));
    REFUSED(BG_OUTPUT_LENGTH, bg_bake(bent, 3, out, 65535));
    REFUSED(BG_OUTPUT_LENGTH, bg_bake(bent, 3, more, 65537));
    REFUSED(BG_OUTPUT_LENGTH, bg_bake(bent, 3, NULL, 0));
    REFUSED(BG_TABLE_LENGTH, bg_bake(NULL, 0, NULL, 0));
    give_back();
}

static void gamma_lookup(void)
{
    uint16_t *straight = LEND_COPY(uint16_t, 0, 65535);
    uint16_t *full = LEND_COPY(uint16_t, 65535);
    uint16_t *too_long = LEND(uint16_t, 65537);
    ANSWERS(code_is(bg_lut_interp_linear_gamma_impl(straight, 2, 2, 10, 1), 0, 1024));
    ANSWERS(code_is(bg_lut_interp_linear_gamma_impl(straight, 2, 256, 8, 128), 0, 128));
    ANSWERS(code_is(bg_lut_interp_linear_gamma_impl(straight, 2, 256, 8, 255), 0, 255));
    /* here the sum passes 32 bits */
    ANSWERS(code_is(bg_lut_interp_linear_gamma_impl(full, 1, 65536, 8, 0), 0, 255));
    ANSWERS(code_is(bg_lut_interp_linear_gamma_impl(straight, 2, 65536, 16, 65535), 0, 65535));
    ANSWERS(code_is(bg_lut_interp_linear_gamma_impl(NULL, 0, 2, 10, 1), BG_TABLE_LENGTH, 0));
    ANSWERS(code_is(bg_lut_interp_linear_gamma_impl(too_long, 65537, 2, 10, 1), BG_TABLE_LENGTH, 0));
    ANSWERS(code_is(bg_lut_interp_linear_gamma_impl(straight, 2, 1, 10, 0), BG_OUTSIDE_RANGE, 0));
    ANSWERS(code_is(bg_lut_interp_linear_gamma_impl(straight, 2, 65537, 10, 1), BG_OUTSIDE_RANGE, 0));
    ANSWERS(code_is(bg_lut_interp_linear_gamma_impl(straight, 2, 2, 0, 1), BG_OUTSIDE_RANGE, 0));
    ANSWERS(code_is(bg_lut_interp_linear_gamma_impl(straight, 2, 2, 17, 1), BG_OUTSIDE_RANGE, 0));
    ANSWERS(code_is(bg_lut_interp_linear_gamma_impl(straight, 2, 2, SIZE_MAX, 1), BG_OUTSIDE_RANGE, 0));
    ANSWERS(code_is(bg_lut_interp_linear_gamma_impl(straight, 2, 2, 10, 2), BG_INDEX_BEYOND, 0));
    ANSWERS(code_is(bg_lut_interp_linear_gamma_impl(straight, 2, 2, 10, SIZE_MAX), BG_INDEX_BEYOND, 0));
    ANSWERS(code_is(bg_lut_interp_linear_gamma_impl(NULL, 0, 1, 0, 9), BG_TABLE_LENGTH, 0));
    ANSWERS(code_is(bg_lut_interp_linear_gamma_impl(straight, 2, 1, 10, 9), BG_OUTSIDE_RANGE, 0));
    give_back();
}

void lookups(void)
{
    single();
    row();
    bake();
    gamma_lookup();
}
