/* Tests of the calls from density back to drive. The worked numbers are document 01's. */
#include "check.h"

static bool position_is(bg_position p, uint32_t refusal, uint16_t drive)
{
    return p.refusal == refusal && p.drive.value == drive;
}

static void least(void)
{
    uint16_t *bent = LEND_COPY(uint16_t, 0, 100, 65535);
    uint16_t *low = LEND_COPY(uint16_t, 10, 20);
    uint16_t *falling = LEND_COPY(uint16_t, 20, 10);
    uint16_t *too_long = lend_same(9, 65537);
    ANSWERS(position_is(bg_least_input(bent, 3, density(0)), 0, 0));
    ANSWERS(position_is(bg_least_input(bent, 3, density(100)), 0, 32768));
    ANSWERS(position_is(bg_least_input(bent, 3, density(65534)), 0, 65535));
    ANSWERS(position_is(bg_least_input(low, 2, density(10)), 0, 0));
    ANSWERS(position_is(bg_least_input(low, 2, density(20)), 0, 65535));
    ANSWERS(position_is(bg_least_input(low, 2, density(21)), BG_ABOVE_LAST, 0));
    ANSWERS(position_is(bg_least_input(NULL, 0, density(21)), BG_TABLE_LENGTH, 0));
    ANSWERS(position_is(bg_least_input(too_long, 65537, density(9)), BG_TABLE_LENGTH, 0));
    ANSWERS(position_is(bg_least_input(falling, 2, density(10)), BG_NOT_NONDECREASING, 0));
    ANSWERS(position_is(bg_least_input(falling, 2, density(21)), BG_NOT_NONDECREASING, 0));
    give_back();
}

static void least_row(void)
{
    uint16_t *low = LEND_COPY(uint16_t, 10, 20);
    uint16_t *falling = LEND_COPY(uint16_t, 20, 10);
    uint16_t *too_long = lend_same(9, 65537);
    uint16_t *densities = LEND_COPY(uint16_t, 0, 20, 21);
    uint32_t *out = LEND(uint32_t, 3);
    uint32_t *more = LEND(uint32_t, 4);
    GRANTED(out, bg_least_input_row(low, 2, densities, 3, out, 3));
    EXPECT(out[0] == 0 && out[1] == 65535 && out[2] == 65536);
    GRANTED(NULL, bg_least_input_row(low, 2, NULL, 0, NULL, 0));
    REFUSED(BG_TABLE_LENGTH, bg_least_input_row(NULL, 0, densities, 3, out, 3));
    REFUSED(BG_TABLE_LENGTH, bg_least_input_row(too_long, 65537, densities, 3, out, 3));
    REFUSED(BG_OUTPUT_LENGTH, bg_least_input_row(low, 2, densities, 3, out, 2));
    REFUSED(BG_OUTPUT_LENGTH, bg_least_input_row(low, 2, densities, 3, more, 4));
    REFUSED(BG_OUTPUT_LENGTH, bg_least_input_row(falling, 2, densities, 3, more, 4));
    REFUSED(BG_NOT_NONDECREASING, bg_least_input_row(falling, 2, densities, 3, out, 3));
    give_back();
}

static void ported(void)
{
    uint16_t *bent = LEND_COPY(uint16_t, 0, 100, 65535);
    uint16_t *full = LEND_COPY(uint16_t, 65535, 65535);
    uint16_t *one = LEND_COPY(uint16_t, 5);
    uint16_t *too_long = lend_same(9, 65537);
    ANSWERS(position_is(bg_lut_inverse_interp16(bent, 3, density(0)), 0, 255));
    ANSWERS(position_is(bg_lut_inverse_interp16(full, 2, density(7)), 0, 0));
    ANSWERS(position_is(bg_lut_inverse_interp16(one, 1, density(0)), 0, 0));
    ANSWERS(position_is(bg_lut_inverse_interp16(one, 1, density(3)), 0, 2));
    ANSWERS(position_is(bg_lut_inverse_interp16(one, 1, density(5)), 0, 32767));
    ANSWERS(position_is(bg_lut_inverse_interp16(one, 1, density(9)), 0, 65535));
    ANSWERS(position_is(bg_lut_inverse_interp16(NULL, 0, density(7)), BG_TABLE_LENGTH, 0));
    ANSWERS(position_is(bg_lut_inverse_interp16(too_long, 65537, density(7)), BG_TABLE_LENGTH, 0));
    give_back();
}

static void whole_table(void)
{
    uint16_t *bent = LEND_COPY(uint16_t, 0, 100, 65535);
    uint16_t *too_long = lend_same(9, 65537);
    uint16_t *out = LEND(uint16_t, 3);
    uint16_t *one = LEND(uint16_t, 1);
    uint16_t *longest = LEND(uint16_t, 65536);
    uint16_t *longer = LEND(uint16_t, 65537);
    GRANTED(out, bg_invert_lut(bent, 3, out, 3));
    EXPECT(out[0] == 255);
    EXPECT(position_is(bg_lut_inverse_interp16(bent, 3, density(32768)), 0, out[1]));
    EXPECT(position_is(bg_lut_inverse_interp16(bent, 3, density(65535)), 0, out[2]));
    GRANTED(longest, bg_invert_lut(bent, 3, longest, 65536));
    EXPECT(longest[0] == 255);
    EXPECT(position_is(bg_lut_inverse_interp16(bent, 3, density(12345)), 0, longest[12345]));
    REFUSED(BG_TABLE_LENGTH, bg_invert_lut(NULL, 0, out, 3));
    REFUSED(BG_TABLE_LENGTH, bg_invert_lut(too_long, 65537, out, 3));
    REFUSED(BG_OUTSIDE_RANGE, bg_invert_lut(bent, 3, NULL, 0));
    REFUSED(BG_OUTSIDE_RANGE, bg_invert_lut(bent, 3, one, 1));
    REFUSED(BG_OUTSIDE_RANGE, bg_invert_lut(bent, 3, longer, 65537));
    REFUSED(BG_TABLE_LENGTH, bg_invert_lut(NULL, 0, one, 1));
    give_back();
}

void inverses(void)
{
    least();
    least_row();
}

void ported_inverses(void)
{
    ported();
    whole_table();
}
