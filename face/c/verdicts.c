/*
 * Tests of the verdicts on a curve's shape. The edges are document 01's. Monotonic: 20 entries with one violation no,
 * 21 yes. Degenerated: a run of 19 no, 20 yes.
 */
#include "check.h"

static bool monotony_is(bg_monotony m, uint32_t refusal, bool yes, size_t violations)
{
    return m.refusal == refusal && m.yes == yes && m.violations == violations;
}

static bool degeneration_is(bg_degeneration d, uint32_t refusal, bool yes)
{
    return d.refusal == refusal && d.yes == yes;
}

static void monotonic(void)
{
    uint16_t *dip = LEND(uint16_t, 21);
    uint16_t *rise = LEND_COPY(uint16_t, 1, 2, 3);
    uint16_t *longest = lend_same(9, 65536);
    uint16_t *too_long = lend_same(9, 65537);
    for (uint16_t i = 0; i < 21; i++)
        dip[i] = (uint16_t)(100 * i);
    dip[7] = 0;
    ANSWERS(monotony_is(bg_is_curve_monotonic(dip, 20, true), 0, false, 1));
    ANSWERS(monotony_is(bg_is_curve_monotonic(dip, 21, true), 0, true, 1));
    ANSWERS(monotony_is(bg_is_curve_monotonic(dip, 21, false), 0, false, 19));
    ANSWERS(monotony_is(bg_is_curve_monotonic(rise, 3, true), 0, true, 0));
    ANSWERS(monotony_is(bg_is_curve_monotonic(rise, 3, false), 0, false, 2));
    ANSWERS(monotony_is(bg_is_curve_monotonic(rise, 1, false), 0, true, 0));
    ANSWERS(monotony_is(bg_is_curve_monotonic(NULL, 0, true), 0, true, 0));
    ANSWERS(monotony_is(bg_is_curve_monotonic(longest, 65536, true), 0, true, 0));
    ANSWERS(monotony_is(bg_is_curve_monotonic(too_long, 65537, true), BG_TABLE_LENGTH, false, 0));
    give_back();
}

static void degenerated(void)
{
    uint16_t *table = LEND(uint16_t, 40);
    uint16_t *longest = lend_same(9, 65536);
    uint16_t *too_long = lend_same(9, 65537);
    for (uint16_t i = 0; i < 40; i++)
        table[i] = i < 19 ? 0 : (uint16_t)(100 * i);
    ANSWERS(degeneration_is(bg_is_curve_degenerated(table, 40), 0, false));
    table[19] = 0;
    ANSWERS(degeneration_is(bg_is_curve_degenerated(table, 40), 0, true));
    for (uint16_t i = 0; i < 40; i++)
        table[i] = i > 20 ? 65535 : (uint16_t)(100 * i);
    ANSWERS(degeneration_is(bg_is_curve_degenerated(table, 40), 0, false));
    table[20] = 65535;
    ANSWERS(degeneration_is(bg_is_curve_degenerated(table, 40), 0, true));
    ANSWERS(degeneration_is(bg_is_curve_degenerated(table, 1), 0, false));
    ANSWERS(degeneration_is(bg_is_curve_degenerated(NULL, 0), 0, false));
    ANSWERS(degeneration_is(bg_is_curve_degenerated(longest, 65536), 0, true));
    ANSWERS(degeneration_is(bg_is_curve_degenerated(too_long, 65537), BG_TABLE_LENGTH, false));
    give_back();
}

void verdicts(void)
{
    monotonic();
    degenerated();
}
