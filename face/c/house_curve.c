/* Tests of the house curve: each entry is held to document 01's fifth-power rule. */
#include "check.h"

__extension__ typedef unsigned __int128 wide;

/* m squared times 1023 to the fifth */
static wide square(wide m)
{
    return m * m * 1023 * 1023 * 1023 * 1023 * 1023;
}

static bool is_entry(wide i, wide n)
{
    wide fifth = 4 * (wide)65535 * 65535 * i * i * i * i * i;
    return square(2 * n + 1) > fifth && (n == 0 || square(2 * n - 1) <= fifth);
}

void house_curve(void)
{
    uint16_t *out = LEND(uint16_t, 1024);
    uint16_t *less = LEND(uint16_t, 1023);
    uint16_t *more = LEND(uint16_t, 1025);
    bg_sample beyond = bg_house_entry(1024), far = bg_house_entry(SIZE_MAX);
    GRANTED(out, bg_house_fill(out, 1024));
    for (size_t i = 0; i < 1024; i++) {
        bg_sample entry = bg_house_entry(i);
        EXPECT(is_entry(i, out[i]));
        EXPECT(entry.refusal == 0 && entry.density.value == out[i]);
    }
    EXPECT(out[0] == 0 && out[1023] == 65535);
    EXPECT(bg_accept(out, 1024) == 0);
    EXPECT(beyond.refusal == BG_INDEX_BEYOND && beyond.density.value == 0);
    EXPECT(far.refusal == BG_INDEX_BEYOND && far.density.value == 0);
    REFUSED(BG_OUTPUT_LENGTH, bg_house_fill(NULL, 0));
    REFUSED(BG_OUTPUT_LENGTH, bg_house_fill(less, 1023));
    REFUSED(BG_OUTPUT_LENGTH, bg_house_fill(more, 1025));
    give_back();
}
