/*
 * Tests in other floating-point environments. The calls that work in whole numbers must answer as before in each of
 * them; those that work in floats, once the default one is back. Then the float calls are shown to answer otherwise
 * there, so that the header's warning is not for nothing: no promise says what they answer. (Only the passthrough table
 * was never seen to answer otherwise.)
 */
#include "check.h"

#include <stdio.h>
#include <xmmintrin.h>

/* What MXCSR holds, with no traps in any of them; and its exception flags, which a call may raise. */
enum { DEFAULT = 0x1f80, FLUSH = 0x9fc0, DOWN = 0x3f80, UP = 0x5f80, CUT = 0x7f80, FLAGS = 0x3f };

static const struct {
    const char *name;
    unsigned value;
} others[] = {{"flushed to zero", FLUSH}, {"rounded down", DOWN}, {"rounded up", UP}, {"rounded to zero", CUT}};

static unsigned other;

/* Whether this machine, which may be an emulator, does what the environment says. */
static bool modelled(void)
{
    volatile float least_normal = 0x1p-126f, smallest = 0x1p-149f, halved;
    volatile double ten = 10, three = 3, tenth, third;
    volatile bool zero;
    _mm_setcsr(other);
    halved = least_normal / 2;
    zero = smallest == 0;
    tenth = 1 / ten;
    third = -1 / three;
    _mm_setcsr(DEFAULT);
    switch (other) {
    case FLUSH:
        return halved == 0 && zero;
    case DOWN:
        return tenth == 0x1.9999999999999p-4 && third == -0x1.5555555555556p-2;
    case UP:
        return tenth == 0x1.999999999999ap-4 && third == -0x1.5555555555555p-2;
    default:
        return tenth == 0x1.9999999999999p-4 && third == -0x1.5555555555555p-2;
    }
}

/* What calls that work in floats answer where they are known to move. */
struct moving {
    uint32_t float_table, wide_input, below_zero, curve, tag_curve;
    bool close;
    uint16_t inverse, inverted;
};

static struct moving ask(unsigned environment)
{
    static const float smallest[2] = {0, 0x1p-149f}, near[1] = {1e-4f}, zero[1] = {-0x1p-60f}, params[3] = {2, 3, 1};
    static const uint16_t table[2] = {8138, 10735}, straight[2] = {0, 65535}, bent[4] = {0, 8286, 24858, 47388};
    static const uint8_t tag[24] = {'p', 'a', 'r', 'a', 0, 0, 0, 0, 0, 1, 0, 0, 0, 2, 0, 0, 0, 3, 0, 0, 0, 1, 0, 0};
    struct moving m;
    uint16_t out[27];
    _mm_setcsr(environment);
    m.float_table = bits_of(bg_lut_interp_linear_float(smallest, 2, 0.5f).value);
    m.wide_input = bits_of(bg_lut_interp_linear(table, 2, 0x1.9bd8e3e7f2985p-1).value);
    m.below_zero = bg_lut_interp_linear(straight, 2, -0x1p-1074).refusal;
    m.curve = bits_of(bg_parametric_curve_new(params, 3).curve.d);
    m.tag_curve = bits_of(bg_para_curve(tag, 24).curve.d);
    m.close = bg_compare_parametric(near, 1, zero, 1);
    m.inverse = bg_lut_inverse_interp16(bent, 4, density(31617)).drive.value;
    bg_invert_lut(straight, 2, out, 27);
    m.inverted = out[13];
    EXPECT((_mm_getcsr() & ~FLAGS) == environment);
    _mm_setcsr(DEFAULT);
    return m;
}

static bool moving_is(struct moving m, struct moving w)
{
    return m.float_table == w.float_table && m.wide_input == w.wide_input && m.below_zero == w.below_zero &&
           m.curve == w.curve && m.tag_curve == w.tag_curve && m.close == w.close && m.inverse == w.inverse &&
           m.inverted == w.inverted;
}

static void moved(void)
{
    static const struct moving right = {1, 0x3e1fcc9e, BG_OUTSIDE_UNIT, 0xbeaaaaab, 0xbeaaaaab, true, 50244, 32767};
    struct moving m = ask(other);
    switch (other) {
    case FLUSH:
        EXPECT(m.float_table == 0 && m.below_zero == BG_DONE);
        break;
    case DOWN:
        EXPECT(m.wide_input == 0x3e1fcc9d && m.inverse == 50243);
        break;
    case UP:
        EXPECT(m.float_table == 0 && m.wide_input == 0x3e1fcc9f && m.curve == 0xbeaaaaaa && m.inverted == 32768);
        EXPECT(!m.close);
        break;
    default:
        EXPECT(m.wide_input == 0x3e1fcc9d && m.tag_curve == 0xbeaaaaaa && m.inverse == 50243);
    }
    EXPECT(moving_is(ask(DEFAULT), right));
}

static void tried(void)
{
    _mm_setcsr(other);
    run_all(false);
    EXPECT((_mm_getcsr() & ~FLAGS) == other);
    _mm_setcsr(DEFAULT);
    run_all(true);
    moved();
}

void environments(void)
{
    for (size_t i = 0; i < sizeof others / sizeof *others; i++) {
        other = others[i].value;
        if (modelled())
            subject(others[i].name, tried);
        else
            printf("face: not tried here: the calls with floats %s (this machine does not do so)\n", others[i].name);
    }
}
