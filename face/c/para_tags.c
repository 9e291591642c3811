/* Tests of the para tag: each layout of ICC.1, each refusal, and both round trips. */
#include "check.h"

#include <string.h>

static const size_t counts[5] = {1, 3, 4, 5, 7};

/* 2.0, -1.5, 0.25, -0.125, the least, the greatest, and one unit, as raw 16.16 numbers */
static const bg_raw raw = {131072, -98304, 16384, -8192, INT32_MIN, INT32_MAX, 1};

static bool raw_is(bg_raw got, const int32_t *want)
{
    return got.g == want[0] && got.a == want[1] && got.b == want[2] && got.c == want[3] && got.d == want[4] &&
           got.e == want[5] && got.f == want[6];
}

static bool para_is(bg_para p, uint32_t refusal, size_t count)
{
    int32_t want[7] = {raw.g, raw.a, raw.b, raw.c, raw.d, raw.e, raw.f};
    for (size_t k = count; k < 7; k++)
        want[k] = 0;
    return p.refusal == refusal && p.count == count && raw_is(p.numbers, want);
}

static void both_refuse(uint32_t number, const uint8_t *tag, size_t tag_len)
{
    ANSWERS(para_is(bg_para_read(tag, tag_len), number, 0));
    ANSWERS(curve_refused(bg_para_curve(tag, tag_len), number));
}

/* A tag of type 0 with one byte changed. */
static void changed(uint32_t number, size_t at, uint8_t to)
{
    uint8_t *tag = LEND_COPY(uint8_t, 0x70, 0x61, 0x72, 0x61, 0, 0, 0, 0, 0, 0, 0, 0, 0, 2, 0, 0);
    tag[at] = to;
    both_refuse(number, tag, 16);
    give_back();
}

static void each_type(void)
{
    for (size_t t = 0; t < 5; t++) {
        size_t len = 12 + 4 * counts[t];
        uint8_t *tag = LEND(uint8_t, len);
        uint8_t *again = LEND(uint8_t, len);
        uint8_t *more = LEND(uint8_t, len + 1);
        GRANTED(tag, bg_para_write(t, raw, tag, len));
        EXPECT(memcmp(tag, "para\0\0\0\0\0", 9) == 0 && tag[9] == t && tag[10] == 0 && tag[11] == 0);
        EXPECT(memcmp(tag + 12, "\0\2\0\0", 4) == 0);
        ANSWERS(para_is(bg_para_read(tag, len), 0, counts[t]));
        GRANTED(again, bg_para_write(t, bg_para_read(tag, len).numbers, again, len));
        EXPECT(memcmp(tag, again, len) == 0);
        REFUSED(BG_OUTPUT_LENGTH, bg_para_write(t, raw, tag, len - 1));
        REFUSED(BG_OUTPUT_LENGTH, bg_para_write(t, raw, more, len + 1));
        REFUSED(BG_OUTPUT_LENGTH, bg_para_write(t, raw, NULL, 0));
        give_back();
    }
}

void para_curves(void)
{
    uint8_t *tag = LEND(uint8_t, 40);
    GRANTED(tag, bg_para_write(0, raw, tag, 16));
    ANSWERS(curve_is(bg_para_curve(tag, 16), 2, 1, 0, 0, 0, 0, 0));
    GRANTED(tag, bg_para_write(1, raw, tag, 24));
    ANSWERS(curve_is(bg_para_curve(tag, 24), 2, -1.5f, 0.25f, 0, 0.25f / 1.5f, 0, 0));
    GRANTED(tag, bg_para_write(2, raw, tag, 28));
    ANSWERS(curve_is(bg_para_curve(tag, 28), 2, -1.5f, 0.25f, 0, 0.25f / 1.5f, -0.125f, -0.125f));
    GRANTED(tag, bg_para_write(3, raw, tag, 32));
    ANSWERS(curve_is(bg_para_curve(tag, 32), 2, -1.5f, 0.25f, -0.125f, -32768, 0, 0));
    GRANTED(tag, bg_para_write(4, raw, tag, 40));
    ANSWERS(curve_is(bg_para_curve(tag, 40), 2, -1.5f, 0.25f, -0.125f, -32768, 32768, 0x1p-16f));
    give_back();
}

void para_tags(void)
{
    uint8_t *tag = LEND_COPY(uint8_t, 0x70, 0x61, 0x72, 0x61, 0, 0, 0, 0, 0, 0, 0, 0, 0, 2, 0, 0, 0);
    uint8_t *room = LEND(uint8_t, 16);
    both_refuse(BG_TAG_LENGTH, NULL, 0);
    both_refuse(BG_TAG_LENGTH, tag, 11);
    both_refuse(BG_TAG_LENGTH, tag, 12);
    both_refuse(BG_TAG_LENGTH, tag, 15);
    both_refuse(BG_TAG_LENGTH, tag, 17);
    REFUSED(BG_FUNCTION_TYPE, bg_para_write(5, raw, room, 16));
    REFUSED(BG_FUNCTION_TYPE, bg_para_write(SIZE_MAX, raw, room, 16));
    REFUSED(BG_FUNCTION_TYPE, bg_para_write(5, raw, NULL, 0));
    give_back();
    for (size_t at = 0; at < 4; at++)
        changed(BG_WRONG_SIGNATURE, at, 0);
    for (size_t at = 4; at < 8; at++)
        changed(BG_RESERVED_NOT_ZERO, at, 1);
    changed(BG_RESERVED_NOT_ZERO, 10, 1);
    changed(BG_RESERVED_NOT_ZERO, 11, 1);
    changed(BG_FUNCTION_TYPE, 8, 1);
    changed(BG_FUNCTION_TYPE, 9, 5);
    changed(BG_TAG_LENGTH, 9, 1);
    each_type();
}
