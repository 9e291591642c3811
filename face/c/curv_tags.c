/* Tests of the curv tag: each layout of ICC.1, each refusal, and both round trips. */
#include "check.h"

#include <string.h>

static bool count_is(bg_count c, uint32_t refusal, size_t entries)
{
    return c.refusal == refusal && c.entries == entries;
}

static bool part_is(bg_part p, uint32_t refusal, size_t start, size_t len)
{
    return p.refusal == refusal && p.start == start && p.len == len;
}

/* Every call that reads a tag refuses it alike. */
static void all_refuse(uint32_t number, const uint8_t *tag, size_t tag_len)
{
    uint16_t *out = LEND(uint16_t, 2);
    ANSWERS(count_is(bg_curv_count(tag, tag_len), number, 0));
    ANSWERS(part_is(bg_curv_part(tag, tag_len), number, 0, 0));
    REFUSED(number, bg_curv_read(tag, tag_len, out, 2));
    REFUSED(number, bg_curv_read(tag, tag_len, NULL, 0));
}

/* A tag of two entries with one byte changed. */
static void changed(uint32_t number, size_t at, uint8_t to)
{
    uint8_t *tag = LEND_COPY(uint8_t, 0x63, 0x75, 0x72, 0x76, 0, 0, 0, 0, 0, 0, 0, 2, 0x12, 0x34, 0xfe, 0xdc);
    tag[at] = to;
    all_refuse(number, tag, 16);
    give_back();
}

static void granted(void)
{
    uint8_t *none = LEND_COPY(uint8_t, 0x63, 0x75, 0x72, 0x76, 0, 0, 0, 0, 0, 0, 0, 0);
    uint8_t *gamma = LEND_COPY(uint8_t, 0x63, 0x75, 0x72, 0x76, 0, 0, 0, 0, 0, 0, 0, 1, 2, 0x33);
    uint8_t *two = LEND_COPY(uint8_t, 0x63, 0x75, 0x72, 0x76, 0, 0, 0, 0, 0, 0, 0, 2, 0x12, 0x34, 0xfe, 0xdc);
    uint8_t *room = LEND(uint8_t, 16);
    uint16_t *one = LEND(uint16_t, 1);
    uint16_t *out = LEND(uint16_t, 2);
    uint16_t *more = LEND(uint16_t, 3);
    ANSWERS(count_is(bg_curv_count(none, 12), 0, 0));
    ANSWERS(part_is(bg_curv_part(none, 12), 0, 12, 0));
    GRANTED(NULL, bg_curv_read(none, 12, NULL, 0));
    ANSWERS(count_is(bg_curv_count(gamma, 14), 0, 1));
    ANSWERS(part_is(bg_curv_part(gamma, 14), 0, 12, 2));
    GRANTED(one, bg_curv_read(gamma, 14, one, 1));
    EXPECT(one[0] == 0x233);
    ANSWERS(count_is(bg_curv_count(two, 16), 0, 2));
    ANSWERS(part_is(bg_curv_part(two, 16), 0, 12, 4));
    GRANTED(out, bg_curv_read(two, 16, out, 2));
    EXPECT(out[0] == 0x1234 && out[1] == 0xfedc);
    GRANTED(room, bg_curv_write(out, 2, room, 16));
    EXPECT(memcmp(room, two, 16) == 0);
    REFUSED(BG_OUTPUT_LENGTH, bg_curv_read(two, 16, one, 1));
    REFUSED(BG_OUTPUT_LENGTH, bg_curv_read(two, 16, more, 3));
    REFUSED(BG_OUTPUT_LENGTH, bg_curv_read(none, 12, one, 1));
    give_back();
}

static void longest(void)
{
    uint16_t *table = LEND(uint16_t, 65536);
    uint16_t *back = LEND(uint16_t, 65536);
    uint16_t *too_long = LEND(uint16_t, 65537);
    uint8_t *tag = LEND(uint8_t, 12 + 2 * 65536);
    uint8_t *longer = LEND(uint8_t, 12 + 2 * 65537);
    GRANTED(tag, bg_curv_write(table, 65536, tag, 12 + 2 * 65536));
    ANSWERS(count_is(bg_curv_count(tag, 12 + 2 * 65536), 0, 65536));
    ANSWERS(part_is(bg_curv_part(tag, 12 + 2 * 65536), 0, 12, 131072));
    GRANTED(back, bg_curv_read(tag, 12 + 2 * 65536, back, 65536));
    EXPECT(memcmp(table, back, 2 * 65536) == 0);
    REFUSED(BG_TABLE_LENGTH, bg_curv_write(too_long, 65537, longer, 12 + 2 * 65537));
    memcpy(longer, "curv\0\0\0\0\0\1\0\1", 12);
    all_refuse(BG_TABLE_LENGTH, longer, 12 + 2 * 65537);
    give_back();
}

static void written(void)
{
    uint16_t *table = LEND_COPY(uint16_t, 7, 8);
    uint8_t *out = LEND(uint8_t, 16);
    uint8_t *more = LEND(uint8_t, 17);
    uint8_t *none = LEND(uint8_t, 12);
    GRANTED(none, bg_curv_write(NULL, 0, none, 12));
    EXPECT(memcmp(none, "curv\0\0\0\0\0\0\0\0", 12) == 0);
    REFUSED(BG_OUTPUT_LENGTH, bg_curv_write(table, 2, out, 15));
    REFUSED(BG_OUTPUT_LENGTH, bg_curv_write(table, 2, more, 17));
    REFUSED(BG_OUTPUT_LENGTH, bg_curv_write(table, 2, NULL, 0));
    REFUSED(BG_OUTPUT_LENGTH, bg_curv_write(NULL, 0, NULL, 0));
    give_back();
}

void curv_tags(void)
{
    uint8_t *tag = LEND_COPY(uint8_t, 0x63, 0x75, 0x72, 0x76, 0, 0, 0, 0, 0, 0, 0, 2, 0x12, 0x34, 0xfe, 0xdc, 0x00);
    all_refuse(BG_TAG_LENGTH, NULL, 0);
    all_refuse(BG_TAG_LENGTH, tag, 11);
    all_refuse(BG_TAG_LENGTH, tag, 12);
    all_refuse(BG_TAG_LENGTH, tag, 15);
    give_back();
    tag = LEND_COPY(uint8_t, 0x63, 0x75, 0x72, 0x76, 0, 0, 0, 0, 0, 0, 0, 2, 0x12, 0x34, 0xfe, 0xdc, 0x00);
    all_refuse(BG_TAG_LENGTH, tag, 17);
    give_back();
    for (size_t at = 0; at < 4; at++)
        changed(BG_WRONG_SIGNATURE, at, 0);
    for (size_t at = 4; at < 8; at++)
        changed(BG_RESERVED_NOT_ZERO, at, 1);
    changed(BG_TABLE_LENGTH, 8, 1);
    changed(BG_TABLE_LENGTH, 9, 1);
    changed(BG_TAG_LENGTH, 11, 3);
    granted();
    longest();
    written();
}
