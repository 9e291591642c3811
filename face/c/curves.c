/* Tests of the work on a curve: start, accept, nudge. */
#include "check.h"

static void start(void)
{
    uint16_t *two = LEND(uint16_t, 2);
    uint16_t *three = LEND(uint16_t, 3);
    uint16_t *longest = LEND(uint16_t, 65536);
    uint16_t *one = LEND(uint16_t, 1);
    uint16_t *too_long = LEND(uint16_t, 65537);
    bool straight = true;
    GRANTED(two, bg_start(two, 2));
    EXPECT(two[0] == 0 && two[1] == 65535);
    GRANTED(three, bg_start(three, 3));
    EXPECT(three[0] == 0 && three[1] == 32768 && three[2] == 65535);
    GRANTED(longest, bg_start(longest, 65536));
    for (uint32_t i = 0; i < 65536; i++)
        straight = straight && longest[i] == i;
    EXPECT(straight);
    REFUSED(BG_TABLE_LENGTH, bg_start(NULL, 0));
    REFUSED(BG_TABLE_LENGTH, bg_start(one, 1));
    REFUSED(BG_TABLE_LENGTH, bg_start(too_long, 65537));
    give_back();
}

static void accept(void)
{
    uint16_t *one = LEND_COPY(uint16_t, 7);
    uint16_t *level = LEND_COPY(uint16_t, 0, 0, 5, 65535);
    uint16_t *first = LEND_COPY(uint16_t, 1, 0, 5);
    uint16_t *last = LEND_COPY(uint16_t, 0, 5, 4);
    uint16_t *longest = lend_same(9, 65536);
    uint16_t *too_long = lend_same(9, 65537);
    GRANTED(NULL, bg_accept(one, 1));
    GRANTED(NULL, bg_accept(level, 4));
    GRANTED(NULL, bg_accept(longest, 65536));
    REFUSED(BG_TABLE_LENGTH, bg_accept(NULL, 0));
    REFUSED(BG_TABLE_LENGTH, bg_accept(too_long, 65537));
    REFUSED(BG_NOT_NONDECREASING, bg_accept(first, 3));
    REFUSED(BG_NOT_NONDECREASING, bg_accept(last, 3));
    too_long[0] = 10;
    REFUSED(BG_TABLE_LENGTH, bg_accept(too_long, 65537));
    give_back();
}

static void nudge(void)
{
    uint16_t *table = LEND_COPY(uint16_t, 10, 20, 30);
    uint16_t *one = LEND_COPY(uint16_t, 7);
    uint16_t *falling = LEND_COPY(uint16_t, 5, 3);
    uint16_t *too_long = lend_same(9, 65537);
    GRANTED(table, bg_nudge(table, 3, 1, density(25)));
    EXPECT(table[0] == 10 && table[1] == 25 && table[2] == 30);
    GRANTED(table, bg_nudge(table, 3, 1, density(30)));
    EXPECT(table[0] == 10 && table[1] == 30 && table[2] == 30);
    GRANTED(table, bg_nudge(table, 3, 1, density(10)));
    EXPECT(table[0] == 10 && table[1] == 10 && table[2] == 30);
    GRANTED(table, bg_nudge(table, 3, 0, density(0)));
    GRANTED(table, bg_nudge(table, 3, 2, density(65535)));
    EXPECT(table[0] == 0 && table[1] == 10 && table[2] == 65535);
    GRANTED(one, bg_nudge(one, 1, 0, density(9)));
    EXPECT(one[0] == 9);
    REFUSED(BG_TABLE_LENGTH, bg_nudge(NULL, 0, 0, density(9)));
    REFUSED(BG_TABLE_LENGTH, bg_nudge(too_long, 65537, 0, density(9)));
    REFUSED(BG_INDEX_BEYOND, bg_nudge(table, 3, 3, density(9)));
    REFUSED(BG_INDEX_BEYOND, bg_nudge(table, 3, SIZE_MAX, density(9)));
    REFUSED(BG_INDEX_BEYOND, bg_nudge(falling, 2, 2, density(9)));
    REFUSED(BG_NOT_NONDECREASING, bg_nudge(falling, 2, 0, density(2)));
    table[0] = 10, table[1] = 20, table[2] = 30;
    REFUSED(BG_OUTSIDE_NEIGHBOURS, bg_nudge(table, 3, 1, density(9)));
    REFUSED(BG_OUTSIDE_NEIGHBOURS, bg_nudge(table, 3, 1, density(31)));
    REFUSED(BG_OUTSIDE_NEIGHBOURS, bg_nudge(table, 3, 0, density(21)));
    REFUSED(BG_OUTSIDE_NEIGHBOURS, bg_nudge(table, 3, 2, density(19)));
    give_back();
}

void curves(void)
{
    start();
    accept();
    nudge();
}
