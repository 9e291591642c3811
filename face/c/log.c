/*
 * Tests of taking nudges back: start, accept, nudge and take-back over a table and its log. Each granted call is held
 * to every byte that it should leave of the table, the log and the count, and each refused one to changing none.
 */
#include "check.h"

#include <string.h>

_Static_assert(sizeof(bg_record) == 8 && _Alignof(bg_record) == 8, "a record is a word of 64 bits");
_Static_assert(offsetof(bg_record, new_entry) == 0 && offsetof(bg_record, old_entry) == 2 &&
                   offsetof(bg_record, index) == 4 && offsetof(bg_record, channel) == 6,
               "a record lies in memory as new entry, old entry, index, channel");

/* A table and its log, all lent. */
struct logged {
    uint16_t *table;
    size_t table_len;
    bg_record *log;
    size_t *count;
};

/* The same as a call's arguments. */
#define OF(s) (s).table, (s).table_len, (s).log, (s).count

/* Lends a log beside a table: its records hold a pattern, which no call made. */
static struct logged beside(uint16_t *table, size_t table_len, size_t count)
{
    return (struct logged){table, table_len, LEND(bg_record, BG_LOG_PLACES), LEND_COPY(size_t, count)};
}

#define BESIDE(count, ...) \
    beside(LEND_COPY(uint16_t, __VA_ARGS__), sizeof((const uint16_t[]){__VA_ARGS__}) / sizeof(uint16_t), (count))

/* The record of a nudge. */
static bg_record record(size_t index, uint16_t old_entry, uint16_t new_entry)
{
    bg_record r = {new_entry, old_entry, (uint16_t)index, 0};
    return r;
}

/* Makes the last standing record this one, which no call made. */
static void forge(struct logged s, size_t index, uint16_t old_entry, uint16_t new_entry)
{
    s.log[*s.count - 1] = record(index, old_entry, new_entry);
}

static void count_should_be(struct logged s, size_t count)
{
    should_be(s.count, &count, sizeof count);
}

/* A granted start leaves the straight curve and an empty log, and no record is changed. */
static void started(struct logged s, const uint16_t *straight)
{
    settle();
    should_be(s.table, straight, s.table_len * sizeof *straight);
    count_should_be(s, 0);
    EXPECT(bg_log_start(OF(s)) == 0);
    EXPECT(kept_but(NULL));
}

/* A granted accept leaves an empty log, and no record is changed. */
static void accepted(struct logged s)
{
    settle();
    count_should_be(s, 0);
    EXPECT(bg_log_accept(OF(s)) == 0);
    EXPECT(kept_but(NULL));
}

/* A granted nudge leaves the entry, its record at the count, and a count of one more. */
static void nudged(struct logged s, size_t index, uint16_t to)
{
    bg_record made = record(index, s.table[index], to);
    settle();
    should_be(&s.table[index], &to, sizeof to);
    should_be(&s.log[*s.count], &made, sizeof made);
    count_should_be(s, *s.count + 1);
    EXPECT(bg_log_nudge(OF(s), index, density(to)) == 0);
    EXPECT(kept_but(NULL));
}

/* A granted take-back leaves the old entry and a count of one less, and no record is changed. */
static void taken_back(struct logged s, size_t index, uint16_t old_entry)
{
    settle();
    should_be(&s.table[index], &old_entry, sizeof old_entry);
    count_should_be(s, *s.count - 1);
    EXPECT(bg_take_back(OF(s)) == 0);
    EXPECT(kept_but(NULL));
}

static void start(void)
{
    static uint16_t every[65536];
    static const size_t damaged[] = {0, 1, 62, 63, 64, SIZE_MAX};
    struct logged s = BESIDE(7, 4, 5), three = BESIDE(63, 9, 8, 7), one = BESIDE(1, 4);
    struct logged longest = beside(LEND(uint16_t, 65536), 65536, SIZE_MAX);
    struct logged too_long = beside(LEND(uint16_t, 65537), 65537, 64);
    for (size_t i = 0; i < 65536; i++)
        every[i] = (uint16_t)i;
    for (size_t i = 0; i < sizeof damaged / sizeof *damaged; i++) {
        *s.count = damaged[i];
        started(s, (const uint16_t[]){0, 65535});
    }
    started(three, (const uint16_t[]){0, 32768, 65535});
    started(longest, every);
    REFUSED(BG_TABLE_LENGTH, bg_log_start(NULL, 0, s.log, s.count));
    REFUSED(BG_TABLE_LENGTH, bg_log_start(OF(one)));
    REFUSED(BG_TABLE_LENGTH, bg_log_start(OF(too_long)));
    give_back();
}

static void accept(void)
{
    static const size_t damaged[] = {0, 1, 62, 63, 64, SIZE_MAX};
    struct logged s = BESIDE(0, 0, 0, 5, 65535), one = BESIDE(1, 7), falling = BESIDE(64, 0, 5, 4);
    struct logged longest = beside(lend_same(9, 65536), 65536, SIZE_MAX);
    uint16_t *too_long = lend_same(9, 65537);
    for (size_t i = 0; i < sizeof damaged / sizeof *damaged; i++) {
        *s.count = damaged[i];
        accepted(s);
    }
    accepted(one);
    accepted(longest);
    *s.count = 64;
    REFUSED(BG_TABLE_LENGTH, bg_log_accept(NULL, 0, s.log, s.count));
    REFUSED(BG_TABLE_LENGTH, bg_log_accept(too_long, 65537, s.log, s.count));
    too_long[0] = 10;
    REFUSED(BG_TABLE_LENGTH, bg_log_accept(too_long, 65537, s.log, s.count));
    REFUSED(BG_NOT_NONDECREASING, bg_log_accept(OF(falling)));
    falling.table[0] = 6, falling.table[2] = 5;
    REFUSED(BG_NOT_NONDECREASING, bg_log_accept(OF(falling)));
    give_back();
}

static void nudge(void)
{
    struct logged s = BESIDE(0, 10, 20, 30), one = BESIDE(5, 7);
    struct logged longest = beside(lend_same(9, 65536), 65536, 61);
    nudged(s, 1, 25);
    nudged(s, 1, 30);
    nudged(s, 1, 10);
    nudged(s, 0, 0);
    nudged(s, 2, 65535);
    EXPECT(s.table[0] == 0 && s.table[1] == 10 && s.table[2] == 65535 && *s.count == 5);
    nudged(s, 1, 10);
    EXPECT(*s.count == 6 && s.log[5].old_entry == 10 && s.log[5].new_entry == 10);
    nudged(one, 0, 65535);
    nudged(one, 0, 0);
    nudged(longest, 65535, 65535);
    nudged(longest, 0, 0);
    EXPECT(*longest.count == 63);
    give_back();
}

static void nudge_refused(void)
{
    static const size_t too_many[] = {64, 65, 128, 65536, (size_t)1 << 32, ((size_t)1 << 32) + 62, SIZE_MAX};
    struct logged s = BESIDE(0, 10, 20, 30), falling = BESIDE(0, 5, 3);
    uint16_t *too_long = lend_same(9, 65537);
    REFUSED(BG_INDEX_BEYOND, bg_log_nudge(OF(s), 3, density(30)));
    REFUSED(BG_INDEX_BEYOND, bg_log_nudge(OF(s), SIZE_MAX, density(30)));
    REFUSED(BG_INDEX_BEYOND, bg_log_nudge(OF(s), ((size_t)1 << 32) + 1, density(25)));
    REFUSED(BG_INDEX_BEYOND, bg_log_nudge(OF(s), 65537, density(25)));
    REFUSED(BG_OUTSIDE_NEIGHBOURS, bg_log_nudge(OF(s), 1, density(9)));
    REFUSED(BG_OUTSIDE_NEIGHBOURS, bg_log_nudge(OF(s), 1, density(31)));
    REFUSED(BG_OUTSIDE_NEIGHBOURS, bg_log_nudge(OF(s), 0, density(21)));
    REFUSED(BG_OUTSIDE_NEIGHBOURS, bg_log_nudge(OF(s), 2, density(19)));
    for (size_t i = 0; i < sizeof too_many / sizeof *too_many; i++) {
        /* 1, and 17; then 17, and 3, 2, 4 */
        *s.count = *falling.count = too_many[i];
        REFUSED(BG_TABLE_LENGTH, bg_log_nudge(NULL, 0, s.log, s.count, 0, density(9)));
        REFUSED(BG_TABLE_LENGTH, bg_log_nudge(too_long, 65537, s.log, s.count, 0, density(9)));
        REFUSED(BG_BAD_LOG, bg_log_nudge(OF(s), 1, density(25)));
        REFUSED(BG_BAD_LOG, bg_log_nudge(OF(s), 3, density(25)));
        REFUSED(BG_BAD_LOG, bg_log_nudge(OF(s), 1, density(31)));
        REFUSED(BG_BAD_LOG, bg_log_nudge(OF(falling), 0, density(2)));
    }
    for (size_t count = 0; count <= 63; count += 63) {
        /* 3, and 2, 15; 2, and 4, 15; 4, and 15 */
        *s.count = *falling.count = count;
        REFUSED(BG_TABLE_LENGTH, bg_log_nudge(NULL, 0, s.log, s.count, 0, density(9)));
        REFUSED(BG_INDEX_BEYOND, bg_log_nudge(OF(falling), 2, density(9)));
        REFUSED(BG_NOT_NONDECREASING, bg_log_nudge(OF(falling), 0, density(2)));
        REFUSED(BG_NOT_NONDECREASING, bg_log_nudge(OF(falling), 0, density(9)));
        REFUSED(BG_INDEX_BEYOND, bg_log_nudge(OF(s), 3, density(25)));
        REFUSED(BG_OUTSIDE_NEIGHBOURS, bg_log_nudge(OF(s), 1, density(31)));
    }
    REFUSED(BG_LOG_FULL, bg_log_nudge(OF(s), 1, density(25)));
    REFUSED(BG_LOG_FULL, bg_log_nudge(OF(s), 1, density(20)));
    *s.count = 62;
    nudged(s, 1, 25);
    REFUSED(BG_LOG_FULL, bg_log_nudge(OF(s), 1, density(20)));
    give_back();
}

/* A nudge looks at no record: over a last one that does not go with the table it is granted. */
static void nudge_over_a_bad_record(void)
{
    struct logged s = BESIDE(1, 10, 20, 30);
    forge(s, 3, 0, 0);
    REFUSED(BG_BAD_LOG, bg_take_back(OF(s)));
    nudged(s, 1, 25);
    taken_back(s, 1, 20);
    REFUSED(BG_BAD_LOG, bg_take_back(OF(s)));
    give_back();
}

/* One last record over the table: taken back, or refused with 17. */
static void goes(struct logged s, size_t index, uint16_t old_entry)
{
    uint16_t stood = s.table[index];
    forge(s, index, old_entry, stood);
    taken_back(s, index, old_entry);
    s.table[index] = stood;
    ++*s.count;
}

static void goes_not(struct logged s, bg_record last)
{
    s.log[*s.count - 1] = last;
    REFUSED(BG_BAD_LOG, bg_take_back(OF(s)));
}

/* What the last record says, at each number that may stand. */
static void last_records(void)
{
    static const size_t counts[] = {1, 2, 62, 63};
    struct logged s = BESIDE(0, 10, 20, 20, 30), one = BESIDE(1, 7);
    for (size_t i = 0; i < sizeof counts / sizeof *counts; i++) {
        *s.count = counts[i];
        /* the index at the length and beyond it; above it, the top 16 bits, which make it larger still */
        goes_not(s, record(4, 30, 30));
        goes_not(s, record(65535, 30, 30));
        goes_not(s, (bg_record){30, 30, 3, 1});
        goes_not(s, (bg_record){10, 10, 0, 1});
        goes_not(s, (bg_record){10, 10, 0, 0x8000});
        /* another new entry than the table's */
        goes_not(s, record(0, 10, 9));
        goes_not(s, record(0, 10, 11));
        goes_not(s, record(3, 30, 20));
        /* an old entry beside the left neighbour and beside the right one, in between and at both ends */
        goes_not(s, record(1, 9, 20));
        goes(s, 1, 10);
        goes(s, 1, 20);
        goes_not(s, record(1, 21, 20));
        goes_not(s, record(2, 19, 20));
        goes(s, 2, 20);
        goes(s, 2, 30);
        goes_not(s, record(2, 31, 20));
        goes(s, 0, 0);
        goes(s, 0, 20);
        goes_not(s, record(0, 21, 10));
        goes_not(s, record(3, 19, 30));
        goes(s, 3, 20);
        goes(s, 3, 65535);
    }
    goes(one, 0, 0);
    goes(one, 0, 7);
    goes(one, 0, 65535);
    goes_not(one, record(0, 7, 8));
    goes_not(one, record(1, 7, 7));
    goes_not(one, (bg_record){7, 7, 0, 1});
    give_back();
}

static void take_back_refused(void)
{
    static const size_t too_many[] = {64, 65, 128, 65536, (size_t)1 << 32, ((size_t)1 << 32) + 1, SIZE_MAX};
    struct logged s = BESIDE(63, 10, 20, 30), falling = BESIDE(0, 5, 3);
    uint16_t *too_long = lend_same(9, 65537);
    for (size_t i = 0; i < BG_LOG_PLACES; i++)
        s.log[i] = record(1, 20, 20);
    for (size_t i = 0; i < sizeof too_many / sizeof *too_many; i++) {
        /* 17 for the count; before it 1, and 2 */
        *s.count = *falling.count = too_many[i];
        REFUSED(BG_BAD_LOG, bg_take_back(OF(s)));
        REFUSED(BG_TABLE_LENGTH, bg_take_back(NULL, 0, s.log, s.count));
        REFUSED(BG_NOT_NONDECREASING, bg_take_back(OF(falling)));
    }
    *s.count = 0;
    REFUSED(BG_NOTHING_TO_TAKE_BACK, bg_take_back(OF(s)));
    REFUSED(BG_TABLE_LENGTH, bg_take_back(NULL, 0, s.log, s.count));
    REFUSED(BG_TABLE_LENGTH, bg_take_back(too_long, 65537, s.log, s.count));
    too_long[0] = 10;
    REFUSED(BG_TABLE_LENGTH, bg_take_back(too_long, 65537, s.log, s.count));
    /* 2, and 16; and a last record that does not go with the table, and one that would */
    *falling.count = 0;
    REFUSED(BG_NOT_NONDECREASING, bg_take_back(OF(falling)));
    *falling.count = 1;
    forge(falling, 2, 3, 3);
    REFUSED(BG_NOT_NONDECREASING, bg_take_back(OF(falling)));
    forge(falling, 1, 5, 3);
    REFUSED(BG_NOT_NONDECREASING, bg_take_back(OF(falling)));
    give_back();
}

/* Only the last record is looked at: a bad one before it is met when it has become the last. */
static void bad_record_below(void)
{
    struct logged s = BESIDE(2, 10, 20, 30);
    s.log[0] = record(9, 9, 9);
    s.log[1] = record(1, 15, 20);
    taken_back(s, 1, 15);
    REFUSED(BG_BAD_LOG, bg_take_back(OF(s)));
    give_back();
}

/* A nudge, the same entry again, and both taken back; what a freed place holds stays until it is used again. */
static void same_entry_again(void)
{
    struct logged s = BESIDE(SIZE_MAX, 10, 20, 30);
    accepted(s);
    nudged(s, 1, 25);
    nudged(s, 1, 12);
    REFUSED(BG_OUTSIDE_NEIGHBOURS, bg_log_nudge(OF(s), 1, density(9)));
    taken_back(s, 1, 25);
    EXPECT(s.log[1].old_entry == 25 && s.log[1].new_entry == 12);
    nudged(s, 0, 25);
    EXPECT(s.log[1].index == 0 && s.log[1].old_entry == 10 && s.log[1].new_entry == 25);
    taken_back(s, 0, 10);
    taken_back(s, 1, 20);
    REFUSED(BG_NOTHING_TO_TAKE_BACK, bg_take_back(OF(s)));
    give_back();
}

/* A take-back whose old entry no longer fits since a later nudge: only where the count was changed by another hand. */
static void later_nudge_in_the_way(void)
{
    struct logged s = BESIDE(64, 10, 20, 30);
    accepted(s);
    nudged(s, 1, 25);
    nudged(s, 0, 25);
    *s.count = 1;
    REFUSED(BG_BAD_LOG, bg_take_back(OF(s)));
    *s.count = 2;
    taken_back(s, 0, 10);
    taken_back(s, 1, 20);
    give_back();
}

/* The log filled, a place freed and used again, and all taken back: the starting table. */
static void filled(void)
{
    struct logged s = BESIDE(99, 1, 1, 1);
    started(s, (const uint16_t[]){0, 32768, 65535});
    for (size_t i = 0; i < 63; i++)
        nudged(s, 1, (uint16_t)(1000 + i / 2));
    REFUSED(BG_LOG_FULL, bg_log_nudge(OF(s), 1, density(7)));
    taken_back(s, 1, 1030);
    nudged(s, 0, 1);
    REFUSED(BG_LOG_FULL, bg_log_nudge(OF(s), 0, density(0)));
    EXPECT(s.log[62].index == 0 && s.log[62].old_entry == 0 && s.log[62].new_entry == 1);
    taken_back(s, 0, 0);
    for (size_t i = 62; i > 0; i--)
        taken_back(s, 1, i == 1 ? 32768 : (uint16_t)(1000 + (i - 2) / 2));
    EXPECT(s.table[0] == 0 && s.table[1] == 32768 && s.table[2] == 65535 && *s.count == 0);
    REFUSED(BG_NOTHING_TO_TAKE_BACK, bg_take_back(OF(s)));
    give_back();
}

/* A record as it lies in memory, written by a nudge and read by a take-back. */
static void words(void)
{
    struct logged s = beside(lend_same(0x0304, 65536), 65536, 62);
    uint64_t word = UINT64_C(0xfe02) << 32 | 0x0304 << 16 | 0x0304;
    uint16_t parts[4];
    nudged(s, 0xfe02, 0x0304);
    EXPECT(memcmp(&s.log[62], &word, 8) == 0);
    memcpy(parts, &s.log[62], 8);
    EXPECT(parts[0] == 0x0304 && parts[1] == 0x0304 && parts[2] == 0xfe02 && parts[3] == 0);
    *s.count = 61;
    nudged(s, 65535, 0x7ffe);
    memcpy(parts, &s.log[61], 8);
    EXPECT(parts[0] == 0x7ffe && parts[1] == 0x0304 && parts[2] == 65535 && parts[3] == 0);
    word = UINT64_C(65535) << 32 | UINT64_C(0xfffe) << 16 | 0x7ffe;
    memcpy(&s.log[61], &word, 8);
    taken_back(s, 65535, 0xfffe);
    give_back();
}

void logs(void)
{
    start();
    accept();
    nudge();
    nudge_refused();
    nudge_over_a_bad_record();
    last_records();
    take_back_refused();
    bad_record_below();
    same_entry_again();
    later_nudge_in_the_way();
    filled();
    words();
}
