/*
 * Sittings with a log: the four calls on one table and its log, in any order, granted and refused. A list of the
 * standing nudges is kept here from the calls and their answers alone. After each call three things are checked: the
 * table is the starting one with these nudges done again, in order; every record, standing or free, is what was last
 * logged in its place; and the answer is what the rules say, by which neither 2 nor 17 can come.
 */
#include "asks.h"
#include "reference.h"

#include <stdio.h>
#include <string.h>

/* What is lent. */
static struct {
    uint16_t *table;
    size_t table_len;
    bg_record *log;
    size_t *count;
} lent_now;

/* What should be there: the starting table, the records in their places, and how many of them stand. */
static uint16_t starting[65536];
static bg_record logged_here[BG_LOG_PLACES];
static size_t standing;

/* The starting table with the standing nudges done. */
static uint16_t replayed[65536];

/* The numbers that were given. */
static unsigned numbers_given;

enum call { START, ACCEPT, NUDGE, TAKE_BACK };

/* A call. It is lent the table, or by chance none. */
struct step {
    enum call call;
    size_t table_len, index;
    uint16_t to;
};

static void replay(void)
{
    memcpy(replayed, starting, lent_now.table_len * sizeof *replayed);
    for (size_t i = 0; i < standing; i++)
        replayed[logged_here[i].index] = logged_here[i].new_entry;
}

/* Whether the nudge would pass a neighbour. */
static bool passes(struct step s)
{
    return (s.index > 0 && s.to < replayed[s.index - 1]) ||
           (s.index + 1 < s.table_len && s.to > replayed[s.index + 1]);
}

static uint32_t should_give(struct step s)
{
    if (s.table_len == 0 || (s.call == START && s.table_len == 1))
        return 1;
    if (s.call == NUDGE)
        return s.index >= s.table_len ? 3 : passes(s) ? 4 : standing == BG_LOG_PLACES ? 15 : 0;
    return s.call == TAKE_BACK && standing == 0 ? 16 : 0;
}

/* Keeps what a granted call should leave. */
static void keep(struct step s)
{
    if (s.call == NUDGE) {
        bg_record made = {s.to, replayed[s.index], (uint16_t)s.index, 0};
        logged_here[standing++] = made;
    } else if (s.call == TAKE_BACK) {
        standing--;
    } else {
        standing = 0;
        memcpy(starting, replayed, s.table_len * sizeof *starting);
        if (s.call == START)
            ref_start(starting, s.table_len);
    }
    replay();
}

static uint32_t made(struct step s)
{
    uint16_t *table = s.table_len == 0 ? NULL : lent_now.table;
    switch (s.call) {
    case START:
        return bg_log_start(table, s.table_len, lent_now.log, lent_now.count);
    case ACCEPT:
        return bg_log_accept(table, s.table_len, lent_now.log, lent_now.count);
    case NUDGE:
        return bg_log_nudge(table, s.table_len, lent_now.log, lent_now.count, s.index, density(s.to));
    default:
        return bg_take_back(table, s.table_len, lent_now.log, lent_now.count);
    }
}

/* Shows a call that went wrong, but not often: those after it would go wrong too. */
static void show(struct step s, uint32_t got, uint32_t want)
{
    static const char *const names[] = {"bg_log_start", "bg_log_accept", "bg_log_nudge", "bg_take_back"};
    static unsigned shown;
    if (++shown > 5)
        return;
    printf("face: sittings: %s of %zu entries, %zu should stand", names[s.call], s.table_len, standing);
    if (s.call == NUDGE)
        printf(", entry %zu to %u", s.index, (unsigned)s.to);
    printf(": gives %u, should be %u", (unsigned)got, (unsigned)want);
    printf(got == want ? ", and leaves what it should not\n" : "\n");
}

static void one(struct step s)
{
    uint32_t want = should_give(s), got;
    bool left;
    if (want == 0)
        keep(s);
    settle();
    should_be(lent_now.table, replayed, lent_now.table_len * sizeof *replayed);
    should_be(lent_now.log, logged_here, sizeof logged_here);
    should_be(lent_now.count, &standing, sizeof standing);
    got = made(s);
    left = kept_but(NULL);
    tally(got == want && left);
    numbers_given |= 1u << want;
    if (got != want || !left)
        show(s, got, want);
}

/* An entry for an index: the least or the largest that fits there, one beside these, or any between them. */
static uint16_t about_fitting(size_t index)
{
    size_t n = lent_now.table_len, least = index == 0 ? 0 : replayed[index - 1];
    size_t largest = index + 1 < n ? replayed[index + 1] : 65535;
    switch (below(8)) {
    case 0:
        return (uint16_t)least;
    case 1:
        return (uint16_t)largest;
    case 2:
        return (uint16_t)(least - 1);
    case 3:
        return (uint16_t)(largest + 1);
    default:
        return (uint16_t)(least + below(largest - least + 1));
    }
}

/* A call, of which two in three are the kind that is usual now: nudges, so that the log fills, or take-backs. */
static struct step any_step(enum call usual)
{
    size_t kind = below(96), n = lent_now.table_len, index = below(n), beyond = below(16), none = below(64);
    uint16_t to = about_fitting(index);
    enum call call = kind == 0 ? START : kind == 1 ? ACCEPT : kind < 64 ? usual : kind < 80 ? NUDGE : TAKE_BACK;
    return (struct step){call, none == 0 ? 0 : n, beyond == 0 ? n + index : index, to};
}

/* One sitting: an accept of a straight table, so many calls, and all that stands taken back. */
static void sit(size_t table_len, unsigned long calls)
{
    static const size_t any_count = 77;
    enum call usual = NUDGE;
    lent_now.table = LEND(uint16_t, table_len);
    lent_now.table_len = table_len;
    lent_now.log = LEND(bg_record, BG_LOG_PLACES);
    lent_now.count = lend_copy(&any_count, 1, sizeof any_count);
    for (size_t i = 0; i < table_len; i++)
        lent_now.table[i] = (uint16_t)(i * 65535 / table_len);
    memcpy(starting, lent_now.table, table_len * sizeof *starting);
    memcpy(logged_here, lent_now.log, sizeof logged_here);
    standing = 0;
    replay();
    one((struct step){ACCEPT, table_len, 0, 0});
    for (unsigned long i = 0; i < calls; i++) {
        bool turn = below(200) == 0;
        if (turn)
            usual = usual == NUDGE ? TAKE_BACK : NUDGE;
        one(any_step(usual));
    }
    while (standing > 0)
        one((struct step){TAKE_BACK, table_len, 0, 0});
    tally(memcmp(lent_now.table, starting, table_len * sizeof *starting) == 0);
    give_back();
}

/* In a long run each number that a sitting can give is given; a short one may miss some. */
void sittings(unsigned long calls)
{
    static const size_t lengths[] = {1, 2, 3, 5, 21, 256, 1024};
    enum { LENGTHS = sizeof lengths / sizeof *lengths };
    end_of_questions();
    for (size_t i = 0; i < LENGTHS; i++)
        sit(lengths[i], calls / LENGTHS);
    sit(65536, calls / 100);
    tally(calls < 10000 || numbers_given == (1 << 0 | 1 << 1 | 1 << 3 | 1 << 4 | 1 << 15 | 1 << 16));
}
