/* The benchmark's program. It measures nothing before it has seen that both sides give the same answers.
   usage, on a curve of N entries:
          bench check N                 compares the answers of all sides; how far Little CMS's are from ours
          bench time N CALL..           call, side, N, nanoseconds for each answer; of all calls where none is named
          bench list N CALL..           call, side, N, two counts, and the answers that lie between them; likewise
          bench count N CALL SIDE COUNT does the work once, for a counter of instructions around it */
#include "brassgroat.h"
#include "questions.h"
#include "work.h"

#include <inttypes.h>
#include <stdio.h>
#include <stdlib.h>
#include <string.h>
#include <time.h>

enum { MOST_SIDES = 8, LEAST_ROUNDS = 30, COUNTED = 3000 };

static const double SECONDS_EACH = 0.3;

/* How many answers one count stands for. */
enum each { ONE, EVERY_ENTRY, EVERY_POSITION, EVERY_INVERTED };

struct call {
    const char *name;
    enum each each;
    size_t timed;            /* the count of one timed round */
    size_t few, more;        /* the two counts between which instructions are counted, at most COUNTED */
};

static const struct call CALLS[] = {
    {"loop", ONE, QUESTIONS, 1000, COUNTED},
    {"lookup", ONE, QUESTIONS, 1000, COUNTED},
    {"row", ONE, QUESTIONS, 1000, COUNTED},
    {"bake", EVERY_POSITION, 1, 1, 2},
    {"baked-row", ONE, QUESTIONS, 1000, COUNTED},
    {"baked-row-near", ONE, QUESTIONS, 1000, COUNTED},
    {"least", ONE, 1024, 10, 40},
    {"least-row", ONE, QUESTIONS, 1000, COUNTED},
    {"inverse", ONE, QUESTIONS, 1000, COUNTED},
    {"invert", EVERY_INVERTED, 1, 1, 2},
    {"read", EVERY_ENTRY, 16, 2, 6},
    {"write", EVERY_ENTRY, 16, 2, 6},
    {"accept", EVERY_ENTRY, 64, 10, 40},
    {"nudge", ONE, 64, 10, 40},
    {"log-nudge", ONE, BG_LOG_PLACES, 10, 40},
    {"take-back", ONE, BG_LOG_PLACES, 10, 40},
    {"float", ONE, QUESTIONS, 1000, COUNTED},
    {"linear", ONE, QUESTIONS, 1000, COUNTED},
    {"row-of-one", ONE, QUESTIONS, 1000, COUNTED},
    {"least-row-of-one", ONE, 1024, 10, 40},
    {"power", ONE, QUESTIONS, 1000, COUNTED},
    {"tag-power", ONE, QUESTIONS, 1000, COUNTED},
    {"power-table", EVERY_ENTRY, 1, 1, 2},
    {"tag-power-table", EVERY_ENTRY, 1, 1, 2},
};

#define COUNT_OF(list) (sizeof(list) / sizeof *(list))

static const struct side *const SIDES[] = {
    our_sides,
#ifdef WITH_RUST
    rust_sides,
#endif
    libc_sides,
#ifdef WITH_LCMS
    lcms_sides,
#endif
};

static void give_up(const char *what, const char *call, size_t n) {
    fprintf(stderr, "bench: %s: %s, n = %zu\n", what, call, n);
    exit(1);
}

static size_t answers(const struct call *call, size_t n) {
    switch (call->each) {
    case EVERY_ENTRY: return n;
    case EVERY_POSITION: return POSITIONS;
    case EVERY_INVERTED: return INVERTED;
    default: return 1;
    }
}

static void bake_curve(struct work *work) {
    if (bg_bake(work->table, work->n, work->baked, POSITIONS) != BG_DONE)
        give_up("refused", "bake", work->n);
}

static struct work prepared(size_t n, size_t questions) {
    struct work work = work_of(n, questions);
#ifdef WITH_RUST
    rust_prepare(&work);
#endif
#ifdef WITH_LCMS
    lcms_prepare(&work);
#endif
    return work;
}

/* Whether Little CMS does a call at this work: it takes no table so long as our longest, and gives its gamma curves one
   length. */
static bool lcms_does(const char *call, const struct work *work) {
    if (strcmp(call, "power-table") == 0 || strcmp(call, "tag-power-table") == 0)
        return work->n == LCMS_GAMMA_ENTRIES;
    return work->lcms_curve;
}

/* The sides of a call at this work, ours first. */
static size_t sides_of(const struct call *call, const struct work *work, struct side found[MOST_SIDES]) {
    size_t count = 0;
    for (size_t i = 0; i < COUNT_OF(SIDES); i++)
        for (const struct side *side = SIDES[i]; side->call; side++) {
            bool able = strcmp(side->who, "lcms") != 0 || lcms_does(side->call, work);
            if (able && strcmp(side->call, call->name) == 0)
                found[count++] = *side;
        }
    return count;
}

static uint64_t stirred(uint64_t sum, const void *from, size_t bytes) {
    const uint8_t *at = from;
    for (size_t i = 0; i < bytes; i++)
        sum = (sum ^ at[i]) * 0x100000001b3;
    return sum;
}

/* A checksum of what a side returns and of all that it leaves. */
static uint64_t checksum(const struct side *side, struct work *work) {
    memset(work->out, 0, POSITIONS * sizeof *work->out);
    memset(work->out_wide, 0, QUESTIONS * sizeof *work->out_wide);
    memset(work->out_tag, 0, TAG_HEAD + 2 * work->n);
    uint64_t sum = side->run(work);
#ifdef WITH_RUST
    if (strcmp(side->call, "write") == 0 && strcmp(side->who, "ours") != 0)
        rust_settle(work);
#endif
    sum = stirred(sum, work->out, POSITIONS * sizeof *work->out);
    sum = stirred(sum, work->out_wide, QUESTIONS * sizeof *work->out_wide);
    return stirred(sum, work->out_tag, TAG_HEAD + 2 * work->n);
}

static void check_call(const struct call *call, struct work *work) {
    struct side sides[MOST_SIDES];
    size_t count = sides_of(call, work, sides);
    work->count = call->timed;
    uint64_t ours = checksum(&sides[0], work);
    for (size_t i = 1; i < count; i++)
        if (sides[i].same && checksum(&sides[i], work) != ours)
            give_up("the answers differ", call->name, work->n);
}

/* The Rust has no least input. Ours is held to its definition by our own lookup, which is held to the Rust's. */
static void check_least(struct work *work) {
    work->count = QUESTIONS;
    if (bg_least_input_row(work->table, work->n, work->asked, QUESTIONS, work->out_wide, QUESTIONS) != BG_DONE)
        give_up("refused", "least-row", work->n);
    for (size_t i = 0; i < QUESTIONS; i++) {
        uint32_t least = work->out_wide[i];
        bool reaches = work->baked[least] >= work->asked[i];
        bool first = least == 0 || work->baked[least - 1] < work->asked[i];
        bg_position single = bg_least_input(work->table, work->n, (bg_density){work->asked[i]});
        if (!reaches || !first || single.refusal != BG_DONE || single.drive.value != least)
            give_up("not the least input", "least", work->n);
    }
}

/* No other side has a nudge. What is measured of ours must be granted: a refusal may cost less. */
static void check_granted(const char *name, struct work *work) {
    const struct call call = {.name = name};
    struct side sides[MOST_SIDES];
    sides_of(&call, work, sides);
    work->count = BG_LOG_PLACES;
    if (sides[0].run(work) != BG_DONE)
        give_up("refused", name, work->n);
}

/* Every side must see a curve that falls once, near its end. */
static void check_fall(struct work *work) {
    const struct call accept = {"accept", EVERY_ENTRY, 1, 1, 1};
    uint16_t *late = &work->table[work->n - 3], kept = *late;
    struct side sides[MOST_SIDES];
    size_t count = sides_of(&accept, work, sides);
    *late = 0;
    work->count = 1;
    for (size_t i = 0; i < count; i++)
        if (sides[i].run(work) != BG_NOT_NONDECREASING)
            give_up("a fall is not seen", "accept", work->n);
    *late = kept;
}

/* Ours is within one of the curve, and pow's value is the nearest to it: at every x the two are at most 1 apart. */
static void check_power(size_t exponent, const struct work *work) {
    double gamma = (double)exponent / 65536.0;
    for (size_t i = 0; i < POSITIONS; i++) {
        uint16_t x = (uint16_t)i;
        bg_sample ours = bg_power((bg_drive){x}, exponent);
        if (ours.refusal != BG_DONE || 1 < abs(ours.density.value - libc_value(x, gamma)))
            give_up("not within 1 of pow's", "power", work->n);
    }
}

/* What a gamma tag's entry answers is what its exponent answers. */
static void check_tag_power(uint16_t entry, const struct work *work) {
    for (size_t i = 0; i < POSITIONS; i++) {
        bg_drive x = {(uint16_t)i};
        bg_sample ours = bg_tag_power(x, entry);
        if (ours.refusal != BG_DONE || ours.density.value != bg_power(x, 256 * (uint64_t)entry).density.value)
            give_up("not what its exponent answers", "tag-power", work->n);
    }
}

/* A table of a gamma curve has its values at the entries of the straight curve. */
static void check_power_table(const char *name, size_t exponent, struct work *work) {
    const struct call call = {.name = name};
    struct side sides[MOST_SIDES];
    sides_of(&call, work, sides);
    work->count = 1;
    if (sides[0].run(work) != BG_DONE)
        give_up("refused", name, work->n);
    for (size_t i = 0; i < work->n; i++)
        if (work->out[i] != bg_power((bg_drive){work->straight[i]}, exponent).density.value)
            give_up("not the values at the straight curve", name, work->n);
}

static void check_gammas(struct work *work) {
    check_power(EXPONENT, work);
    check_power(256 * GAMMA_ENTRY, work);
    check_tag_power(GAMMA_ENTRY, work);
    check_power_table("power-table", EXPONENT, work);
    check_power_table("tag-power-table", 256 * GAMMA_ENTRY, work);
}

#ifdef WITH_LCMS
static int furthest_apart(const uint16_t *some, const uint16_t *others, size_t count) {
    int furthest = 0;
    for (size_t i = 0; i < count; i++)
        if (furthest < abs(some[i] - others[i]))
            furthest = abs(some[i] - others[i]);
    return furthest;
}

/* Little CMS asks pow at i/4095 itself; our entry i, and that of pow's loop, is at the drive nearest to it. */
static void compare_lcms_gamma(size_t exponent, struct work *work) {
    static uint16_t theirs[POSITIONS];
    size_t entries = lcms_gamma((double)exponent / 65536.0, theirs);
    if (entries != LCMS_GAMMA_ENTRIES || bg_power_table(work->out, entries, entries, exponent) != BG_DONE)
        give_up("another number of entries", "cmsBuildGamma", entries);
    printf("Little CMS's gamma curve of exponent %zu/65536 has %zu entries, which are at most %d from ours.\n",
           exponent, entries, furthest_apart(theirs, work->out, entries));
}

/* Little CMS rounds in its own way: how far its lookups are from ours at most shows that it does the same work. */
static void compare_lcms(struct work *work) {
    int furthest = 0;
    for (size_t i = 0; work->lcms_curve && i < POSITIONS; i++) {
        int apart = abs(lcms_lookup(work, (uint16_t)i) - work->baked[i]);
        if (furthest < apart)
            furthest = apart;
    }
    if (work->lcms_curve)
        printf("Little CMS's lookups, at all positions of the curve of %zu entries, are at most %d from ours.\n",
               work->n, furthest);
    else
        printf("Little CMS takes no curve of %zu entries.\n", work->n);
    if (work->n == LCMS_GAMMA_ENTRIES) {
        compare_lcms_gamma(EXPONENT, work);
        compare_lcms_gamma(256 * GAMMA_ENTRY, work);
    }
}
#endif

static void check(size_t n) {
    struct work work = prepared(n, QUESTIONS);
    bake_curve(&work);
    check_granted("take-back", &work); /* before a nudge writes in the log */
    check_granted("log-nudge", &work);
    check_granted("nudge", &work);
    for (size_t i = 0; i < COUNT_OF(CALLS); i++)
        check_call(&CALLS[i], &work);
    check_least(&work);
    check_fall(&work);
    check_gammas(&work);
#ifdef WITH_LCMS
    compare_lcms(&work);
#endif
}

static double seconds(void) {
    struct timespec now;
    clock_gettime(CLOCK_MONOTONIC, &now);
    return (double)now.tv_sec + 1e-9 * (double)now.tv_nsec;
}

/* What runs produce goes here, so that no run is left out. */
static volatile uint64_t kept;

static double took(const struct side *side, const struct work *work) {
    double began = seconds();
    kept = side->run(work);
    return seconds() - began;
}

/* The sides take turns, round by round, so that whatever else the machine does falls on all of them. The best round
   counts. */
static void time_call(const struct call *call, struct work *work) {
    struct side sides[MOST_SIDES];
    size_t count = sides_of(call, work, sides);
    double best[MOST_SIDES];
    work->count = call->timed;
    for (size_t i = 0; i < count; i++)
        best[i] = took(&sides[i], work);
    double began = seconds();
    for (size_t round = 0; round < LEAST_ROUNDS || seconds() - began < SECONDS_EACH; round++)
        for (size_t i = 0; i < count; i++) {
            double now = took(&sides[i], work);
            if (now < best[i])
                best[i] = now;
        }
    for (size_t i = 0; i < count; i++)
        printf("%s %s %zu %.3f\n", call->name, sides[i].who, work->n,
               1e9 * best[i] / (double)(call->timed * answers(call, work->n)));
}

/* Whether the call is among the names, which end with NULL. No name stands for all calls. */
static bool named(const struct call *call, char **names) {
    if (!*names)
        return true;
    for (; *names; names++)
        if (strcmp(call->name, *names) == 0)
            return true;
    return false;
}

/* A name that no call has would measure nothing and say nothing. */
static void know(char **names, size_t n) {
    for (; *names; names++) {
        char *alone[] = {*names, NULL};
        bool found = false;
        for (size_t i = 0; i < COUNT_OF(CALLS); i++)
            found = found || named(&CALLS[i], alone);
        if (!found)
            give_up("no such call", *names, n);
    }
}

static void time_all(size_t n, char **names) {
    know(names, n);
    struct work work = prepared(n, QUESTIONS);
    bake_curve(&work);
    for (size_t i = 0; i < COUNT_OF(CALLS); i++)
        if (named(&CALLS[i], names))
            time_call(&CALLS[i], &work);
}

static void list(size_t n, char **names) {
    know(names, n);
    struct work work = prepared(n, COUNTED);
    for (size_t i = 0; i < COUNT_OF(CALLS); i++) {
        const struct call *call = &CALLS[i];
        struct side sides[MOST_SIDES];
        size_t count = named(call, names) ? sides_of(call, &work, sides) : 0;
        for (size_t s = 0; s < count; s++)
            printf("%s %s %zu %zu %zu %zu\n", call->name, sides[s].who, n, call->few, call->more,
                   (call->more - call->few) * answers(call, n));
    }
}

/* What comes before the work is the same for every count, so that it drops out of a difference, and short, since a
   counter makes everything slow: few questions are drawn, and the curve is baked only for the calls that want it. */
static void count_one(size_t n, const char *name, const char *who, size_t count) {
    const struct call call = {.name = name};
    struct work work = prepared(n, COUNTED);
    struct side sides[MOST_SIDES];
    size_t found = sides_of(&call, &work, sides);
    work.count = count;
    if (strncmp(name, "baked", 5) == 0)
        bake_curve(&work);
    for (size_t i = 0; i < found; i++)
        if (strcmp(sides[i].who, who) == 0) {
            kept = sides[i].run(&work);
            return;
        }
    give_up("no such side", name, n);
}

int main(int words, char **word) {
    size_t n = words < 3 ? 0 : strtoul(word[2], NULL, 10);
    if (n < 3 || 65536 < n) {
        fputs("usage: bench check N, bench time | list N CALL.., or bench count N CALL SIDE COUNT; N from 3 to 65536\n",
              stderr);
        return 2;
    }
    if (strcmp(word[1], "check") == 0)
        check(n);
    else if (strcmp(word[1], "time") == 0)
        time_all(n, word + 3);
    else if (strcmp(word[1], "list") == 0)
        list(n, word + 3);
    else if (words == 6)
        count_one(n, word[3], word[4], strtoul(word[5], NULL, 10));
    return 0;
}
