/* The counts, the lent buffers, and the list of subjects. */
#define _DEFAULT_SOURCE
#include "asks.h"

#include <stdio.h>
#include <stdlib.h>
#include <string.h>
#include <sys/mman.h>
#include <unistd.h>

enum { MOST = 16, GUARD = 64 };

/* A lent buffer: whole pages from `room` on, of which the last is shut, and the buffer ends where that begins. */
struct lent {
    unsigned char *room;
    size_t pages;
    unsigned char *at;
    size_t bytes;
    unsigned char *held;
};

static struct lent lents[MOST];
static size_t lent_count;
static unsigned long expected, failed;

void tally(bool holds)
{
    expected++;
    if (!holds)
        failed++;
}

void expect(bool holds, const char *what, const char *file, int line)
{
    tally(holds);
    if (!holds)
        printf("%s:%d: not so: %s\n", file, line, what);
}

static void stop(const char *why)
{
    fprintf(stderr, "face: %s\n", why);
    exit(2);
}

static unsigned char guard_byte(size_t i)
{
    return (unsigned char)(0xa5 ^ i);
}

void *lend(size_t count, size_t size)
{
    size_t page = (size_t)sysconf(_SC_PAGESIZE), bytes = count * size;
    struct lent *l = &lents[lent_count];
    if (count == 0)
        return NULL;
    if (lent_count == MOST)
        stop("too many buffers lent at once");
    l->bytes = bytes;
    l->pages = (GUARD + bytes + page - 1) / page + 1;
    l->room = mmap(NULL, l->pages * page, PROT_READ | PROT_WRITE, MAP_PRIVATE | MAP_ANONYMOUS, -1, 0);
    if (l->room == MAP_FAILED || mprotect(l->room + (l->pages - 1) * page, page, PROT_NONE) != 0)
        stop("no memory");
    l->at = l->room + (l->pages - 1) * page - bytes;
    l->held = malloc(bytes);
    if (l->held == NULL)
        stop("no memory");
    for (size_t i = 0; i < GUARD; i++)
        l->at[-1 - (ptrdiff_t)i] = guard_byte(i);
    for (size_t i = 0; i < bytes; i++)
        l->at[i] = (unsigned char)(i * 29 + 7);
    lent_count++;
    return l->at;
}

void *lend_copy(const void *from, size_t count, size_t size)
{
    return memcpy(lend(count, size), from, count * size);
}

uint16_t *lend_same(uint16_t entry, size_t count)
{
    uint16_t *table = LEND(uint16_t, count);
    for (size_t i = 0; i < count; i++)
        table[i] = entry;
    return table;
}

void settle(void)
{
    for (size_t i = 0; i < lent_count; i++)
        memcpy(lents[i].held, lents[i].at, lents[i].bytes);
}

void should_be(const void *at, const void *these, size_t bytes)
{
    uintptr_t from = (uintptr_t)at;
    for (size_t i = 0; i < lent_count; i++) {
        uintptr_t begins = (uintptr_t)lents[i].at;
        if (from >= begins && from + bytes <= begins + lents[i].bytes) {
            memcpy(lents[i].held + (from - begins), these, bytes);
            return;
        }
    }
    stop("no buffer is lent there");
}

bool kept_but(const void *out)
{
    for (size_t i = 0; i < lent_count; i++) {
        for (size_t k = 0; k < GUARD; k++)
            if (lents[i].at[-1 - (ptrdiff_t)k] != guard_byte(k))
                return false;
        if (lents[i].at != out && memcmp(lents[i].held, lents[i].at, lents[i].bytes) != 0)
            return false;
    }
    return true;
}

void give_back(void)
{
    while (lent_count > 0) {
        struct lent *l = &lents[--lent_count];
        munmap(l->room, l->pages * (size_t)sysconf(_SC_PAGESIZE));
        free(l->held);
    }
}

uint32_t bits_of(float x)
{
    uint32_t bits;
    memcpy(&bits, &x, sizeof bits);
    return bits;
}

bg_drive drive(uint16_t value)
{
    bg_drive d = {value};
    return d;
}

bg_density density(uint16_t value)
{
    bg_density d = {value};
    return d;
}

bool curve_is(bg_parametric p, float g, float a, float b, float c, float d, float e, float f)
{
    return p.refusal == 0 && p.curve.g == g && p.curve.a == a && p.curve.b == b && p.curve.c == c && p.curve.d == d &&
           p.curve.e == e && p.curve.f == f;
}

bool curve_refused(bg_parametric p, uint32_t refusal)
{
    static const bg_curve none;
    return p.refusal == refusal && memcmp(&p.curve, &none, sizeof none) == 0;
}

void subject(const char *name, void (*run)(void))
{
    unsigned long before = expected, failed_before = failed;
    run();
    give_back();
    if (expected == before)
        failed++;
    printf("face: %s: %lu expectations, %lu failed\n", name, expected - before, failed - failed_before);
}

/* Every subject, and whether its calls work in floats, so that they need the default floating-point environment. */
static const struct {
    const char *name;
    void (*run)(void);
    bool floats;
} subjects[] = {
    {"looking up", lookups, false},
    {"working on a curve", curves, false},
    {"taking nudges back", logs, false},
    {"from density back to drive", inverses, false},
    {"moxcms's own inverse", ported_inverses, true},
    {"floats", floats, true},
    {"numbers rounded to float", rounded, false},
    {"parametric curves", parametrics, true},
    {"verdicts", verdicts, false},
    {"the house curve", house_curve, false},
    {"gamma curves", powers, false},
    {"curv tags", curv_tags, false},
    {"para tags", para_tags, false},
    {"para tags as curves", para_curves, true},
    {"the version", version, false},
    {"the refusals' texts", refusals, false},
};
enum { SUBJECTS = sizeof subjects / sizeof *subjects };

void run_all(bool floats)
{
    for (size_t i = 0; i < SUBJECTS; i++)
        if (subjects[i].floats == floats)
            subjects[i].run();
}

static void by_hand(void)
{
    for (size_t i = 0; i < SUBJECTS; i++)
        subject(subjects[i].name, subjects[i].run);
    environments();
}

/*
 * What is written by hand; `sweeps NUMBERS`, so many of each class; `gammas EXPONENTS`, so many beside the telling
 * ones; or `random CALLS SEED`.
 */
int main(int argc, char **argv)
{
    setvbuf(stdout, NULL, _IOLBF, BUFSIZ);
    if (argc == 1)
        by_hand();
    else if (argc == 3 && strcmp(argv[1], "sweeps") == 0)
        sweeps(strtoul(argv[2], NULL, 10));
    else if (argc == 3 && strcmp(argv[1], "gammas") == 0)
        gammas(strtoul(argv[2], NULL, 10));
    else if (argc == 4 && strcmp(argv[1], "random") == 0)
        at_random(strtoul(argv[2], NULL, 10), strtoull(argv[3], NULL, 10));
    else
        stop("usage: tests [sweeps NUMBERS | gammas EXPONENTS | random CALLS SEED]");
    printf("face: %lu expectations, %lu failed\n", expected, failed);
    return failed == 0 ? 0 : 1;
}
