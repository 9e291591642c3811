/*
 * Gamma curves held to document 02's bound, (iv). With N = 65536 and M = 65535, for every x from 0 to M:
 *
 *     (n-1)^N * M^p <= x^p * M^N <= (n+1)^N * M^p        (n-1 is 0 for an n of 0)
 *
 * The table of 65,536 entries has the value at each x. It is asked for and held entry by entry, and besides to its ends
 * and to never falling.
 *
 * The powers are compared by logarithms: N ln(n-1) + p ln M <= p ln x + N ln M <= N ln(n+1) + p ln M. Each logarithm is
 * a pair of whole numbers that it lies between, in 96 binary places, and so is each sum of them. Where two pairs
 * overlap, nothing is decided, which counts as failed. Nothing here is worked as the library works it.
 *
 * Enough places decide every one: but for x = 0, which needs no logarithm, two sides are equal only where p is N and
 * n-1 or n+1 is x, or where x is M and n-1 or n+1 is M. For M = 3 * 5 * 17 * 257 has no square in it, and an x between
 * 0 and M lacks one of these factors, so of that factor the two sides have different powers.
 *
 * face/test tries few exponents beside the telling ones. `face/test 300000 1 200000 300` tries some hundreds.
 */
#include "asks.h"

#include <stdio.h>

__extension__ typedef unsigned __int128 wide;

enum { PLACES_OF_LOG = 96, N = 65536, M = 65535 };

/* What a number, times 2^96, is neither below nor above. */
struct bounds {
    wide low, high;
};

/* The natural logarithms of 1 to 65,536. */
static struct bounds logs_of[N + 1];

/*
 * ln(k+1) - ln(k) is twice the sum of 1 / (d q^d) over the odd d, with q = 2k + 1. Each term is cut to a whole number
 * once, since cutting a cut quotient again is cutting by the product; so it is too low by less than 1. The terms that
 * are left out, from the first on whose 2^97 / q^d is below 1, come to less than 1/3 * (1 + 1/9 + 1/81 + ..) < 1.
 */
static void make_logs(void)
{
    for (wide k = 1; k < N; k++) {
        wide q = 2 * k + 1, sum = 0, terms = 0, d = 1;
        for (wide power = ((wide)1 << (PLACES_OF_LOG + 1)) / q; power > 0; power /= q * q) {
            sum += power / d;
            d += 2;
            terms++;
        }
        logs_of[k + 1].low = logs_of[k].low + sum;
        logs_of[k + 1].high = logs_of[k].high + sum + terms + 1;
    }
}

/* a ln k + b ln m. With factors of at most 2^18 it is below 2^119. */
static struct bounds sum_of(uint64_t a, size_t k, uint64_t b, size_t m)
{
    return (struct bounds){a * logs_of[k].low + b * logs_of[m].low, a * logs_of[k].high + b * logs_of[m].high};
}

enum verdict { HOLDS, FAILS, UNDECIDED };

static enum verdict at_most(struct bounds left, struct bounds right)
{
    return left.high <= right.low ? HOLDS : left.low > right.high ? FAILS : UNDECIDED;
}

/* Whether n is within one of the curve at x. */
static enum verdict is_near(uint64_t p, size_t x, size_t n)
{
    struct bounds power = sum_of(p, x, N, M);
    enum verdict low, high;
    if (x == 0)
        return n <= 1 ? HOLDS : FAILS;
    low = n <= 1 ? HOLDS : at_most(sum_of(N, n - 1, p, M), power);
    high = at_most(power, sum_of(N, n + 1, p, M));
    return low == FAILS || high == FAILS ? FAILS : low == UNDECIDED || high == UNDECIDED ? UNDECIDED : HOLDS;
}

/*
 * The logarithms themselves: those of products are the sums, powers of small numbers stand in the order that they
 * have, all bounds are close, and the bound is seen to fail, to hold, and to be left open.
 */
static void logarithms(void)
{
    bool products = true, close = true;
    for (size_t a = 1; a <= 256; a++)
        for (size_t b = 1; b <= 256; b++) {
            struct bounds sum = sum_of(1, a, 1, b), product = logs_of[a * b];
            products = products && sum.low <= product.high && product.low <= sum.high;
        }
    for (size_t k = 1; k <= N; k++)
        close = close && logs_of[k].high - logs_of[k].low < (wide)1 << 20;
    EXPECT(products);
    EXPECT(close);
    EXPECT(logs_of[1].low == 0 && logs_of[1].high == 0);
    /* 2^10 is above 10^3, 3^12 above 2^19, 3^53 above 2^84, and 65536^2 is above 65535 * 65536 */
    EXPECT(at_most(sum_of(3, 10, 0, 1), sum_of(10, 2, 0, 1)) == HOLDS);
    EXPECT(at_most(sum_of(12, 3, 0, 1), sum_of(19, 2, 0, 1)) == FAILS);
    EXPECT(at_most(sum_of(84, 2, 0, 1), sum_of(53, 3, 0, 1)) == HOLDS);
    EXPECT(at_most(sum_of(2, 65536, 0, 1), sum_of(1, 65535, 1, 65536)) == FAILS);
    /* at p = N the curve is x: next to it the bound holds with both sides equal, and further off it fails */
    EXPECT(is_near(N, 1000, 1000) == HOLDS);
    EXPECT(is_near(N, 1000, 999) == UNDECIDED && is_near(N, 1000, 1001) == UNDECIDED);
    EXPECT(is_near(N, 1000, 998) == FAILS && is_near(N, 1000, 1002) == FAILS);
    /* at p = 2N it is x^2 / 65535, for 1000 between 15 and 16 */
    EXPECT(is_near(2 * N, 1000, 15) == HOLDS && is_near(2 * N, 1000, 16) == HOLDS);
    EXPECT(is_near(2 * N, 1000, 14) == FAILS && is_near(2 * N, 1000, 17) == FAILS);
    EXPECT(is_near(1, 0, 0) == HOLDS && is_near(1, 0, 1) == HOLDS && is_near(1, 0, 2) == FAILS);
}

static unsigned long answers, undecided;

static void hold_entry(uint64_t p, size_t x, size_t n)
{
    static unsigned shown;
    enum verdict verdict = is_near(p, x, n);
    answers++;
    undecided += verdict == UNDECIDED;
    tally(verdict == HOLDS);
    if (verdict != HOLDS && ++shown <= 5)
        printf("face: the curve of %lu/65536 at %zu is %zu, which should be within one of it, and %s\n",
               (unsigned long)p, x, n, verdict == FAILS ? "is not" : "is not decided");
}

static void hold_curve(uint64_t p)
{
    uint16_t *table = LEND(uint16_t, N);
    bool falls = false;
    GRANTED(table, bg_power_table(table, N, N, p));
    for (size_t x = 0; x < N; x++) {
        hold_entry(p, x, table[x]);
        falls = falls || (x > 0 && table[x] < table[x - 1]);
    }
    EXPECT(!falls);
    EXPECT(table[0] == 0 && table[M] == M);
    give_back();
}

static unsigned long more_exponents;

static void each_curve(void)
{
    static const uint32_t telling[] = {1, 65535, 65536, 65537, 131072, 144128, 163840, 262144};
    for (size_t i = 0; i < sizeof telling / sizeof *telling; i++)
        hold_curve(telling[i]);
    /* half of them any, and half with few binary digits or many, so that small ones are met too */
    for (unsigned long i = 0; i < more_exponents; i++) {
        size_t digits = below(19), p = 1 + below((size_t)1 << (i % 2 == 0 ? 18 : digits));
        hold_curve(p);
    }
}

void gammas(unsigned long exponents)
{
    more_exponents = exponents;
    seed(1);
    make_logs();
    subject("logarithms between bounds", logarithms);
    subject("gamma curves within their bound", each_curve);
    printf("face: %lu answers of gamma curves, of which %lu are not decided\n", answers, undecided);
}
