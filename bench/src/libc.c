/* The C library's side: gamma curves by its pow, on the same exponents and drives. Its answers are its own. */
#include "work.h"

#include <math.h>

static const double EXPONENT_AS_REAL = EXPONENT / 65536.0, GAMMA_AS_REAL = GAMMA_ENTRY / 256.0;

uint16_t libc_value(uint16_t x, double gamma) {
    return (uint16_t)(int)(65535.0 * pow(x / 65535.0, gamma) + 0.5);
}

static uint64_t values(const struct work *work, double gamma) {
    uint64_t sum = 0;
    for (size_t i = 0; i < work->count; i++)
        sum += libc_value(work->asked[i], gamma);
    return sum;
}

static uint64_t tables(const struct work *work, double gamma) {
    for (size_t i = 0; i < work->count; i++)
        for (size_t entry = 0; entry < work->n; entry++)
            work->out[entry] = libc_value(work->straight[entry], gamma);
    return 0;
}

static uint64_t power(const struct work *work) { return values(work, EXPONENT_AS_REAL); }
static uint64_t tag_power(const struct work *work) { return values(work, GAMMA_AS_REAL); }
static uint64_t power_table(const struct work *work) { return tables(work, EXPONENT_AS_REAL); }
static uint64_t tag_power_table(const struct work *work) { return tables(work, GAMMA_AS_REAL); }

const struct side libc_sides[] = {
    {"power", "libc", false, power},
    {"tag-power", "libc", false, tag_power},
    {"power-table", "libc", false, power_table},
    {"tag-power-table", "libc", false, tag_power_table},
    {0},
};
