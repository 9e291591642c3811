/* Our side: each call of the library as a C program makes it, in a loop where it is a single one. */
#include "brassgroat.h"
#include "bits.h"
#include "work.h"

/* What such a loop costs by itself, a call and a return included. */
static uint64_t loop(const struct work *work) {
    uint64_t sum = 0;
    for (size_t i = 0; i < work->count; i++)
        sum += same(work->table, work->n, work->asked[i]);
    return sum;
}

static uint64_t lookup(const struct work *work) {
    uint64_t sum = 0;
    for (size_t i = 0; i < work->count; i++)
        sum += bg_lut_interp_linear16(work->table, work->n, (bg_drive){work->asked[i]}).density.value;
    return sum;
}

static uint64_t row(const struct work *work) {
    return bg_lut_interp_linear16_row(work->table, work->n, work->asked, work->count, work->out, work->count);
}

static uint64_t bake(const struct work *work) {
    uint64_t sum = 0;
    for (size_t i = 0; i < work->count; i++)
        sum += bg_bake(work->table, work->n, work->out, POSITIONS);
    return sum;
}

static uint64_t baked_row(const struct work *work) {
    return bg_lut_interp_linear16_row(work->baked, POSITIONS, work->asked, work->count, work->out, work->count);
}

static uint64_t baked_row_near(const struct work *work) {
    return bg_lut_interp_linear16_row(work->baked, POSITIONS, work->asked_near, work->count, work->out, work->count);
}

/* A row of one position is what a row call takes before its first answer, and one answer. */
static uint64_t row_of_one(const struct work *work) {
    uint64_t sum = 0;
    for (size_t i = 0; i < work->count; i++)
        sum += bg_lut_interp_linear16_row(work->table, work->n, &work->asked[i], 1, work->out, 1);
    return sum;
}

static uint64_t least(const struct work *work) {
    uint64_t sum = 0;
    for (size_t i = 0; i < work->count; i++)
        sum += bg_least_input(work->table, work->n, (bg_density){work->asked[i]}).drive.value;
    return sum;
}

static uint64_t least_row(const struct work *work) {
    return bg_least_input_row(work->table, work->n, work->asked, work->count, work->out_wide, work->count);
}

static uint64_t least_row_of_one(const struct work *work) {
    uint64_t sum = 0;
    for (size_t i = 0; i < work->count; i++)
        sum += bg_least_input_row(work->table, work->n, &work->asked[i], 1, work->out_wide, 1);
    return sum;
}

static uint64_t inverse(const struct work *work) {
    uint64_t sum = 0;
    for (size_t i = 0; i < work->count; i++)
        sum += bg_lut_inverse_interp16(work->table, work->n, (bg_density){work->asked[i]}).drive.value;
    return sum;
}

static uint64_t invert(const struct work *work) {
    uint64_t sum = 0;
    for (size_t i = 0; i < work->count; i++)
        sum += bg_invert_lut(work->table, work->n, work->out, INVERTED);
    return sum;
}

static uint64_t read(const struct work *work) {
    uint64_t sum = 0;
    for (size_t i = 0; i < work->count; i++)
        sum += bg_curv_read(work->tag, TAG_HEAD + 2 * work->n, work->out, work->n);
    return sum;
}

static uint64_t write(const struct work *work) {
    uint64_t sum = 0;
    for (size_t i = 0; i < work->count; i++)
        sum += bg_curv_write(work->table, work->n, work->out_tag, TAG_HEAD + 2 * work->n);
    return sum;
}

static uint64_t accept(const struct work *work) {
    uint64_t sum = 0;
    for (size_t i = 0; i < work->count; i++)
        sum += bg_accept(work->table, work->n);
    return sum;
}

/* Each nudge sets an entry to what it is: granted, and the next nudge finds the same curve. */
static uint64_t nudge(const struct work *work) {
    uint64_t sum = 0;
    for (size_t i = 0; i < work->count; i++) {
        size_t at = work->asked[i] % work->n;
        sum += bg_nudge(work->table, work->n, at, (bg_density){work->table[at]});
    }
    return sum;
}

/* The same nudges, logged from an empty log on: each record is written as it stands there. */
static uint64_t log_nudge(const struct work *work) {
    uint64_t sum = 0;
    size_t standing = 0;
    for (size_t i = 0; i < work->count; i++) {
        size_t at = work->asked[i] % work->n;
        sum += bg_log_nudge(work->table, work->n, work->log, &standing, at, (bg_density){work->table[at]});
    }
    return sum;
}

/* From the full log down. A take-back writes no record, so that the next run finds the same log. */
static uint64_t take_back(const struct work *work) {
    uint64_t sum = 0;
    size_t standing = BG_LOG_PLACES;
    for (size_t i = 0; i < work->count; i++)
        sum += bg_take_back(work->table, work->n, work->log, &standing);
    return sum;
}

static uint64_t real(const struct work *work) {
    uint64_t sum = 0;
    for (size_t i = 0; i < work->count; i++)
        sum += bits(bg_lut_interp_linear_float(work->floats, work->n, work->asked_f32[i]).value);
    return sum;
}

static uint64_t linear(const struct work *work) {
    uint64_t sum = 0;
    for (size_t i = 0; i < work->count; i++)
        sum += bits(bg_lut_interp_linear(work->table, work->n, work->asked_f64[i]).value);
    return sum;
}

static uint64_t power(const struct work *work) {
    uint64_t sum = 0;
    for (size_t i = 0; i < work->count; i++)
        sum += bg_power((bg_drive){work->asked[i]}, EXPONENT).density.value;
    return sum;
}

static uint64_t tag_power(const struct work *work) {
    uint64_t sum = 0;
    for (size_t i = 0; i < work->count; i++)
        sum += bg_tag_power((bg_drive){work->asked[i]}, GAMMA_ENTRY).density.value;
    return sum;
}

static uint64_t power_table(const struct work *work) {
    uint64_t sum = 0;
    for (size_t i = 0; i < work->count; i++)
        sum += bg_power_table(work->out, work->n, work->n, EXPONENT);
    return sum;
}

static uint64_t tag_power_table(const struct work *work) {
    uint64_t sum = 0;
    for (size_t i = 0; i < work->count; i++)
        sum += bg_tag_power_table(work->out, work->n, work->n, GAMMA_ENTRY);
    return sum;
}

const struct side our_sides[] = {
    {"loop", "ours", true, loop},
    {"lookup", "ours", true, lookup},
    {"row", "ours", true, row},
    {"bake", "ours", true, bake},
    {"baked-row", "ours", true, baked_row},
    {"baked-row-near", "ours", true, baked_row_near},
    {"least", "ours", true, least},
    {"least-row", "ours", true, least_row},
    {"inverse", "ours", true, inverse},
    {"invert", "ours", true, invert},
    {"read", "ours", true, read},
    {"write", "ours", true, write},
    {"accept", "ours", true, accept},
    {"nudge", "ours", true, nudge},
    {"log-nudge", "ours", true, log_nudge},
    {"take-back", "ours", true, take_back},
    {"float", "ours", true, real},
    {"linear", "ours", true, linear},
    {"row-of-one", "ours", true, row_of_one},
    {"least-row-of-one", "ours", true, least_row_of_one},
    {"power", "ours", true, power},
    {"tag-power", "ours", true, tag_power},
    {"power-table", "ours", true, power_table},
    {"tag-power-table", "ours", true, tag_power_table},
    {0},
};
