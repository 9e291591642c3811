/* The Rust's side. `called`: a loop in C around a door, as a program in another language meets it. `inlined`: the loop
   is in the Rust's own crate. */
#include "rust.h"
#include "bits.h"
#include "brassgroat.h"
#include "work.h"

static uint64_t lookup_called(const struct work *work) {
    uint64_t sum = 0;
    for (size_t i = 0; i < work->count; i++)
        sum += rust_lookup(work->table, work->n, work->asked[i]);
    return sum;
}

static uint64_t lookup_inlined(const struct work *work) {
    return rust_lookup_loop(work->table, work->n, work->asked, work->count);
}

static uint64_t row_called(const struct work *work) {
    for (size_t i = 0; i < work->count; i++)
        work->out[i] = rust_lookup(work->table, work->n, work->asked[i]);
    return 0;
}

static uint64_t row_inlined(const struct work *work) {
    rust_lookup_row(work->table, work->n, work->asked, work->count, work->out);
    return 0;
}

static uint64_t row_near(const struct work *work) {
    rust_lookup_row(work->table, work->n, work->asked_near, work->count, work->out);
    return 0;
}

static uint64_t bake(const struct work *work) {
    for (size_t i = 0; i < work->count; i++)
        rust_bake(work->table, work->n, work->out);
    return 0;
}

static uint64_t inverse_called(const struct work *work) {
    uint64_t sum = 0;
    for (size_t i = 0; i < work->count; i++)
        sum += rust_inverse(work->table, work->n, work->asked[i]);
    return sum;
}

static uint64_t inverse_inlined(const struct work *work) {
    return rust_inverse_loop(work->table, work->n, work->asked, work->count);
}

static uint64_t inverse_row(const struct work *work) {
    rust_inverse_row(work->table, work->n, work->asked, work->count, work->out_wide);
    return 0;
}

static uint64_t invert(const struct work *work) {
    for (size_t i = 0; i < work->count; i++)
        rust_invert_lut(work->table, work->n, work->out, INVERTED);
    return 0;
}

static uint64_t read(const struct work *work) {
    for (size_t i = 0; i < work->count; i++)
        rust_read(work->tag, work->out, work->n);
    return 0;
}

static uint64_t write(const struct work *work) {
    uint64_t failed = 0;
    for (size_t i = 0; i < work->count; i++)
        failed += !rust_write(work->rust_tag);
    return failed;
}

static uint64_t in_order(const struct work *work) {
    uint64_t refused = 0;
    for (size_t i = 0; i < work->count; i++)
        refused += rust_in_order(work->table, work->n) ? BG_DONE : BG_NOT_NONDECREASING;
    return refused;
}

static uint64_t is_sorted(const struct work *work) {
    uint64_t refused = 0;
    for (size_t i = 0; i < work->count; i++)
        refused += rust_is_sorted(work->table, work->n) ? BG_DONE : BG_NOT_NONDECREASING;
    return refused;
}

static uint64_t real_called(const struct work *work) {
    uint64_t sum = 0;
    for (size_t i = 0; i < work->count; i++)
        sum += bits(rust_float(work->floats, work->n, work->asked_f32[i]));
    return sum;
}

static uint64_t real_inlined(const struct work *work) {
    return rust_float_loop(work->floats, work->n, work->asked_f32, work->count);
}

static uint64_t linear_called(const struct work *work) {
    uint64_t sum = 0;
    for (size_t i = 0; i < work->count; i++)
        sum += bits(rust_linear(work->table, work->n, work->asked_f64[i]));
    return sum;
}

static uint64_t linear_inlined(const struct work *work) {
    return rust_linear_loop(work->table, work->n, work->asked_f64, work->count);
}

const struct side rust_sides[] = {
    {"lookup", "called", true, lookup_called},
    {"lookup", "inlined", true, lookup_inlined},
    {"row", "called", true, row_called},
    {"row", "inlined", true, row_inlined},
    {"bake", "inlined", true, bake},
    {"baked-row", "inlined", true, row_inlined},
    {"baked-row-near", "inlined", true, row_near},
    {"least", "called", false, inverse_called},
    {"least-row", "inlined", false, inverse_row},
    {"inverse", "called", true, inverse_called},
    {"inverse", "inlined", true, inverse_inlined},
    {"invert", "inlined", true, invert},
    {"read", "inlined", true, read},
    {"write", "inlined", true, write},
    {"accept", "inlined", true, in_order},
    {"accept", "sorted", true, is_sorted},
    {"float", "called", true, real_called},
    {"float", "inlined", true, real_inlined},
    {"linear", "called", true, linear_called},
    {"linear", "inlined", true, linear_inlined},
    {0},
};

void rust_prepare(struct work *work) {
    work->rust_tag = rust_tag(work->table, work->n);
}

void rust_settle(struct work *work) {
    rust_written(work->rust_tag, work->out_tag);
}
