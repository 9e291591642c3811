/* The doors of bench/src/rust. */
#ifndef RUST_H
#define RUST_H

#include <stdbool.h>
#include <stddef.h>
#include <stdint.h>

uint16_t rust_lookup(const uint16_t *table, size_t n, uint16_t position);
uint64_t rust_lookup_loop(const uint16_t *table, size_t n, const uint16_t *asked, size_t count);
void rust_lookup_row(const uint16_t *table, size_t n, const uint16_t *asked, size_t count, uint16_t *out);
void rust_bake(const uint16_t *table, size_t n, uint16_t *out);
uint16_t rust_inverse(const uint16_t *table, size_t n, uint16_t value);
uint64_t rust_inverse_loop(const uint16_t *table, size_t n, const uint16_t *asked, size_t count);
void rust_inverse_row(const uint16_t *table, size_t n, const uint16_t *asked, size_t count, uint32_t *out);
void rust_invert_lut(const uint16_t *table, size_t n, uint16_t *out, size_t length);
float rust_float(const float *table, size_t n, float x);
uint64_t rust_float_loop(const float *table, size_t n, const float *asked, size_t count);
float rust_linear(const uint16_t *table, size_t n, double x);
uint64_t rust_linear_loop(const uint16_t *table, size_t n, const double *asked, size_t count);
void *rust_tag(const uint16_t *table, size_t n);
bool rust_write(void *tag);
void rust_written(const void *tag, uint8_t *out);
bool rust_in_order(const uint16_t *table, size_t n);
bool rust_is_sorted(const uint16_t *table, size_t n);
void rust_read(const uint8_t *tag, uint16_t *out, size_t n);

#endif
