/*
 * What every export should answer: the rules of documents 01 and 02 in plain C, written from those documents and ICC.1
 * alone. One exception: document 02 allows several values for a gamma curve, and the one here is the library's own
 * definition. Each function takes what its export takes. A granted one writes its output; a refused one leaves it.
 */
#ifndef REFERENCE_H
#define REFERENCE_H

#include "../../include/brassgroat.h"

uint32_t ref_version(void);

bg_sample ref_lut_interp_linear16(const uint16_t *table, size_t n, bg_drive position);
uint32_t ref_lut_interp_linear16_row(const uint16_t *table, size_t n, const uint16_t *positions, size_t positions_len,
                                     uint16_t *out, size_t out_len);
uint32_t ref_bake(const uint16_t *table, size_t n, uint16_t *out, size_t out_len);
bg_code ref_lut_interp_linear_gamma_impl(const uint16_t *table, size_t n, size_t inputs, size_t depth, size_t input);

uint32_t ref_start(uint16_t *table, size_t n);
uint32_t ref_accept(const uint16_t *table, size_t n);
uint32_t ref_nudge(uint16_t *table, size_t n, size_t index, bg_density density);

uint32_t ref_log_start(uint16_t *table, size_t n, bg_record *log, size_t *count);
uint32_t ref_log_accept(const uint16_t *table, size_t n, bg_record *log, size_t *count);
uint32_t ref_log_nudge(uint16_t *table, size_t n, bg_record *log, size_t *count, size_t index, bg_density density);
uint32_t ref_take_back(uint16_t *table, size_t n, bg_record *log, size_t *count);

bg_position ref_least_input(const uint16_t *table, size_t n, bg_density density);
uint32_t ref_least_input_row(const uint16_t *table, size_t n, const uint16_t *densities, size_t densities_len,
                             uint32_t *out, size_t out_len);
bg_position ref_lut_inverse_interp16(const uint16_t *table, size_t n, bg_density density);
uint32_t ref_invert_lut(const uint16_t *table, size_t n, uint16_t *out, size_t out_len);

bg_real ref_lut_interp_linear_float(const float *table, size_t n, float x);
bg_real ref_lut_interp_linear(const uint16_t *table, size_t n, double x);
uint32_t ref_passthrough_table_impl(float *out, size_t out_len);
float ref_nearest_f64_to_f32(double x);
float ref_u8_fixed_8number_to_float(uint16_t x);
float ref_s15_fixed16_number_to_float(int32_t x);

bg_parametric ref_parametric_curve_new(const float *params, size_t n);
bool ref_compare_parametric(const float *src, size_t src_len, const float *dst, size_t dst_len);

bg_monotony ref_is_curve_monotonic(const uint16_t *table, size_t n, bool rising);
bg_degeneration ref_is_curve_degenerated(const uint16_t *table, size_t n);

bg_sample ref_house_entry(size_t index);
uint32_t ref_house_fill(uint16_t *out, size_t out_len);

bg_sample ref_power(bg_drive x, uint64_t exponent);
uint32_t ref_power_table(uint16_t *out, size_t out_len, size_t n, uint64_t exponent);
bg_sample ref_tag_power(bg_drive x, uint16_t gamma);
uint32_t ref_tag_power_table(uint16_t *out, size_t out_len, size_t n, uint16_t gamma);

bg_count ref_curv_count(const uint8_t *tag, size_t n);
uint32_t ref_curv_read(const uint8_t *tag, size_t n, uint16_t *out, size_t out_len);
bg_part ref_curv_part(const uint8_t *tag, size_t n);
uint32_t ref_curv_write(const uint16_t *table, size_t n, uint8_t *out, size_t out_len);
bg_para ref_para_read(const uint8_t *tag, size_t n);
bg_parametric ref_para_curve(const uint8_t *tag, size_t n);
uint32_t ref_para_write(size_t function_type, bg_raw numbers, uint8_t *out, size_t out_len);

#endif
