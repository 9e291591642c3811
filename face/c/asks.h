/*
 * Each export asked with any input and held to the reference: what it answers, what it writes, and that it touches
 * nothing else. A difference is printed with the export, its input and both answers.
 */
#ifndef ASKS_H
#define ASKS_H

#include "check.h"

/* The exports, each with the numbers that it may give: 0, granted, and its refusals. */
#define EXPORTS(X) \
    X(version, 1 << 0) \
    X(lut_interp_linear16, 1 << 0 | 1 << 1) \
    X(lut_interp_linear16_row, 1 << 0 | 1 << 1 | 1 << 6) \
    X(bake, 1 << 0 | 1 << 1 | 1 << 6) \
    X(lut_interp_linear_gamma_impl, 1 << 0 | 1 << 1 | 1 << 12 | 1 << 3) \
    X(start, 1 << 0 | 1 << 1) \
    X(accept, 1 << 0 | 1 << 1 | 1 << 2) \
    X(nudge, 1 << 0 | 1 << 1 | 1 << 3 | 1 << 2 | 1 << 4) \
    X(log_start, 1 << 0 | 1 << 1) \
    X(log_accept, 1 << 0 | 1 << 1 | 1 << 2) \
    X(log_nudge, 1 << 0 | 1 << 1 | 1 << 17 | 1 << 3 | 1 << 2 | 1 << 4 | 1 << 15) \
    X(take_back, 1 << 0 | 1 << 1 | 1 << 2 | 1 << 17 | 1 << 16) \
    X(least_input, 1 << 0 | 1 << 1 | 1 << 2 | 1 << 5) \
    X(least_input_row, 1 << 0 | 1 << 1 | 1 << 6 | 1 << 2) \
    X(lut_inverse_interp16, 1 << 0 | 1 << 1) \
    X(invert_lut, 1 << 0 | 1 << 1 | 1 << 12) \
    X(lut_interp_linear_float, 1 << 0 | 1 << 1) \
    X(lut_interp_linear, 1 << 0 | 1 << 1 | 1 << 13) \
    X(passthrough_table_impl, 1 << 0 | 1 << 12) \
    X(nearest_f64_to_f32, 1 << 0) \
    X(u8_fixed_8number_to_float, 1 << 0) \
    X(s15_fixed16_number_to_float, 1 << 0) \
    X(parametric_curve_new, 1 << 0 | 1 << 7) \
    X(compare_parametric, 1 << 0) \
    X(is_curve_monotonic, 1 << 0 | 1 << 1) \
    X(is_curve_degenerated, 1 << 0 | 1 << 1) \
    X(house_entry, 1 << 0 | 1 << 3) \
    X(house_fill, 1 << 0 | 1 << 6) \
    X(power, 1 << 0 | 1 << 18) \
    X(power_table, 1 << 0 | 1 << 1 | 1 << 18 | 1 << 6) \
    X(tag_power, 1 << 0 | 1 << 18) \
    X(tag_power_table, 1 << 0 | 1 << 1 | 1 << 18 | 1 << 6) \
    X(curv_count, 1 << 0 | 1 << 8 | 1 << 9 | 1 << 10 | 1 << 1) \
    X(curv_read, 1 << 0 | 1 << 8 | 1 << 9 | 1 << 10 | 1 << 1 | 1 << 6) \
    X(curv_part, 1 << 0 | 1 << 8 | 1 << 9 | 1 << 10 | 1 << 1) \
    X(curv_write, 1 << 0 | 1 << 1 | 1 << 6) \
    X(para_read, 1 << 0 | 1 << 8 | 1 << 9 | 1 << 10 | 1 << 11) \
    X(para_curve, 1 << 0 | 1 << 8 | 1 << 9 | 1 << 10 | 1 << 11) \
    X(para_write, 1 << 0 | 1 << 11 | 1 << 6)

#define AS_ID(name, numbers) ASK_##name,
enum export { EXPORTS(AS_ID) ASK_COUNT };

/* A generator that runs through every word but 0, and a number below a limit from it. */
void seed(uint64_t from);
uint64_t word(void);
size_t below(size_t limit);

/*
 * The rooms to lend from, each between two shut pages: for short inputs and outputs, and for as many as a million
 * elements. Each is mapped twice: by `write` it is filled, and `read`, where nothing can be written, is what a call is
 * lent that should only read.
 */
enum place { FIRST, SECOND, OUT, LOG, COUNT, LONG_FIRST, LONG_SECOND, LONG_FLOATS, LONG_OUT, PLACES };
enum { LONGEST = 1 << 20 };

/* A buffer lent from a room: `count` elements of `size` bytes. */
typedef struct {
    unsigned char *write;
    const unsigned char *read;
    size_t count, size;
    enum place place;
} buffer;

/* A table, the BG_LOG_PLACES records of its log, and the one number that says how many of them stand. */
typedef struct {
    buffer table, log, count;
} logged;

/*
 * Lends what stands in the room. It begins where the room does or ends where it does, or up to 31 elements from there,
 * as the generator has it. Nothing is lent as a null pointer, or as a pointer to a byte that cannot be read.
 */
buffer lent(enum place place, size_t count, size_t size);

/* The same, of the place for short buffers or of the one for long ones. */
buffer lent_by_length(enum place brief, enum place lengthy, size_t count, size_t size);

/* Lends the records and the count of a log, whatever stands in their rooms, beside a table. */
logged lent_beside(buffer table);

/* Lends 2^32 and `more` elements that begin with the bytes given. All others are 0, and none can be written. */
buffer lent_vast(size_t more, size_t size, const void *first, size_t first_bytes);

/* Makes the rooms, each full of any bytes, and has a fault printed with the call that made it. */
void open_rooms(void);

/*
 * One question of each export. A refused call is lent its output read-only; so is the log of every call that writes no
 * record.
 */
void ask_version(void);
void ask_lut_interp_linear16(buffer table, uint16_t position);
void ask_lut_interp_linear16_row(buffer table, buffer positions, buffer out);
void ask_bake(buffer table, buffer out);
void ask_lut_interp_linear_gamma_impl(buffer table, size_t inputs, size_t depth, size_t input);
void ask_start(buffer table);
void ask_accept(buffer table);
void ask_nudge(buffer table, size_t index, uint16_t density);
void ask_log_start(logged l);
void ask_log_accept(logged l);
void ask_log_nudge(logged l, size_t index, uint16_t density);
void ask_take_back(logged l);
void ask_least_input(buffer table, uint16_t density);
void ask_least_input_row(buffer table, buffer densities, buffer out);
void ask_lut_inverse_interp16(buffer table, uint16_t density);
void ask_invert_lut(buffer table, buffer out);
void ask_lut_interp_linear_float(buffer table, float x);
void ask_lut_interp_linear(buffer table, double x);
void ask_passthrough_table_impl(buffer out);
void ask_nearest_f64_to_f32(double x);
void ask_u8_fixed_8number_to_float(uint16_t x);
void ask_s15_fixed16_number_to_float(int32_t x);
void ask_parametric_curve_new(buffer params);
void ask_compare_parametric(buffer src, buffer dst);
void ask_is_curve_monotonic(buffer table, bool rising);
void ask_is_curve_degenerated(buffer table);
void ask_house_entry(size_t index);
void ask_house_fill(buffer out);
void ask_power(uint16_t x, uint64_t exponent);
void ask_power_table(buffer out, size_t n, uint64_t exponent);
void ask_tag_power(uint16_t x, uint16_t gamma);
void ask_tag_power_table(buffer out, size_t n, uint16_t gamma);
void ask_curv_count(buffer tag);
void ask_curv_read(buffer tag, buffer out);
void ask_curv_part(buffer tag);
void ask_curv_write(buffer table, buffer out);
void ask_para_read(buffer tag);
void ask_para_curve(buffer tag);
void ask_para_write(size_t function_type, const int32_t *raw, buffer out);

/* Says that the calls from here on are made elsewhere, so that no question is shown where one of them faults. */
void end_of_questions(void);

/* How often each export was asked, and which numbers it should have given. */
extern unsigned long asked[ASK_COUNT];
extern unsigned given[ASK_COUNT];
extern const char *const export_names[ASK_COUNT];
extern const unsigned may_give[ASK_COUNT];

/* The sweeps, with so many numbers of each class to be rounded; and so many calls at random, from a seed. */
void sweeps(unsigned long numbers);
void at_random(unsigned long calls, uint64_t from);

/* Gamma curves of some telling exponents, and of so many others, held to their bound by certified arithmetic. */
void gammas(unsigned long exponents);

/* Sittings with a log, of so many calls at random in all. */
void sittings(unsigned long calls);

#endif
