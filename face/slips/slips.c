/*
 * Wrong exports, one at a time: the linker puts each of these before the archive's own (--wrap), and the environment
 * variable SLIP names the one that is to be wrong. All others hand their input on.
 */
#include "../../include/brassgroat.h"

#include <stdlib.h>
#include <string.h>

/* Whether this slip is made. The script `try` finds the slips by this word. */
#define SLIP(name) is(name)

static bool is(const char *name)
{
    static const char *made;
    if (made == NULL)
        made = getenv("SLIP") == NULL ? "" : getenv("SLIP");
    return strcmp(made, name) == 0;
}

static size_t big_endian(const uint8_t *from, size_t bytes)
{
    size_t x = 0;
    for (size_t i = 0; i < bytes; i++)
        x = x << 8 | from[i];
    return x;
}

/* The sum of some bytes, cut to a byte, as a careless test of them has it. */
static uint8_t added_up(const void *from, size_t bytes)
{
    uint8_t sum = 0;
    for (size_t i = 0; i < bytes; i++)
        sum = (uint8_t)(sum + ((const uint8_t *)from)[i]);
    return sum;
}

static float float_of(uint32_t bits)
{
    float x;
    memcpy(&x, &bits, sizeof x);
    return x;
}

static uint32_t bits_of_float(float x)
{
    uint32_t bits;
    memcpy(&bits, &x, sizeof bits);
    return bits;
}

/* ---- curv tags ---- */

bg_count __real_bg_curv_count(const uint8_t *tag, size_t n);
bg_count __wrap_bg_curv_count(const uint8_t *tag, size_t n)
{
    bg_count c = __real_bg_curv_count(tag, n);
    uint8_t copy[16] = "curv";
    if (n >= 12 && n <= 16)
        memcpy(copy + 8, tag + 8, n - 8);
    if (SLIP("bg_curv_count: the signature's bytes are added up") && c.refusal == 9 && n <= 16 &&
        added_up(tag, 4) == added_up("curv", 4) && big_endian(tag + 4, 4) == 0)
        return __real_bg_curv_count(copy, n);
    if (SLIP("bg_curv_count: the reserved bytes are added up") && c.refusal == 10 && n <= 16 &&
        added_up(tag + 4, 4) == 0)
        return __real_bg_curv_count(copy, n);
    if (SLIP("bg_curv_count: a byte before the tag is read") && n > 0 && ((volatile const uint8_t *)tag)[-1] == 1)
        return (bg_count){1, 0};
    if (SLIP("bg_curv_count: the last reserved byte is not tested") && c.refusal == 10 && big_endian(tag + 4, 3) == 0 &&
        n == 12 + 2 * big_endian(tag + 8, 4))
        return (bg_count){0, big_endian(tag + 8, 4)};
    if (SLIP("bg_curv_count: the total is not tested") && c.refusal == 8 && n >= 12)
        return (bg_count){0, big_endian(tag + 8, 4)};
    if (SLIP("bg_curv_count: an odd byte at the end is let through") && c.refusal == 8 && n > 12)
        return __real_bg_curv_count(tag, n - 1);
    if (SLIP("bg_curv_count: a count above 65,536 is let through where the total suits it") && c.refusal == 1 &&
        n == 12 + 2 * big_endian(tag + 8, 4))
        return (bg_count){0, big_endian(tag + 8, 4)};
    if (SLIP("bg_curv_count: twice the count is worked in 32 bits") && c.refusal == 1 &&
        n == (uint32_t)(12 + 2 * (uint32_t)big_endian(tag + 8, 4)))
        return (bg_count){0, big_endian(tag + 8, 4)};
    if (SLIP("bg_curv_count: a count of 65,536 is refused") && c.entries == 65536)
        return (bg_count){1, 0};
    if (SLIP("bg_curv_count: reserved bytes are tested before the signature") && c.refusal == 9 &&
        big_endian(tag + 4, 4) != 0)
        return (bg_count){10, 0};
    if (SLIP("bg_curv_count: a refused tag's count is told") && c.refusal == 8 && n >= 12)
        return (bg_count){8, big_endian(tag + 8, 4)};
    return c;
}

uint32_t __real_bg_curv_read(const uint8_t *tag, size_t n, uint16_t *out, size_t out_len);
uint32_t __wrap_bg_curv_read(const uint8_t *tag, size_t n, uint16_t *out, size_t out_len)
{
    uint32_t r;
    if (SLIP("bg_curv_read: the output's length is tested before the tag") && out_len != (n - 12) / 2)
        return 6;
    r = __real_bg_curv_read(tag, n, out, out_len);
    for (size_t i = 0; i < out_len && r == 0; i++) {
        if (SLIP("bg_curv_read: the entries are reversed"))
            out[i] = (uint16_t)big_endian(tag + 12 + 2 * (out_len - 1 - i), 2);
        if (SLIP("bg_curv_read: the bytes of an entry are swapped"))
            out[i] = (uint16_t)(out[i] << 8 | out[i] >> 8);
    }
    if (SLIP("bg_curv_read: a refused call writes its output") && r == 6 && out_len > 0)
        out[0] = 0;
    if (SLIP("bg_curv_read: the last entry is not written") && r == 0 && out_len > 0)
        out[out_len - 1] = 0x5a5a;
    if (SLIP("bg_curv_read: one entry too many is written") && r == 0 && out_len > 0)
        out[out_len] = 0;
    if (SLIP("bg_curv_read: the entry before the output is written") && r == 0 && out_len > 0)
        out[-1] = 0;
    if (SLIP("bg_curv_read: a byte past the tag is read") && r == 0 && ((volatile const uint8_t *)tag)[n] == 1)
        return 1;
    return r;
}

bg_part __real_bg_curv_part(const uint8_t *tag, size_t n);
bg_part __wrap_bg_curv_part(const uint8_t *tag, size_t n)
{
    bg_part p = __real_bg_curv_part(tag, n);
    if (SLIP("bg_curv_part: the part is counted in entries") && p.refusal == 0)
        p.len /= 2;
    if (SLIP("bg_curv_part: a refused part begins at 12") && p.refusal != 0)
        p.start = 12;
    if (SLIP("bg_curv_part: a tag at an odd address is refused") && (uintptr_t)tag % 2 == 1 && p.refusal == 0)
        return (bg_part){8, 0, 0};
    return p;
}

uint32_t __real_bg_curv_write(const uint16_t *table, size_t n, uint8_t *out, size_t out_len);
uint32_t __wrap_bg_curv_write(const uint16_t *table, size_t n, uint8_t *out, size_t out_len)
{
    uint32_t r = __real_bg_curv_write(table, n, out, out_len);
    if (SLIP("bg_curv_write: the count is written in 16 bits") && r == 0)
        out[9] = 0;
    if (SLIP("bg_curv_write: 6 before 1") && r == 1 && out_len != 12 + 2 * n)
        return 6;
    if (SLIP("bg_curv_write: a refused call writes the signature") && r != 0 && out_len >= 4)
        memcpy(out, "curv", 4);
    return r;
}

/* ---- para tags ---- */

bg_para __real_bg_para_read(const uint8_t *tag, size_t n);
bg_para __wrap_bg_para_read(const uint8_t *tag, size_t n)
{
    bg_para p = __real_bg_para_read(tag, n);
    uint8_t copy[40];
    if (SLIP("bg_para_read: type 5 is let through") && p.refusal == 11 && n == 40 && tag[9] == 5) {
        memcpy(copy, tag, 40);
        copy[9] = 4;
        return __real_bg_para_read(copy, 40);
    }
    if (SLIP("bg_para_read: the reserved bytes after the type are not tested") && p.refusal == 10 && n <= 40) {
        memcpy(copy, tag, n);
        copy[10] = copy[11] = 0;
        return __real_bg_para_read(copy, n);
    }
    if (SLIP("bg_para_read: the reserved bytes after the type are added up") && p.refusal == 10 && n <= 40 &&
        added_up(tag + 10, 2) == 0) {
        memcpy(copy, tag, n);
        copy[10] = copy[11] = 0;
        return __real_bg_para_read(copy, n);
    }
    if (SLIP("bg_para_read: the type is tested before the reserved bytes") && p.refusal == 10 &&
        big_endian(tag + 8, 2) > 4)
        p.refusal = 11;
    if (SLIP("bg_para_read: a number is read as unsigned") && p.numbers.c < 0)
        p.numbers.c &= 0x7fffffff;
    return p;
}

bg_parametric __real_bg_para_curve(const uint8_t *tag, size_t n);
bg_parametric __wrap_bg_para_curve(const uint8_t *tag, size_t n)
{
    bg_parametric p = __real_bg_para_curve(tag, n);
    if (SLIP("bg_para_curve: a tie of a raw number is rounded up") && p.refusal == 0 && n == 40 &&
        (big_endian(tag + 24, 4) & 0xff000001) == 0x01000001)
        p.curve.c = float_of((uint32_t)(0x43800000 + ((big_endian(tag + 24, 4) & 0xffffff) + 1) / 2));
    return p;
}

uint32_t __real_bg_para_write(size_t type, bg_raw numbers, uint8_t *out, size_t out_len);
uint32_t __wrap_bg_para_write(size_t type, bg_raw numbers, uint8_t *out, size_t out_len)
{
    if (SLIP("bg_para_write: the type is cut to 16 bits"))
        type &= 0xffff;
    if (SLIP("bg_para_write: a refused call writes the signature") && out_len >= 4)
        memcpy(out, "para", 4);
    return __real_bg_para_write(type, numbers, out, out_len);
}

/* ---- Numbers rounded to float ---- */

float __real_bg_nearest_f64_to_f32(double x);
float __wrap_bg_nearest_f64_to_f32(double x)
{
    float f = __real_bg_nearest_f64_to_f32(x);
    uint32_t bits = bits_of_float(f);
    double away = (double)float_of(bits + 1);
    if (SLIP("bg_nearest_f64_to_f32: a tie is rounded up") && x > 0 && bits % 2 == 0 && (double)f + away == 2 * x)
        return float_of(bits + 1);
    if (SLIP("bg_nearest_f64_to_f32: numbers below the normal ones are flushed") && f > -0x1p-126f && f < 0x1p-126f)
        return x < 0 ? -0.0f : 0.0f;
    if (SLIP("bg_nearest_f64_to_f32: above the largest float it stays at it") && x > 0x1.fffffep127 && x < 0x1p129)
        return 0x1.fffffep127f;
    if (SLIP("bg_nearest_f64_to_f32: a zero loses its sign") && x == 0)
        return 0;
    if (SLIP("bg_nearest_f64_to_f32: a NaN becomes an infinity") && x != x)
        return float_of(0x7f800000);
    return f;
}

float __real_bg_s15_fixed16_number_to_float(int32_t x);
float __wrap_bg_s15_fixed16_number_to_float(int32_t x)
{
    if (SLIP("bg_s15_fixed16_number_to_float: cut instead of rounded") && x > 0x1000000)
        while (x != (int32_t)(float)x || x == INT32_MAX)
            x--;
    return __real_bg_s15_fixed16_number_to_float(x);
}

float __real_bg_u8_fixed_8number_to_float(uint16_t x);
float __wrap_bg_u8_fixed_8number_to_float(uint16_t x)
{
    if (SLIP("bg_u8_fixed_8number_to_float: the largest is 256") && x == 65535)
        return 256;
    return __real_bg_u8_fixed_8number_to_float(x);
}

/* ---- Looking up ---- */

bg_sample __real_bg_lut_interp_linear16(const uint16_t *table, size_t n, bg_drive position);
bg_sample __wrap_bg_lut_interp_linear16(const uint16_t *table, size_t n, bg_drive position)
{
    bg_sample s = __real_bg_lut_interp_linear16(table, n, position);
    uint64_t v = position.value * (n - 1), k = v % 65535;
    if (SLIP("bg_lut_interp_linear16: rounded to the nearest") && s.refusal == 0 && k > 0)
        s.density.value = (uint16_t)((table[v / 65535 + 1] * k + table[v / 65535] * (65535 - k) + 32767) / 65535);
    if (SLIP("bg_lut_interp_linear16: 65,537 entries are let through") && n == 65537)
        return __real_bg_lut_interp_linear16(table, 65536, position);
    return s;
}

uint32_t __real_bg_lut_interp_linear16_row(const uint16_t *table, size_t n, const uint16_t *positions, size_t m,
                                           uint16_t *out, size_t out_len);
uint32_t __wrap_bg_lut_interp_linear16_row(const uint16_t *table, size_t n, const uint16_t *positions, size_t m,
                                           uint16_t *out, size_t out_len)
{
    if (SLIP("bg_lut_interp_linear16_row: a longer output is let through") && out_len > m)
        out_len = m;
    if (SLIP("bg_lut_interp_linear16_row: a refused call writes the last entry") && out_len > 0)
        out[out_len - 1] = 0;
    return __real_bg_lut_interp_linear16_row(table, n, positions, m, out, out_len);
}

uint32_t __real_bg_bake(const uint16_t *table, size_t n, uint16_t *out, size_t out_len);
uint32_t __wrap_bg_bake(const uint16_t *table, size_t n, uint16_t *out, size_t out_len)
{
    uint32_t r = __real_bg_bake(table, n, out, out_len);
    if (SLIP("bg_bake: the last entry is the one before it") && r == 0)
        out[65535] = out[65534];
    if (SLIP("bg_bake: a refused output of 65,537 is written") && out_len == 65537)
        out[65536] = out[65535];
    return r;
}

bg_code __real_bg_lut_interp_linear_gamma_impl(const uint16_t *table, size_t n, size_t inputs, size_t depth,
                                               size_t input);
bg_code __wrap_bg_lut_interp_linear_gamma_impl(const uint16_t *table, size_t n, size_t inputs, size_t depth,
                                               size_t input)
{
    bg_code c = __real_bg_lut_interp_linear_gamma_impl(table, n, inputs, depth, input);
    if (SLIP("bg_lut_interp_linear_gamma_impl: kept to the depth's largest code") && c.refusal == 0 &&
        c.code >> depth != 0)
        c.code--;
    if (SLIP("bg_lut_interp_linear_gamma_impl: 3 before 12") && c.refusal == 12 && input >= inputs)
        c.refusal = 3;
    return c;
}

/* ---- Working on a curve ---- */

uint32_t __real_bg_start(uint16_t *table, size_t n);
uint32_t __wrap_bg_start(uint16_t *table, size_t n)
{
    uint32_t r = __real_bg_start(table, n);
    for (size_t i = 0; i < n && r == 0 && SLIP("bg_start: rounded down"); i++)
        table[i] = (uint16_t)(65535 * i / (n - 1));
    if (SLIP("bg_start: a refused table of 65,537 is changed at its end") && n == 65537)
        table[65536] = 65535;
    return r;
}

uint32_t __real_bg_accept(const uint16_t *table, size_t n);
uint32_t __wrap_bg_accept(const uint16_t *table, size_t n)
{
    if (SLIP("bg_accept: the last pair is not tested") && n > 1)
        return __real_bg_accept(table, n - 1);
    if (SLIP("bg_accept: the length is cut to 32 bits"))
        n = (uint32_t)n;
    if (SLIP("bg_accept: writes what it should only read") && n > 0)
        *(volatile uint16_t *)(uintptr_t)table = table[0];
    return __real_bg_accept(table, n);
}

uint32_t __real_bg_nudge(uint16_t *table, size_t n, size_t index, bg_density density);
uint32_t __wrap_bg_nudge(uint16_t *table, size_t n, size_t index, bg_density density)
{
    uint32_t r = __real_bg_nudge(table, n, index, density);
    if (SLIP("bg_nudge: only the left neighbour counts") && r == 4 && (index == 0 || density.value >= table[index - 1]))
        return 0;
    if (SLIP("bg_nudge: claims the change and makes none") && r == 0 && n > 20)
        table[index] = index > 0 ? table[index - 1] : 0;
    if (SLIP("bg_nudge: a refused table of 65,537 is changed at its end") && n == 65537)
        table[65536] = density.value;
    return r;
}

/* ---- Taking nudges back ---- */

uint32_t __real_bg_log_start(uint16_t *table, size_t n, bg_record *log, size_t *count);
uint32_t __wrap_bg_log_start(uint16_t *table, size_t n, bg_record *log, size_t *count)
{
    size_t stood = *count;
    uint32_t r = __real_bg_log_start(table, n, log, count);
    if (SLIP("bg_log_start: the log is not emptied") && r == 0)
        *count = stood;
    if (SLIP("bg_log_start: a count above the places stays") && r == 0 && stood > BG_LOG_PLACES)
        *count = stood;
    if (SLIP("bg_log_start: a refused one empties the log") && r != 0)
        *count = 0;
    if (SLIP("bg_log_start: the last record is cleared") && r == 0)
        memset(&log[BG_LOG_PLACES - 1], 0, sizeof *log);
    return r;
}

uint32_t __real_bg_log_accept(const uint16_t *table, size_t n, bg_record *log, size_t *count);
uint32_t __wrap_bg_log_accept(const uint16_t *table, size_t n, bg_record *log, size_t *count)
{
    size_t stood = *count;
    uint32_t r = __real_bg_log_accept(table, n, log, count);
    if (SLIP("bg_log_accept: the count is kept") && r == 0)
        *count = stood;
    if (SLIP("bg_log_accept: 17 for a count above the places") && r == 0 && stood > BG_LOG_PLACES) {
        *count = stood;
        return 17;
    }
    if (SLIP("bg_log_accept: a falling table empties the log") && r == 2)
        *count = 0;
    if (SLIP("bg_log_accept: the first record is cleared") && r == 0)
        memset(log, 0, sizeof *log);
    return r;
}

/* What makes a last record go with the table, in parts: its index and new entry, and its old entry on either side. */
static bool is_last(const uint16_t *table, size_t n, bg_record last)
{
    return last.channel == 0 && last.index < n && last.new_entry == table[last.index];
}

static bool clears_left(const uint16_t *table, bg_record last)
{
    return last.index == 0 || last.old_entry >= table[last.index - 1];
}

static bool clears_right(const uint16_t *table, size_t n, bg_record last)
{
    return last.index + (size_t)1 >= n || last.old_entry <= table[last.index + 1];
}

uint32_t __real_bg_log_nudge(uint16_t *table, size_t n, bg_record *log, size_t *count, size_t index,
                             bg_density density);
uint32_t __wrap_bg_log_nudge(uint16_t *table, size_t n, bg_record *log, size_t *count, size_t index,
                             bg_density density)
{
    size_t stood = *count, none = 0, few = (uint32_t)stood;
    uint16_t old_entry = n > 0 && n <= 65536 && index < n ? table[index] : 0;
    bg_record there = stood < BG_LOG_PLACES ? log[stood] : log[0], made, elsewhere[BG_LOG_PLACES];
    uint32_t r;
    if (SLIP("bg_log_nudge: the index is cut to 32 bits"))
        index = (uint32_t)index;
    if (SLIP("bg_log_nudge: the count is not tested") && stood > BG_LOG_PLACES)
        return __real_bg_log_nudge(table, n, elsewhere, &none, index, density);
    if (SLIP("bg_log_nudge: the count is cut to 32 bits") && stood != few)
        return __real_bg_log_nudge(table, n, log, &few, index, density);
    r = __real_bg_log_nudge(table, n, log, count, index, density);
    if (SLIP("bg_log_nudge: a refused nudge is logged") && r == 4 && stood < BG_LOG_PLACES) {
        bg_record refused = {density.value, old_entry, (uint16_t)index, 0};
        log[stood] = refused;
        *count = stood + 1;
    }
    if (SLIP("bg_log_nudge: 3 before 17") && r == 17 && index >= n)
        return 3;
    if (SLIP("bg_log_nudge: 2 before 17") && r == 17 && __real_bg_accept(table, n) == 2)
        return 2;
    if (SLIP("bg_log_nudge: 2 before 3") && r == 3 && __real_bg_accept(table, n) == 2)
        return 2;
    if (SLIP("bg_log_nudge: 15 before 3") && r == 3 && stood == BG_LOG_PLACES)
        return 15;
    if (SLIP("bg_log_nudge: 15 before 4") && r == 4 && stood == BG_LOG_PLACES)
        return 15;
    if (SLIP("bg_log_nudge: a 64th nudge is let through") && r == 15)
        return 0;
    if (r != 0)
        return r;
    made = log[stood];
    if (SLIP("bg_log_nudge: the entry's own number is not logged") && density.value == old_entry)
        *count = stood, log[stood] = there;
    if (SLIP("bg_log_nudge: old and new entry are swapped"))
        log[stood].old_entry = made.new_entry, log[stood].new_entry = made.old_entry;
    if (SLIP("bg_log_nudge: the log is full at 62") && stood == BG_LOG_PLACES - 1) {
        *count = stood, log[stood] = there, table[index] = old_entry;
        return 15;
    }
    if (SLIP("bg_log_nudge: 17 for a last record that does not go with the table") && stood > 0 &&
        log[stood - 1].channel != 0) {
        *count = stood, log[stood] = there, table[index] = old_entry;
        return 17;
    }
    if (SLIP("bg_log_nudge: the channel keeps what it held"))
        log[stood].channel = there.channel;
    if (SLIP("bg_log_nudge: the next record is written too") && stood + 1 < BG_LOG_PLACES)
        log[stood + 1] = made;
    if (SLIP("bg_log_nudge: a record past the log is written") && stood + 1 == BG_LOG_PLACES)
        log[stood + 1] = made;
    if (SLIP("bg_log_nudge: a freed place is passed over") && there.channel == 0 && stood + 1 < BG_LOG_PLACES)
        log[stood] = there, log[stood + 1] = made;
    if (SLIP("bg_log_nudge: the record is not written"))
        log[stood] = there;
    if (SLIP("bg_log_nudge: the entry is not set"))
        table[index] = old_entry;
    return 0;
}

uint32_t __real_bg_take_back(uint16_t *table, size_t n, bg_record *log, size_t *count);
uint32_t __wrap_bg_take_back(uint16_t *table, size_t n, bg_record *log, size_t *count)
{
    size_t stood = *count, few = (uint32_t)stood, most = BG_LOG_PLACES;
    bg_record last = stood > 0 && stood <= BG_LOG_PLACES ? log[stood - 1] : log[0];
    uint32_t r;
    if (SLIP("bg_take_back: the count is not tested") && stood > BG_LOG_PLACES)
        return __real_bg_take_back(table, n, log, &most);
    if (SLIP("bg_take_back: the count is cut to 32 bits") && stood != few)
        return __real_bg_take_back(table, n, log, &few);
    r = __real_bg_take_back(table, n, log, count);
    if (SLIP("bg_take_back: 17 before 2") && r == 2 && stood > BG_LOG_PLACES)
        return 17;
    if (SLIP("bg_take_back: 16 before 2") && r == 2 && stood == 0)
        return 16;
    if (SLIP("bg_take_back: 17 for 16") && r == 16)
        return 17;
    if (SLIP("bg_take_back: 16 for 17") && r == 17 && stood <= BG_LOG_PLACES)
        return 16;
    if (SLIP("bg_take_back: 16 for a count above the places") && r == 17 && stood > BG_LOG_PLACES)
        return 16;
    if (r == 17 && stood <= BG_LOG_PLACES) {
        if (SLIP("bg_take_back: only the left neighbour counts") && is_last(table, n, last) && clears_left(table, last))
            return 0;
        if (SLIP("bg_take_back: only the right neighbour counts") && is_last(table, n, last) &&
            clears_right(table, n, last))
            return 0;
        if (SLIP("bg_take_back: the new entry is not compared") && last.channel == 0 && last.index < n &&
            clears_left(table, last) && clears_right(table, n, last))
            return 0;
        if (SLIP("bg_take_back: the index is cut to 16 bits") && last.index < n &&
            last.new_entry == table[last.index] && clears_left(table, last) && clears_right(table, n, last))
            return 0;
        if (SLIP("bg_take_back: an index at the table's end is let through") && last.channel == 0 && last.index == n)
            return 0;
    }
    if (r != 0)
        return r;
    if (SLIP("bg_take_back: the count is left"))
        *count = stood;
    if (SLIP("bg_take_back: the entry stays"))
        table[last.index] = last.new_entry;
    if (SLIP("bg_take_back: the first nudge is taken back, not the last") && stood > 1)
        table[last.index] = last.new_entry, table[log[0].index] = log[0].old_entry;
    if (SLIP("bg_take_back: the record is cleared"))
        memset(&log[stood - 1], 0, sizeof *log);
    if (SLIP("bg_take_back: an old entry equal to a neighbour does not fit") &&
        ((last.index > 0 && last.old_entry == table[last.index - 1]) ||
         (last.index + (size_t)1 < n && last.old_entry == table[last.index + 1]))) {
        *count = stood, table[last.index] = last.new_entry;
        return 17;
    }
    if (SLIP("bg_take_back: a full log takes none back") && stood == BG_LOG_PLACES) {
        *count = stood, table[last.index] = last.new_entry;
        return 17;
    }
    return 0;
}

/* ---- From density back to drive ---- */

bg_position __real_bg_lut_inverse_interp16(const uint16_t *table, size_t n, bg_density density);
bg_position __wrap_bg_lut_inverse_interp16(const uint16_t *table, size_t n, bg_density density)
{
    bg_position p = __real_bg_lut_inverse_interp16(table, n, density);
    if (SLIP("bg_lut_inverse_interp16: 0 always answers 0") && density.value == 0)
        p.drive.value = 0;
    return p;
}

bg_position __real_bg_least_input(const uint16_t *table, size_t n, bg_density density);
bg_position __wrap_bg_least_input(const uint16_t *table, size_t n, bg_density density)
{
    bg_position p = __real_bg_least_input(table, n, density);
    if (SLIP("bg_least_input: moxcms's inverse instead") && p.refusal == 0)
        return __real_bg_lut_inverse_interp16(table, n, density);
    return p;
}

uint32_t __real_bg_least_input_row(const uint16_t *table, size_t n, const uint16_t *densities, size_t m, uint32_t *out,
                                   size_t out_len);
uint32_t __wrap_bg_least_input_row(const uint16_t *table, size_t n, const uint16_t *densities, size_t m, uint32_t *out,
                                   size_t out_len)
{
    uint32_t r = __real_bg_least_input_row(table, n, densities, m, out, out_len);
    for (size_t i = 0; i < out_len && r == 0; i++)
        if (SLIP("bg_least_input_row: 65,535 where no position reaches") && out[i] == 65536)
            out[i] = 65535;
    if (SLIP("bg_least_input_row: 2 before 6") && r == 6 && __real_bg_accept(table, n) == 2)
        return 2;
    return r;
}

uint32_t __real_bg_invert_lut(const uint16_t *table, size_t n, uint16_t *out, size_t out_len);
uint32_t __wrap_bg_invert_lut(const uint16_t *table, size_t n, uint16_t *out, size_t out_len)
{
    uint32_t r = __real_bg_invert_lut(table, n, out, out_len);
    for (size_t i = 0; i < out_len && r == 0 && SLIP("bg_invert_lut: what is asked is cut, not rounded"); i++) {
        bg_density asked = {(uint16_t)((double)i * (65535.0 / ((double)out_len - 1)))};
        out[i] = __real_bg_lut_inverse_interp16(table, n, asked).drive.value;
    }
    if (SLIP("bg_invert_lut: 65,537 entries are let through") && r == 12 && out_len == 65537)
        return 0;
    return r;
}

/* ---- Floats ---- */

bg_real __real_bg_lut_interp_linear_float(const float *table, size_t n, float x);
bg_real __wrap_bg_lut_interp_linear_float(const float *table, size_t n, float x)
{
    bg_real r = __real_bg_lut_interp_linear_float(table, n, x);
    if (SLIP("bg_lut_interp_linear_float: one rounding for a product and its sum") && r.refusal == 0 && x > 0 &&
        x < 1) {
        float v = x * (float)(n - 1), lower = (float)(size_t)v, upper = lower < v ? lower + 1 : lower, diff = upper - v;
        double tu = table[(size_t)upper], tl = table[(size_t)lower];
        r.value = (float)((double)(float)(tu - tu * diff) + tl * diff);
    }
    if (SLIP("bg_lut_interp_linear_float: a NaN reads as 0") && x != x)
        return __real_bg_lut_interp_linear_float(table, n, 0);
    return r;
}

bg_real __real_bg_lut_interp_linear(const uint16_t *table, size_t n, double x);
bg_real __wrap_bg_lut_interp_linear(const uint16_t *table, size_t n, double x)
{
    bg_real r = __real_bg_lut_interp_linear(table, n, x);
    if (SLIP("bg_lut_interp_linear: minus zero is refused") && x == 0 && 1 / x < 0 && r.refusal == 0)
        return (bg_real){13, 0};
    if (SLIP("bg_lut_interp_linear: an empty table is refused") && n == 0 && r.refusal == 0)
        return (bg_real){1, 0};
    if (SLIP("bg_lut_interp_linear: an empty table is read") && n == 0 && *(volatile const uint16_t *)table == 1)
        return (bg_real){1, 0};
    return r;
}

uint32_t __real_bg_passthrough_table_impl(float *out, size_t out_len);
uint32_t __wrap_bg_passthrough_table_impl(float *out, size_t out_len)
{
    uint32_t r = __real_bg_passthrough_table_impl(out, out_len);
    for (size_t i = 0; i < out_len && r == 0 && SLIP("bg_passthrough_table_impl: worked in floats"); i++)
        out[i] = (float)i * (1.0f / (float)(out_len - 1));
    if (SLIP("bg_passthrough_table_impl: the last of 65,536 is below 1") && r == 0 && out_len == 65536)
        out[65535] = 0x1.fffffep-1f;
    return r;
}

/* ---- Parametric curves, verdicts, the house curve, the version ---- */

bg_parametric __real_bg_parametric_curve_new(const float *params, size_t n);
bg_parametric __wrap_bg_parametric_curve_new(const float *params, size_t n)
{
    bg_parametric p = __real_bg_parametric_curve_new(params, n);
    if (SLIP("bg_parametric_curve_new: of four the last is e alone") && n == 4)
        p.curve.f = 0;
    if (SLIP("bg_parametric_curve_new: d loses the sign of its zero") && n == 3 && p.curve.d == 0)
        p.curve.d = 0;
    return p;
}

bool __real_bg_compare_parametric(const float *src, size_t n, const float *dst, size_t m);
bool __wrap_bg_compare_parametric(const float *src, size_t n, const float *dst, size_t m)
{
    bool close = __real_bg_compare_parametric(src, n, dst, m);
    if (SLIP("bg_compare_parametric: other lengths are not close") && n != m)
        return false;
    for (size_t i = 0; i < n && i < m; i++)
        if (SLIP("bg_compare_parametric: a NaN is not close") && src[i] - dst[i] != src[i] - dst[i])
            return false;
    return close;
}

bg_monotony __real_bg_is_curve_monotonic(const uint16_t *table, size_t n, bool rising);
bg_monotony __wrap_bg_is_curve_monotonic(const uint16_t *table, size_t n, bool rising)
{
    bg_monotony m = __real_bg_is_curve_monotonic(table, n, rising);
    if (SLIP("bg_is_curve_monotonic: one in twenty is still few") && m.refusal == 0)
        m.yes = n < 2 || 20 * m.violations <= n;
    if (SLIP("bg_is_curve_monotonic: the length is cut to 20 bits"))
        return __real_bg_is_curve_monotonic(table, n % (1 << 20), rising);
    return m;
}

bg_degeneration __real_bg_is_curve_degenerated(const uint16_t *table, size_t n);
bg_degeneration __wrap_bg_is_curve_degenerated(const uint16_t *table, size_t n)
{
    bg_degeneration d = __real_bg_is_curve_degenerated(table, n);
    size_t first = 0, last = 0;
    while (d.refusal == 0 && first < n && table[first] == table[0])
        first++;
    while (d.refusal == 0 && last < n && table[n - 1 - last] == table[n - 1])
        last++;
    if (SLIP("bg_is_curve_degenerated: a run of 19 is enough"))
        d.yes = first >= 19 || last >= 19;
    if (SLIP("bg_is_curve_degenerated: five percent at either end"))
        d.yes = n >= 2 && (20 * first >= n || 20 * last >= n);
    return d;
}

bg_sample __real_bg_house_entry(size_t index);
bg_sample __wrap_bg_house_entry(size_t index)
{
    if (SLIP("bg_house_entry: the index is cut to 32 bits"))
        index = (uint32_t)index;
    return __real_bg_house_entry(SLIP("bg_house_entry: 1,024 reads the last entry") && index == 1024 ? 1023 : index);
}

uint32_t __real_bg_house_fill(uint16_t *out, size_t out_len);
uint32_t __wrap_bg_house_fill(uint16_t *out, size_t out_len)
{
    uint32_t r = __real_bg_house_fill(out, out_len);
    if (SLIP("bg_house_fill: one entry is off by one") && r == 0)
        out[700]++;
    if (SLIP("bg_house_fill: 1,025 entries are let through") && out_len == 1025)
        return 0;
    if (SLIP("bg_house_fill: an empty output is let through") && out_len == 0)
        return 0;
    return r;
}

/* ---- Gamma curves ---- */

/* How a value may be worked out wrongly. */
enum wrong { NOTHING, STEP_UP, ROOT_UP, FIFTEEN_ROOTS, FIRST_ROOT_LAST, CASES_EXCHANGED, NEAREST, CUT };

static uint64_t root_of(uint64_t v, bool up)
{
    uint64_t root = 0;
    for (uint64_t bit = UINT64_C(1) << 31; bit > 0; bit >>= 1)
        if ((root + bit) * (root + bit) <= v)
            root += bit;
    return up && root * root < v ? root + 1 : root;
}

/* A gamma curve's value, worked out wrongly in one way. */
static uint16_t odd_value(uint64_t x, uint64_t p, enum wrong wrong)
{
    const uint64_t one = UINT64_C(65535) * 65536, base = 65536 * x;
    unsigned roots = wrong == FIFTEEN_ROOTS ? 15 : 16;
    uint64_t a = one, h = p < 65536 ? 65535 : 32768;
    for (unsigned k = 0; k < roots; k++) {
        unsigned bit = wrong == FIRST_ROOT_LAST ? 15 - k : k;
        a = root_of(a * (p >> bit & 1 ? base : one), wrong == ROOT_UP);
    }
    for (uint64_t step = p >> roots; step > 0; step--)
        a = (a * base + (wrong == STEP_UP ? one - 1 : 0)) / one;
    if (wrong == CASES_EXCHANGED)
        h = 65535 + 32768 - h;
    if (wrong == NEAREST)
        h = 32768;
    if (wrong == CUT)
        h = 0;
    return (uint16_t)((a + h) / 65536);
}

static bool is_exponent(uint64_t p)
{
    return p >= 1 && p <= 262144;
}

static uint16_t straight(uint64_t n, uint64_t i, bool cut)
{
    return (uint16_t)(cut ? 65535 * i / (n - 1) : (2 * 65535 * i + n - 1) / (2 * (n - 1)));
}

bg_sample __real_bg_power(bg_drive x, uint64_t exponent);
bg_sample __wrap_bg_power(bg_drive x, uint64_t exponent)
{
    bg_sample s = __real_bg_power(x, exponent);
    enum wrong wrong = SLIP("bg_power: a whole step is rounded up") ? STEP_UP
                       : SLIP("bg_power: a root is rounded up") ? ROOT_UP
                       : SLIP("bg_power: one root fewer") ? FIFTEEN_ROOTS
                       : SLIP("bg_power: the roots take the highest bit first") ? FIRST_ROOT_LAST
                       : SLIP("bg_power: the cases of the last rounding are exchanged") ? CASES_EXCHANGED
                       : SLIP("bg_power: the nearest below 1 too") ? NEAREST
                       : SLIP("bg_power: the last division is cut") ? CUT
                                                                       : NOTHING;
    if (wrong != NOTHING && s.refusal == 0)
        return (bg_sample){0, {odd_value(x.value, exponent, wrong)}};
    if (SLIP("bg_power: exponents to 65,600 round up as those below 1") && exponent > 65536 && exponent <= 65600)
        return (bg_sample){0, {odd_value(x.value, exponent, CASES_EXCHANGED)}};
    if (SLIP("bg_power: an exponent of 0 is let through") && exponent == 0)
        return (bg_sample){0, {65535}};
    if (SLIP("bg_power: 262,144 is refused") && exponent == 262144)
        return (bg_sample){18, {0}};
    if (SLIP("bg_power: 262,145 is let through") && exponent == 262145)
        return (bg_sample){0, {odd_value(x.value, exponent, NOTHING)}};
    if (SLIP("bg_power: the exponent is cut to 32 bits"))
        return __real_bg_power(x, (uint32_t)exponent);
    if (SLIP("bg_power: a refused answer has a density") && s.refusal == 18)
        return (bg_sample){18, x.value == 0 ? (bg_density){0} : (bg_density){65535}};
    if (SLIP("bg_power: the curve is read backwards"))
        return __real_bg_power((bg_drive){(uint16_t)(65535 - x.value)}, exponent);
    if (SLIP("bg_power: x and the exponent are exchanged"))
        return __real_bg_power((bg_drive){(uint16_t)exponent}, x.value);
    if (SLIP("bg_power: the exponent's last bit is lost") && exponent > 1)
        return __real_bg_power(x, exponent & ~UINT64_C(1));
    return s;
}

uint32_t __real_bg_power_table(uint16_t *out, size_t out_len, size_t n, uint64_t exponent);
uint32_t __wrap_bg_power_table(uint16_t *out, size_t out_len, size_t n, uint64_t exponent)
{
    enum wrong wrong = SLIP("bg_power_table: a whole step is rounded up") ? STEP_UP
                       : SLIP("bg_power_table: a root is rounded up") ? ROOT_UP
                       : SLIP("bg_power_table: one root fewer") ? FIFTEEN_ROOTS
                       : SLIP("bg_power_table: the cases of the last rounding are exchanged") ? CASES_EXCHANGED
                       : SLIP("bg_power_table: the last division is cut") ? CUT
                                                                             : NOTHING;
    bool cut = SLIP("bg_power_table: the ramp by floor");
    uint32_t r;
    if (SLIP("bg_power_table: a longer output is let through") && n >= 2 && is_exponent(exponent) && out_len > n)
        out_len = n;
    if (SLIP("bg_power_table: a shorter output is let through") && n <= 65536 && out_len >= 2 && out_len < n)
        n = out_len;
    if (SLIP("bg_power_table: n is cut to 32 bits"))
        n = (uint32_t)n;
    if (SLIP("bg_power_table: the output's length is cut to 32 bits"))
        out_len = (uint32_t)out_len;
    if (SLIP("bg_power_table: the exponent is cut to 32 bits"))
        exponent = (uint32_t)exponent;
    r = __real_bg_power_table(out, out_len, n, exponent);
    for (size_t i = 0; i < n && r == 0 && (wrong != NOTHING || cut); i++)
        out[i] = odd_value(straight(n, i, cut), exponent, wrong);
    if (SLIP("bg_power_table: 18 before 1") && r == 1 && !is_exponent(exponent))
        return 18;
    if (SLIP("bg_power_table: 6 before 1") && r == 1 && out_len != n)
        return 6;
    if (SLIP("bg_power_table: 6 before 18") && r == 18 && out_len != n)
        return 6;
    if (SLIP("bg_power_table: an exponent of 0 is let through") && r == 18 && exponent == 0 && out_len == n)
        return 0;
    if (SLIP("bg_power_table: 262,144 is refused") && r == 0 && exponent == 262144)
        return 18;
    if (SLIP("bg_power_table: 65,536 entries are refused") && r == 0 && n == 65536)
        return 1;
    if (SLIP("bg_power_table: 65,537 entries are let through") && r == 1 && n == 65537 && out_len == n)
        return 0;
    if (SLIP("bg_power_table: one entry is let through") && r == 1 && n == 1 && is_exponent(exponent) && out_len == n)
        return 0;
    if (SLIP("bg_power_table: a refused call writes its first entry") && r != 0 && out_len > 0)
        out[0] = 0;
    if (SLIP("bg_power_table: a refused output of another length is written") && r == 6 && out_len > 2)
        out[out_len - 1] = 65535;
    if (SLIP("bg_power_table: the last entry is not written") && r == 0)
        out[n - 1] = 0x5a5a;
    if (SLIP("bg_power_table: one entry too many is written") && r == 0)
        out[n] = 65535;
    if (SLIP("bg_power_table: the entry before the output is written") && r == 0)
        out[-1] = 0;
    return r;
}

bg_sample __real_bg_tag_power(bg_drive x, uint16_t gamma);
bg_sample __wrap_bg_tag_power(bg_drive x, uint16_t gamma)
{
    bg_sample s = __real_bg_tag_power(x, gamma);
    if (SLIP("bg_tag_power: 255 for 256"))
        return __real_bg_power(x, 255 * (uint64_t)gamma);
    if (SLIP("bg_tag_power: the entry is taken for 65536ths"))
        return __real_bg_power(x, gamma);
    if (SLIP("bg_tag_power: the entry's bytes are swapped"))
        return __real_bg_tag_power(x, (uint16_t)(gamma << 8 | gamma >> 8));
    if (SLIP("bg_tag_power: the exponent is cut to 16 bits") && s.refusal == 0)
        return __real_bg_power(x, (uint16_t)(256 * gamma));
    if (SLIP("bg_tag_power: 0 is the straight curve") && gamma == 0)
        return (bg_sample){0, {x.value}};
    if (SLIP("bg_tag_power: 1,024 is refused") && gamma == 1024)
        return (bg_sample){18, {0}};
    if (SLIP("bg_tag_power: 1,025 is let through") && gamma == 1025)
        return (bg_sample){0, {odd_value(x.value, 256 * 1025, NOTHING)}};
    if (SLIP("bg_tag_power: a root is rounded up") && s.refusal == 0)
        return (bg_sample){0, {odd_value(x.value, 256 * (uint64_t)gamma, ROOT_UP)}};
    if (SLIP("bg_tag_power: a whole step is rounded up") && s.refusal == 0)
        return (bg_sample){0, {odd_value(x.value, 256 * (uint64_t)gamma, STEP_UP)}};
    return s;
}

uint32_t __real_bg_tag_power_table(uint16_t *out, size_t out_len, size_t n, uint16_t gamma);
uint32_t __wrap_bg_tag_power_table(uint16_t *out, size_t out_len, size_t n, uint16_t gamma)
{
    uint32_t r;
    if (SLIP("bg_tag_power_table: 255 for 256"))
        return __real_bg_power_table(out, out_len, n, 255 * (uint64_t)gamma);
    if (SLIP("bg_tag_power_table: the entry is taken for 65536ths"))
        return __real_bg_power_table(out, out_len, n, gamma);
    if (SLIP("bg_tag_power_table: 0 is the straight curve") && gamma == 0)
        return __real_bg_power_table(out, out_len, n, 65536);
    if (SLIP("bg_tag_power_table: the entry's bytes are swapped"))
        gamma = (uint16_t)(gamma << 8 | gamma >> 8);
    if (SLIP("bg_tag_power_table: a longer output is let through") && n >= 2 && gamma >= 1 && gamma <= 1024 &&
        out_len > n)
        out_len = n;
    if (SLIP("bg_tag_power_table: n is cut to 32 bits"))
        n = (uint32_t)n;
    r = __real_bg_tag_power_table(out, out_len, n, gamma);
    for (size_t i = 0; i < n && r == 0 && SLIP("bg_tag_power_table: the ramp by floor"); i++)
        out[i] = odd_value(straight(n, i, true), 256 * (uint64_t)gamma, NOTHING);
    if (SLIP("bg_tag_power_table: 18 before 1") && r == 1 && (gamma == 0 || gamma > 1024))
        return 18;
    if (SLIP("bg_tag_power_table: 6 before 18") && r == 18 && out_len != n)
        return 6;
    if (SLIP("bg_tag_power_table: 1,024 is refused") && r == 0 && gamma == 1024)
        return 18;
    if (SLIP("bg_tag_power_table: 1,025 is let through") && r == 18 && gamma == 1025 && out_len == n)
        return 0;
    if (SLIP("bg_tag_power_table: a refused call writes its last entry") && r != 0 && out_len > 0)
        out[out_len - 1] = 65535;
    if (SLIP("bg_tag_power_table: the last entry is not written") && r == 0)
        out[n - 1] = 0x5a5a;
    return r;
}

uint32_t __real_bg_version(void);
uint32_t __wrap_bg_version(void)
{
    return __real_bg_version() + SLIP("bg_version: the next one");
}
