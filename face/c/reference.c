/*
 * The rules of documents 01 and 02 in plain C. Whole numbers are worked out in 64 bits, where none of them overflows;
 * floats in C's own float and double with no fused step, so this file is compiled with -ffp-contract=off.
 */
#include "reference.h"

#include <string.h>

/* How many entries a table may have, and how many nudges may stand in a log. */
enum { MOST = 65536, MOST_STANDING = 63 };

static bool wrong_length(size_t n)
{
    return n == 0 || n > MOST;
}

static bool falls(const uint16_t *table, size_t n)
{
    for (size_t i = 1; i < n; i++)
        if (table[i] < table[i - 1])
            return true;
    return false;
}

uint32_t ref_version(void)
{
    return BG_VERSION;
}

/* ---- Looking up: both whole-number lookups weigh two entries, over the divisor ---- */

static uint64_t weighed(const uint16_t *table, size_t n, uint64_t input, uint64_t divisor)
{
    uint64_t v = input * (n - 1), lower = v / divisor, k = v % divisor, upper = k > 0 ? lower + 1 : lower;
    return table[upper] * k + table[lower] * (divisor - k);
}

static uint16_t looked_up(const uint16_t *table, size_t n, uint64_t position)
{
    return (uint16_t)(weighed(table, n, position, 65535) / 65535);
}

bg_sample ref_lut_interp_linear16(const uint16_t *table, size_t n, bg_drive position)
{
    if (wrong_length(n))
        return (bg_sample){1, {0}};
    return (bg_sample){0, {looked_up(table, n, position.value)}};
}

uint32_t ref_lut_interp_linear16_row(const uint16_t *table, size_t n, const uint16_t *positions, size_t positions_len,
                                     uint16_t *out, size_t out_len)
{
    if (wrong_length(n))
        return 1;
    if (out_len != positions_len)
        return 6;
    for (size_t i = 0; i < out_len; i++)
        out[i] = looked_up(table, n, positions[i]);
    return 0;
}

uint32_t ref_bake(const uint16_t *table, size_t n, uint16_t *out, size_t out_len)
{
    if (wrong_length(n))
        return 1;
    if (out_len != 65536)
        return 6;
    for (size_t i = 0; i < out_len; i++)
        out[i] = looked_up(table, n, i);
    return 0;
}

bg_code ref_lut_interp_linear_gamma_impl(const uint16_t *table, size_t n, size_t inputs, size_t depth, size_t input)
{
    uint64_t cap = inputs - 1, d;
    if (wrong_length(n))
        return (bg_code){1, 0};
    if (inputs < 2 || inputs > MOST || depth < 1 || depth > 16)
        return (bg_code){12, 0};
    if (input >= inputs)
        return (bg_code){3, 0};
    d = cap * 65535 / ((UINT64_C(1) << depth) - 1);
    return (bg_code){0, (uint16_t)((weighed(table, n, input, cap) + d / 2) / d)};
}

/* ---- Working on a curve ---- */

/* Entry i of the straight curve of n entries. */
static uint16_t straight(uint64_t n, uint64_t i)
{
    return (uint16_t)((2 * 65535 * i + n - 1) / (2 * (n - 1)));
}

uint32_t ref_start(uint16_t *table, size_t n)
{
    if (n < 2 || n > MOST)
        return 1;
    for (size_t i = 0; i < n; i++)
        table[i] = straight(n, i);
    return 0;
}

uint32_t ref_accept(const uint16_t *table, size_t n)
{
    return wrong_length(n) ? 1 : falls(table, n) ? 2 : 0;
}

static bool fits(const uint16_t *table, size_t n, size_t index, uint16_t entry)
{
    return (index == 0 || entry >= table[index - 1]) && (index + 1 == n || entry <= table[index + 1]);
}

static uint32_t why_no_nudge(const uint16_t *table, size_t n, size_t index, uint16_t entry)
{
    if (wrong_length(n))
        return 1;
    if (index >= n)
        return 3;
    if (falls(table, n))
        return 2;
    return fits(table, n, index, entry) ? 0 : 4;
}

uint32_t ref_nudge(uint16_t *table, size_t n, size_t index, bg_density density)
{
    uint32_t refusal = why_no_nudge(table, n, index, density.value);
    if (refusal == 0)
        table[index] = density.value;
    return refusal;
}

/* ---- Taking nudges back: document 02, (ii) ---- */

/* A granted start or accept empties the log, and its records stay. */
static uint32_t emptied(uint32_t refusal, size_t *count)
{
    if (refusal == 0)
        *count = 0;
    return refusal;
}

uint32_t ref_log_start(uint16_t *table, size_t n, bg_record *log, size_t *count)
{
    (void)log;
    return emptied(ref_start(table, n), count);
}

uint32_t ref_log_accept(const uint16_t *table, size_t n, bg_record *log, size_t *count)
{
    (void)log;
    return emptied(ref_accept(table, n), count);
}

uint32_t ref_log_nudge(uint16_t *table, size_t n, bg_record *log, size_t *count, size_t index, bg_density density)
{
    uint32_t refusal = why_no_nudge(table, n, index, density.value);
    if (refusal == 1)
        return 1;
    if (*count > MOST_STANDING)
        return 17;
    if (refusal != 0)
        return refusal;
    if (*count == MOST_STANDING)
        return 15;
    log[*count].index = (uint16_t)index;
    log[*count].old_entry = table[index];
    log[*count].new_entry = density.value;
    log[*count].channel = 0;
    ++*count;
    table[index] = density.value;
    return 0;
}

/* With one table, a channel other than 0 is the upper half of an index that is beyond it. */
static bool goes_with(const uint16_t *table, size_t n, bg_record last)
{
    size_t index = last.index + 65536 * (size_t)last.channel;
    return index < n && last.new_entry == table[index] && fits(table, n, index, last.old_entry);
}

uint32_t ref_take_back(uint16_t *table, size_t n, bg_record *log, size_t *count)
{
    if (wrong_length(n))
        return 1;
    if (falls(table, n))
        return 2;
    if (*count > MOST_STANDING || (*count > 0 && !goes_with(table, n, log[*count - 1])))
        return 17;
    if (*count == 0)
        return 16;
    --*count;
    table[log[*count].index] = log[*count].old_entry;
    return 0;
}

/* ---- From density back to drive ---- */

/* The least position whose lookup is at least v, or 65,536 for none. In a nondecreasing table no lookup falls. */
static uint32_t least(const uint16_t *table, size_t n, uint16_t v)
{
    uint32_t from = 0, to = 65536;
    while (from < to) {
        uint32_t middle = (from + to) / 2;
        if (looked_up(table, n, middle) >= v)
            to = middle;
        else
            from = middle + 1;
    }
    return to;
}

bg_position ref_least_input(const uint16_t *table, size_t n, bg_density density)
{
    uint32_t refusal = ref_accept(table, n);
    if (refusal != 0)
        return (bg_position){refusal, {0}};
    if (density.value > table[n - 1])
        return (bg_position){5, {0}};
    return (bg_position){0, {(uint16_t)least(table, n, density.value)}};
}

uint32_t ref_least_input_row(const uint16_t *table, size_t n, const uint16_t *densities, size_t densities_len,
                             uint32_t *out, size_t out_len)
{
    if (wrong_length(n))
        return 1;
    if (out_len != densities_len)
        return 6;
    if (falls(table, n))
        return 2;
    for (size_t i = 0; i < out_len; i++)
        out[i] = least(table, n, densities[i]);
    return 0;
}

/* The f64 steps of moxcms's inverse, x being the last position probed. */
static uint16_t on_the_line(const uint16_t *table, size_t n, int64_t x, uint16_t v)
{
    double last = (double)(n - 1), t = last * ((double)(x - 1) / 65535.0);
    size_t c0 = (size_t)t, c1 = (double)c0 < t ? c0 + 1 : c0;
    double x0 = 65535.0 * (double)c0 / last, x1 = 65535.0 * (double)c1 / last, y0 = table[c0], y1 = table[c1], a, b, f;
    if (c0 == c1)
        return (uint16_t)x;
    a = (y1 - y0) / (x1 - x0);
    if ((a < 0 ? -a : a) < 0.01)
        return (uint16_t)x;
    b = y0 + -a * x0;
    f = (v - b) / a;
    return f < 0 ? 0 : f >= 65535.0 ? 65535 : (uint16_t)(f + 0.5);
}

/* How many entries are 0 at the start of a table, and 65535 at its end. */
struct ends {
    int64_t zeros, full;
};

static struct ends ends_of(const uint16_t *table, size_t n)
{
    struct ends ends = {0, 0};
    int64_t last = (int64_t)n - 1;
    while (ends.zeros <= last && table[ends.zeros] == 0)
        ends.zeros++;
    while (ends.full <= last && table[last - ends.full] == 65535)
        ends.full++;
    return ends;
}

static uint16_t inverse(const uint16_t *table, size_t n, struct ends ends, uint16_t v)
{
    int64_t z = ends.zeros, w = ends.full, last = (int64_t)n - 1, l = 1, r = 65536, x = 0;
    if (v == 0 && (z == 0 || z > 1 || w > 1))
        return 0;
    if (z > 1)
        l = (z - 1) * 65535 / last - 1;
    if (w > 1)
        r = (last - w) * 65535 / last + 1;
    if (r <= l)
        return 0;
    while (r > l) {
        uint16_t y;
        x = (l + r) / 2;
        y = looked_up(table, n, (uint64_t)(x - 1));
        if (y == v)
            return (uint16_t)(x - 1);
        if (y > v)
            r = x - 1;
        else
            l = x + 1;
    }
    return on_the_line(table, n, x, v);
}

bg_position ref_lut_inverse_interp16(const uint16_t *table, size_t n, bg_density density)
{
    if (wrong_length(n))
        return (bg_position){1, {0}};
    return (bg_position){0, {inverse(table, n, ends_of(table, n), density.value)}};
}

/* The ends are counted once: a table of 65,536 zeros has as many to count as it has entries. */
uint32_t ref_invert_lut(const uint16_t *table, size_t n, uint16_t *out, size_t out_len)
{
    double s = 65535.0 / ((double)out_len - 1.0);
    struct ends ends;
    if (wrong_length(n))
        return 1;
    if (out_len < 2 || out_len > MOST)
        return 12;
    ends = ends_of(table, n);
    for (size_t i = 0; i < out_len; i++)
        out[i] = inverse(table, n, ends, (uint16_t)((double)i * s + 0.5));
    return 0;
}

/* ---- Floats ---- */

bg_real ref_lut_interp_linear_float(const float *table, size_t n, float x)
{
    float v, upper, lower, diff, tu, tl;
    if (wrong_length(n))
        return (bg_real){1, 0};
    if (!(x <= 1))
        x = 1;
    if (x < 0)
        x = 0;
    v = x * (float)(n - 1);
    lower = (float)(uint32_t)v;
    upper = lower < v ? lower + 1 : lower;
    diff = upper - v;
    tu = table[(uint32_t)upper];
    tl = table[(uint32_t)lower];
    return (bg_real){0, (tu - tu * diff) + tl * diff};
}

bg_real ref_lut_interp_linear(const uint16_t *table, size_t n, double x)
{
    double v, upper, lower, d;
    if (n > MOST)
        return (bg_real){1, 0};
    if (!(x >= 0 && x <= 1))
        return (bg_real){13, 0};
    if (n == 0)
        return (bg_real){0, (float)x};
    v = x * (double)(n - 1);
    lower = (double)(uint32_t)v;
    upper = lower < v ? lower + 1 : lower;
    d = upper - v;
    return (bg_real){0, (float)(table[(uint32_t)lower] * d + table[(uint32_t)upper] * (1 - d)) * (1.0f / 65535.0f)};
}

uint32_t ref_passthrough_table_impl(float *out, size_t out_len)
{
    double step = 1.0 / ((double)out_len - 1.0);
    if (out_len < 2 || out_len > MOST)
        return 12;
    for (size_t i = 0; i < out_len; i++)
        out[i] = (float)((double)i * step);
    return 0;
}

float ref_nearest_f64_to_f32(double x)
{
    return (float)x;
}

float ref_u8_fixed_8number_to_float(uint16_t x)
{
    return (float)x / 256;
}

float ref_s15_fixed16_number_to_float(int32_t x)
{
    return (float)(x / 65536.0);
}

/* ---- Parametric curves ---- */

bg_parametric ref_parametric_curve_new(const float *p, size_t n)
{
    switch (n) {
    case 1:
        return (bg_parametric){0, {p[0], 1, 0, 0, 0, 0, 0}};
    case 3:
        return (bg_parametric){0, {p[0], p[1], p[2], 0, -p[2] / p[1], 0, 0}};
    case 4:
        return (bg_parametric){0, {p[0], p[1], p[2], 0, -p[2] / p[1], p[3], p[3]}};
    case 5:
        return (bg_parametric){0, {p[0], p[1], p[2], p[3], p[4], 0, 0}};
    case 7:
        return (bg_parametric){0, {p[0], p[1], p[2], p[3], p[4], p[5], p[6]}};
    default:
        return (bg_parametric){7, {0, 0, 0, 0, 0, 0, 0}};
    }
}

bool ref_compare_parametric(const float *src, size_t src_len, const float *dst, size_t dst_len)
{
    for (size_t i = 0; i < src_len && i < dst_len; i++) {
        float apart = src[i] - dst[i];
        if (apart > 1e-4f || -apart > 1e-4f)
            return false;
    }
    return true;
}

/* ---- Verdicts ---- */

bg_monotony ref_is_curve_monotonic(const uint16_t *table, size_t n, bool rising)
{
    size_t v = 0;
    if (n > MOST)
        return (bg_monotony){1, false, 0};
    for (size_t i = 1; i < n; i++)
        if (rising ? table[i] < table[i - 1] : table[i] > table[i - 1])
            v++;
    return (bg_monotony){0, n < 2 || 20 * v < n, v};
}

bg_degeneration ref_is_curve_degenerated(const uint16_t *table, size_t n)
{
    size_t first = 0, last = 0;
    if (n > MOST)
        return (bg_degeneration){1, false};
    while (first < n && table[first] == table[0])
        first++;
    while (last < n && table[n - 1 - last] == table[n - 1])
        last++;
    return (bg_degeneration){0, n >= 2 && (first >= 20 || last >= 20)};
}

/* ---- The house curve ---- */

__extension__ typedef unsigned __int128 wide;

static const uint16_t *house(void)
{
    static uint16_t entries[1024];
    static bool made;
    uint32_t n = 0;
    for (wide i = 0; i < 1024 && !made; i++) {
        wide right = 4 * (wide)65535 * 65535 * i * i * i * i * i;
        while ((wide)(2 * n + 1) * (2 * n + 1) * 1023 * 1023 * 1023 * 1023 * 1023 <= right)
            n++;
        entries[i] = (uint16_t)n;
    }
    made = true;
    return entries;
}

bg_sample ref_house_entry(size_t index)
{
    if (index > 1023)
        return (bg_sample){3, {0}};
    return (bg_sample){0, {house()[index]}};
}

uint32_t ref_house_fill(uint16_t *out, size_t out_len)
{
    if (out_len != 1024)
        return 6;
    memcpy(out, house(), 2048);
    return 0;
}

/* ---- Gamma curves: document 02, (iv), by sixteen roots and whole steps ---- */

/* The whole part of a square root, bit by bit from the highest: what is left is v less the square so far. */
static uint64_t root_of(uint64_t v)
{
    uint64_t root = 0;
    for (uint64_t bit = UINT64_C(1) << 62; bit > 0; bit >>= 2)
        if (v >= root + bit) {
            v -= root + bit;
            root = (root >> 1) + bit;
        } else {
            root >>= 1;
        }
    return root;
}

/* The roots take the exponent's sixteen lower bits, the lowest first, and the whole steps its bits above them. */
static uint16_t value_at(uint64_t x, uint64_t exponent)
{
    const uint64_t one = UINT64_C(65535) << 16, base = x << 16;
    uint64_t a = one;
    for (unsigned bit = 0; bit < 16; bit++)
        a = root_of(a * (exponent >> bit & 1 ? base : one));
    for (uint64_t step = exponent >> 16; step > 0; step--)
        a = a * base / one;
    return (uint16_t)((a + (exponent >> 16 == 0 ? 65535 : 32768)) >> 16);
}

static bool wrong_exponent(uint64_t exponent)
{
    return exponent == 0 || exponent > 4 * 65536;
}

bg_sample ref_power(bg_drive x, uint64_t exponent)
{
    if (wrong_exponent(exponent))
        return (bg_sample){18, {0}};
    return (bg_sample){0, {value_at(x.value, exponent)}};
}

uint32_t ref_power_table(uint16_t *out, size_t out_len, size_t n, uint64_t exponent)
{
    if (n < 2 || n > MOST)
        return 1;
    if (wrong_exponent(exponent))
        return 18;
    if (out_len != n)
        return 6;
    for (size_t i = 0; i < n; i++)
        out[i] = value_at(straight(n, i), exponent);
    return 0;
}

bg_sample ref_tag_power(bg_drive x, uint16_t gamma)
{
    return ref_power(x, 256 * (uint64_t)gamma);
}

uint32_t ref_tag_power_table(uint16_t *out, size_t out_len, size_t n, uint16_t gamma)
{
    return ref_power_table(out, out_len, n, 256 * (uint64_t)gamma);
}

/* ---- ICC tags ---- */

static uint32_t big_endian(const uint8_t *from, size_t bytes)
{
    uint32_t x = 0;
    for (size_t i = 0; i < bytes; i++)
        x = x << 8 | from[i];
    return x;
}

static void put_big_endian(uint8_t *to, uint32_t x, size_t bytes)
{
    for (size_t i = 0; i < bytes; i++)
        to[i] = (uint8_t)(x >> 8 * (bytes - 1 - i));
}

/* 8 (short), 9, 10, as both kinds of tag begin. */
static uint32_t begins(const uint8_t *tag, size_t n, const char *signature)
{
    if (n < 12)
        return 8;
    if (memcmp(tag, signature, 4) != 0)
        return 9;
    return big_endian(tag + 4, 4) != 0 ? 10 : 0;
}

bg_count ref_curv_count(const uint8_t *tag, size_t n)
{
    uint32_t refusal = begins(tag, n, "curv"), count = refusal == 0 ? big_endian(tag + 8, 4) : 0;
    if (refusal == 0 && count > MOST)
        refusal = 1;
    if (refusal == 0 && n != 12 + 2 * (size_t)count)
        refusal = 8;
    return (bg_count){refusal, refusal == 0 ? count : 0};
}

uint32_t ref_curv_read(const uint8_t *tag, size_t n, uint16_t *out, size_t out_len)
{
    bg_count count = ref_curv_count(tag, n);
    if (count.refusal != 0)
        return count.refusal;
    if (out_len != count.entries)
        return 6;
    for (size_t i = 0; i < out_len; i++)
        out[i] = (uint16_t)big_endian(tag + 12 + 2 * i, 2);
    return 0;
}

bg_part ref_curv_part(const uint8_t *tag, size_t n)
{
    bg_count count = ref_curv_count(tag, n);
    if (count.refusal != 0)
        return (bg_part){count.refusal, 0, 0};
    return (bg_part){0, 12, 2 * count.entries};
}

uint32_t ref_curv_write(const uint16_t *table, size_t n, uint8_t *out, size_t out_len)
{
    if (n > MOST)
        return 1;
    if (out_len != 12 + 2 * n)
        return 6;
    memcpy(out, "curv\0\0\0\0", 8);
    put_big_endian(out + 8, (uint32_t)n, 4);
    for (size_t i = 0; i < n; i++)
        put_big_endian(out + 12 + 2 * i, table[i], 2);
    return 0;
}

static const size_t numbers_of_type[5] = {1, 3, 4, 5, 7};

bg_para ref_para_read(const uint8_t *tag, size_t n)
{
    bg_para answer = {begins(tag, n, "para"), 0, {0, 0, 0, 0, 0, 0, 0}};
    int32_t numbers[7] = {0};
    uint32_t type;
    if (answer.refusal != 0)
        return answer;
    type = big_endian(tag + 8, 2);
    answer.refusal = big_endian(tag + 10, 2) != 0 ? 10 : type > 4 ? 11 : n != 12 + 4 * numbers_of_type[type] ? 8 : 0;
    if (answer.refusal != 0)
        return answer;
    answer.count = numbers_of_type[type];
    for (size_t k = 0; k < answer.count; k++)
        numbers[k] = (int32_t)big_endian(tag + 12 + 4 * k, 4);
    memcpy(&answer.numbers, numbers, sizeof numbers);
    return answer;
}

bg_parametric ref_para_curve(const uint8_t *tag, size_t n)
{
    bg_para para = ref_para_read(tag, n);
    int32_t numbers[7];
    float params[7];
    if (para.refusal != 0)
        return (bg_parametric){para.refusal, {0, 0, 0, 0, 0, 0, 0}};
    memcpy(numbers, &para.numbers, sizeof numbers);
    for (size_t k = 0; k < 7; k++)
        params[k] = ref_s15_fixed16_number_to_float(numbers[k]);
    return ref_parametric_curve_new(params, para.count);
}

uint32_t ref_para_write(size_t function_type, bg_raw numbers, uint8_t *out, size_t out_len)
{
    int32_t raw[7];
    if (function_type > 4)
        return 11;
    if (out_len != 12 + 4 * numbers_of_type[function_type])
        return 6;
    memcpy(raw, &numbers, sizeof raw);
    memcpy(out, "para\0\0\0\0\0\0\0\0", 12);
    out[9] = (uint8_t)function_type;
    for (size_t k = 0; k < numbers_of_type[function_type]; k++)
        put_big_endian(out + 12 + 4 * k, (uint32_t)raw[k], 4);
    return 0;
}
