/*
 * Calls at random: every export, with tables, logs, rows and tags of every length and kind, held to the reference.
 *
 * A seed gives the same calls with every compiler. C leaves open in which order the arguments of a call and the two
 * sides of a sum are worked out, so nothing is drawn inside an argument list, and no expression draws twice.
 */
#include "asks.h"

#include <inttypes.h>
#include <math.h>
#include <stdio.h>
#include <string.h>

/* ---- Numbers ---- */

static bool one_in(size_t n)
{
    return below(n) == 0;
}

/* A length: few, or about a limit, or far above it. One in `rare` is long. */
static size_t length(size_t rare)
{
    static const size_t lengths[] = {65535, 65536, 65536, 65537, LONGEST};
    if (one_in(rare))
        return lengths[below(5)];
    if (one_in(3))
        return below(3);
    return 3 + below(62);
}

/* This length, or by chance another. */
static size_t about(size_t n)
{
    switch (below(8)) {
    case 0:
        return n == 0 ? 1 : n - 1;
    case 1:
        return n == LONGEST ? n - 1 : n + 1;
    case 2:
        return length(64);
    default:
        return n;
    }
}

/* A number that is small where it is cut to 16, 32 or no bits, and by chance any. */
static size_t number(size_t limit)
{
    switch (below(16)) {
    case 0:
        return (size_t)word();
    case 1:
        return ((size_t)1 << 16) + below(limit);
    case 2:
        return ((size_t)1 << 32) + below(limit);
    default:
        return below(limit);
    }
}

/* A 16-bit number: any, small, or about the largest. */
static uint16_t half(void)
{
    switch (below(4)) {
    case 0:
        return (uint16_t)below(4);
    case 1:
        return (uint16_t)(65535 - below(4));
    default:
        return (uint16_t)word();
    }
}

/* A double: of the unit interval, a whole number of some parts of it, beside its ends, or of any bits. */
static double any_double(void)
{
    static const double ends[] = {0, 1, 0x1p-1074, 0x1p-1022, 0x1p-150, 1 + 0x1p-52, 1 - 0x1p-53, 2, INFINITY, NAN};
    uint64_t bits = word();
    double x;
    size_t parts;
    switch (below(8)) {
    case 0:
        memcpy(&x, &bits, sizeof x);
        return x;
    case 1:
        x = ends[below(sizeof ends / sizeof *ends)];
        return one_in(4) ? -x : x;
    case 2:
    case 3:
        parts = 1 + below(70000);
        return (double)below(parts + 1) / (double)parts;
    default:
        return (double)(bits >> 11) * 0x1p-53;
    }
}

static float any_float(void)
{
    uint32_t bits = (uint32_t)word();
    float x;
    if (!one_in(8))
        return (float)any_double();
    memcpy(&x, &bits, sizeof x);
    return x;
}

/* ---- Tables ---- */

/* Rising, from 0 or any entry on, with zeros before it or none; where it comes to 65535 it stays there. */
static void fill_rising(uint16_t *table, size_t n)
{
    size_t zeros = below(2 * n + 2), step = 1 + below(3 * 65536 / n), entry = below(2 * 65536);
    if (zeros > n)
        zeros = 0;
    if (entry > 65535)
        entry = 0;
    memset(table, 0, 2 * zeros);
    for (size_t i = zeros; i < n; i++) {
        table[i] = (uint16_t)entry;
        entry += below(step);
        if (entry > 65535)
            entry = 65535;
    }
}

static void reverse(uint16_t *table, size_t n)
{
    for (size_t i = 0; i < n / 2; i++) {
        uint16_t entry = table[i];
        table[i] = table[n - 1 - i];
        table[n - 1 - i] = entry;
    }
}

/* Fills a table: any entries, few different ones, falling, rising but for an entry, or rising. */
static void fill_table(uint16_t *table, size_t n)
{
    size_t kind = below(8), at = below(n);
    uint16_t slip = half();
    for (size_t i = 0; kind < 2 && i < n; i++)
        table[i] = half() & (kind == 0 ? 65535 : 3);
    if (kind >= 2)
        fill_rising(table, n);
    if (kind == 2)
        reverse(table, n);
    if (kind == 3)
        table[at] = slip;
}

static uint16_t *u16_of(buffer b)
{
    return (uint16_t *)(void *)b.write;
}

/* A table. A long one is what stands in its room, which is filled anew by chance. */
static buffer table_of(size_t n, enum place brief, enum place lengthy)
{
    buffer b = lent_by_length(brief, lengthy, n, 2);
    bool anew = one_in(16);
    if (n > 0 && (n < 1000 || anew))
        fill_table(u16_of(b), n < 65600 ? n : 65600);
    return b;
}

static buffer table(void)
{
    size_t n = length(64);
    return table_of(n, FIRST, LONG_FIRST);
}

static buffer row(size_t n)
{
    return table_of(n, SECOND, LONG_SECOND);
}

static buffer out_of(size_t n, size_t size)
{
    return lent_by_length(OUT, LONG_OUT, n, size);
}

/* An output of this length, or by chance of another. */
static buffer out_about(size_t n, size_t size)
{
    size_t count = about(n);
    return out_of(count, size);
}

/* An output of any length. */
static buffer any_out(size_t rare, size_t size)
{
    size_t count = length(rare);
    return out_of(count, size);
}

/* Floats. Of a long list only some are made anew. */
static buffer floats_of(size_t n, enum place brief)
{
    buffer b = lent_by_length(brief, LONG_FLOATS, n, 4);
    for (size_t i = 0; i < n && i < 1000; i++) {
        float x = any_float();
        size_t at = n < 1000 ? i : below(n);
        memcpy(b.write + 4 * at, &x, 4);
    }
    return b;
}

/* A density that is in the table or next to one, or any. */
static uint16_t density_of(buffer b)
{
    size_t at = below(b.count), more = below(3);
    if (b.count > 0 && one_in(2))
        return (uint16_t)(u16_of(b)[at] + more - 1);
    return half();
}

/* ---- Logs ---- */

static bg_record *records_of(logged l)
{
    return (bg_record *)(void *)l.log.write;
}

static size_t *count_of(logged l)
{
    return (size_t *)(void *)l.count.write;
}

static void put_record(logged l, size_t place, size_t index, uint16_t old_entry, uint16_t new_entry)
{
    bg_record record = {new_entry, old_entry, (uint16_t)index, 0};
    records_of(l)[place] = record;
}

/* Any words in every place of the log, standing and free ones. */
static void put_any_words(logged l)
{
    for (size_t i = 0; i < BG_LOG_PLACES; i++) {
        uint64_t any = word();
        memcpy(&records_of(l)[i], &any, sizeof any);
    }
}

/* How many nudges are to stand: none, few, any number of them, or about as many as can. */
static size_t any_standing(void)
{
    switch (below(4)) {
    case 0:
        return below(3);
    case 1:
        return BG_LOG_PLACES - below(3);
    default:
        return below(BG_LOG_PLACES + 1);
    }
}

/* The least entry that fits at an index, the largest, or any between them. Where the table falls none may fit. */
static uint16_t fitting(const uint16_t *table, size_t n, size_t index)
{
    uint16_t least = index > 0 ? table[index - 1] : 0, largest = index + 1 < n ? table[index + 1] : 65535;
    switch (below(4)) {
    case 0:
        return least;
    case 1:
        return largest;
    default:
        return (uint16_t)(least + below((size_t)1 + (uint16_t)(largest - least)));
    }
}

/* Nudges entries of the table, each to what fits there, and logs them: the log is sound where the table is in order. */
static void nudge_some(logged l)
{
    uint16_t *table = u16_of(l.table);
    size_t n = l.table.count, standing = n == 0 ? 0 : any_standing();
    for (size_t i = 0; i < standing; i++) {
        size_t index = below(n);
        uint16_t to = fitting(table, n, index);
        put_record(l, i, index, table[index], to);
        table[index] = to;
    }
    *count_of(l) = standing;
}

/* A count that no sitting gives: above the places, or such only if it is not cut to 6, 8, 16 or 32 bits. */
static size_t wrong_count(size_t standing)
{
    static const unsigned widths[] = {6, 8, 16, 32, 63};
    switch (below(4)) {
    case 0:
        return BG_LOG_PLACES + 1 + below(3);
    case 1:
        return SIZE_MAX - below(3);
    case 2:
        return (size_t)word();
    default:
        return standing + ((size_t)1 << widths[below(5)]);
    }
}

/* Makes the last record one that goes with the table but perhaps for its old entry, which is about a neighbour's. */
static void forge_last(logged l)
{
    const uint16_t *table = u16_of(l.table);
    size_t n = l.table.count, index = below(n), more = below(3);
    uint16_t fits = fitting(table, n, index);
    put_record(l, *count_of(l) - 1, index, (uint16_t)(fits + more - 1), table[index]);
}

static void flip_a_bit(logged l)
{
    uint64_t flipped;
    bg_record *last = &records_of(l)[*count_of(l) - 1];
    size_t bit = below(64);
    memcpy(&flipped, last, sizeof flipped);
    flipped ^= UINT64_C(1) << bit;
    memcpy(last, &flipped, sizeof flipped);
}

/* Damages a log, or the table that it goes with: by chance, and by chance not. */
static void damage(logged l)
{
    size_t kind = below(16), at = below(l.table.count), other = any_standing();
    uint16_t entry = half();
    if (kind < 2)
        *count_of(l) = wrong_count(*count_of(l));
    else if (kind == 2)
        *count_of(l) = other;
    else if (kind == 3 && l.table.count > 0)
        u16_of(l.table)[at] = entry;
    else if (kind < 7 && *count_of(l) > 0)
        forge_last(l);
    else if (kind < 9 && *count_of(l) > 0)
        flip_a_bit(l);
}

/* A table and its log: sound, damaged, or of any words. */
static logged any_logged(void)
{
    buffer b = table();
    logged l = lent_beside(b);
    put_any_words(l);
    nudge_some(l);
    damage(l);
    return l;
}

/* ---- Tags ---- */

static void put(uint8_t *to, size_t x, size_t bytes)
{
    for (size_t i = 0; i < bytes; i++)
        to[i] = (uint8_t)(x >> 8 * (bytes - 1 - i));
}

/* A tag with this head, of this length or by chance another, and by chance with a byte of its head changed. */
static buffer tag_of(const uint8_t *head, size_t len)
{
    size_t n = about(len), at = below(n < 12 ? n : 12);
    uint8_t byte = (uint8_t)half();
    buffer b = lent_by_length(FIRST, LONG_SECOND, n, 1);
    for (size_t i = 0; i < n && i < 1000; i++)
        b.write[i] = i < 12 ? head[i] : (uint8_t)word();
    if (n > 0 && one_in(3))
        b.write[at] = byte;
    return b;
}

/* A curv tag of so many entries, which by chance says that it has others. */
static buffer curv_tag_of(size_t count)
{
    uint8_t head[12] = "curv";
    size_t other = (size_t)word();
    bool lies = one_in(16);
    put(head + 8, lies ? other : count, 4);
    return tag_of(head, count > 65537 ? 16 : 12 + 2 * count);
}

static buffer curv_tag(void)
{
    size_t count = length(64);
    return curv_tag_of(count);
}

static buffer para_tag(void)
{
    static const size_t lengths[6] = {16, 24, 28, 32, 40, 44};
    uint8_t head[12] = "para";
    size_t type = below(6);
    put(head + 8, type, 2);
    return tag_of(head, lengths[type]);
}

/* ---- A question of each export: one call each ---- */

static void any_version(void)
{
    ask_version();
}

static void any_lut_interp_linear16(void)
{
    buffer b = table();
    uint16_t position = half();
    ask_lut_interp_linear16(b, position);
}

static void any_lut_interp_linear16_row(void)
{
    size_t n = length(256);
    buffer b = table(), positions = row(n), out = out_about(n, 2);
    ask_lut_interp_linear16_row(b, positions, out);
}

static void any_bake(void)
{
    buffer b = table(), out = any_out(32, 2);
    ask_bake(b, out);
}

static size_t any_inputs(void)
{
    if (one_in(2))
        return length(8);
    return number(65540);
}

/* An input below so many, or by chance beyond them. */
static size_t input_of(size_t inputs)
{
    if (one_in(8))
        return inputs + number(2);
    return number(inputs + 1);
}

static void any_lut_interp_linear_gamma_impl(void)
{
    buffer b = table();
    size_t inputs = any_inputs(), depth = number(18), input = input_of(inputs);
    ask_lut_interp_linear_gamma_impl(b, inputs, depth, input);
}

static void any_start(void)
{
    buffer out = any_out(64, 2);
    ask_start(out);
}

static void any_accept(void)
{
    buffer b = table();
    ask_accept(b);
}

/* What an entry is nudged to: its own number, or often another close by. */
static uint16_t nudged_to(buffer b, size_t index)
{
    size_t more = below(18);
    uint16_t other = half(), near = index < b.count ? u16_of(b)[index] : other;
    return more < 9 ? (uint16_t)(near + more - 4) : near;
}

static void any_nudge(void)
{
    buffer b = table();
    size_t index = number(b.count + 1);
    uint16_t to = nudged_to(b, index);
    ask_nudge(b, index, to);
}

static void any_log_start(void)
{
    logged l = any_logged();
    ask_log_start(l);
}

static void any_log_accept(void)
{
    logged l = any_logged();
    ask_log_accept(l);
}

static void any_log_nudge(void)
{
    logged l = any_logged();
    size_t index = number(l.table.count + 1);
    uint16_t to = nudged_to(l.table, index);
    ask_log_nudge(l, index, to);
}

static void any_take_back(void)
{
    logged l = any_logged();
    ask_take_back(l);
}

static void any_least_input(void)
{
    buffer b = table();
    uint16_t density = density_of(b);
    ask_least_input(b, density);
}

static void any_least_input_row(void)
{
    size_t n = length(1024);
    buffer b = table(), densities = row(n), out = out_about(n, 4);
    for (size_t i = 0; i < n && i < 16; i++)
        u16_of(densities)[i] = density_of(b);
    ask_least_input_row(b, densities, out);
}

static void any_lut_inverse_interp16(void)
{
    buffer b = table();
    uint16_t density = density_of(b);
    ask_lut_inverse_interp16(b, density);
}

static void any_invert_lut(void)
{
    buffer b = table(), out = any_out(512, 2);
    ask_invert_lut(b, out);
}

static void any_lut_interp_linear_float(void)
{
    size_t n = length(64);
    buffer b = floats_of(n, FIRST);
    float x = any_float();
    ask_lut_interp_linear_float(b, x);
}

static void any_lut_interp_linear(void)
{
    buffer b = table();
    double x = any_double();
    ask_lut_interp_linear(b, x);
}

static void any_passthrough_table_impl(void)
{
    buffer out = any_out(64, 4);
    ask_passthrough_table_impl(out);
}

/* The parts of the seven classes of numbers that a random word seldom meets are swept. */
static void any_nearest_f64_to_f32(void)
{
    double x = any_double();
    ask_nearest_f64_to_f32(x);
}

static void any_u8_fixed_8number_to_float(void)
{
    uint16_t x = half();
    ask_u8_fixed_8number_to_float(x);
}

static void any_s15_fixed16_number_to_float(void)
{
    uint32_t bits = (uint32_t)word();
    size_t fewer = below(32);
    ask_s15_fixed16_number_to_float((int32_t)(bits >> fewer));
}

static void any_parametric_curve_new(void)
{
    size_t n = length(16);
    buffer params;
    if (n > 2 && n < 1000)
        n %= 9;
    params = floats_of(n, FIRST);
    ask_parametric_curve_new(params);
}

/* Makes a list nearly another, so that it is the last places which decide. */
static void bring_near(buffer dst, buffer src)
{
    for (size_t i = 0; i < dst.count; i++) {
        float x, apart = one_in(16) ? 1.1e-4f : 0.9e-4f;
        memcpy(&x, src.read + 4 * i, 4);
        x = one_in(2) ? x + apart : x - apart;
        memcpy(dst.write + 4 * i, &x, 4);
    }
}

static void any_compare_parametric(void)
{
    size_t n = length(256), m = about(n);
    buffer src = floats_of(n, FIRST), dst = floats_of(m, SECOND);
    bool near = !one_in(4);
    if (near && n < 1000 && m <= n)
        bring_near(dst, src);
    ask_compare_parametric(src, dst);
}

static void any_is_curve_monotonic(void)
{
    buffer b = table();
    bool rising = one_in(2);
    ask_is_curve_monotonic(b, rising);
}

static void any_is_curve_degenerated(void)
{
    buffer b = table();
    ask_is_curve_degenerated(b);
}

static void any_house_entry(void)
{
    size_t index = number(1030);
    ask_house_entry(index);
}

static void any_house_fill(void)
{
    buffer out = out_about(1024, 2);
    ask_house_fill(out);
}

/* An exponent in 65536ths: allowed, about its limits and about 1, such only if it is cut to 32 bits, or any. */
static uint64_t any_exponent(void)
{
    switch (below(8)) {
    case 0:
        return word();
    case 1:
        return below(3);
    case 2:
        return 262143 + below(3);
    case 3:
        return 65535 + below(3);
    case 4:
        return (UINT64_C(1) << 32) + below(262145);
    default:
        return 1 + below(262144);
    }
}

/* The same as a tag's entry. */
static uint16_t any_gamma(void)
{
    switch (below(8)) {
    case 0:
        return half();
    case 1:
        return (uint16_t)below(3);
    case 2:
        return (uint16_t)(1023 + below(3));
    case 3:
        return (uint16_t)(255 + below(3));
    default:
        return (uint16_t)(1 + below(1024));
    }
}

/* How many entries are asked for beside an output of so many: as many, or by chance others. */
static size_t asked_for(size_t out_len)
{
    size_t n = about(out_len);
    return one_in(32) ? n + ((size_t)1 << 32) : n;
}

static void any_power(void)
{
    uint16_t x = half();
    uint64_t exponent = any_exponent();
    ask_power(x, exponent);
}

static void any_power_table(void)
{
    buffer out = any_out(512, 2);
    size_t n = asked_for(out.count);
    uint64_t exponent = any_exponent();
    ask_power_table(out, n, exponent);
}

static void any_tag_power(void)
{
    uint16_t x = half(), gamma = any_gamma();
    ask_tag_power(x, gamma);
}

static void any_tag_power_table(void)
{
    buffer out = any_out(512, 2);
    size_t n = asked_for(out.count);
    uint16_t gamma = any_gamma();
    ask_tag_power_table(out, n, gamma);
}

static void any_curv_count(void)
{
    buffer tag = curv_tag();
    ask_curv_count(tag);
}

static void any_curv_read(void)
{
    size_t n = length(64);
    buffer tag = curv_tag_of(n), out = out_about(n, 2);
    ask_curv_read(tag, out);
}

static void any_curv_part(void)
{
    buffer tag = curv_tag();
    ask_curv_part(tag);
}

static void any_curv_write(void)
{
    buffer b = table(), out = out_about(b.count > 65537 ? 65536 : 12 + 2 * b.count, 1);
    ask_curv_write(b, out);
}

static void any_para_read(void)
{
    buffer tag = para_tag();
    ask_para_read(tag);
}

static void any_para_curve(void)
{
    buffer tag = para_tag();
    ask_para_curve(tag);
}

static void any_para_write(void)
{
    static const size_t lengths[8] = {16, 24, 28, 32, 40, 16, 12, 0};
    size_t type = number(6);
    buffer out = out_about(lengths[type % 8], 1);
    int32_t raw[7];
    for (size_t k = 0; k < 7; k++)
        raw[k] = (int32_t)word();
    ask_para_write(type, raw, out);
}

/* An export that has no question is an error of the compiler's. */
#define AS_QUESTION(name, numbers) any_##name,
static void (*const questions[ASK_COUNT])(void) = {EXPORTS(AS_QUESTION)};

static unsigned long wanted_calls;

static void some(void)
{
    for (unsigned long i = 0; i < wanted_calls; i++) {
        size_t export = below(ASK_COUNT);
        questions[export]();
    }
}

/* A tenth as many calls again, in sittings. */
static void some_sittings(void)
{
    sittings(wanted_calls / 10);
}

/* Every export was asked, and in a long run so that it gave each of its numbers; a short one may miss some. */
static void each_export(void)
{
    for (size_t i = 0; i < ASK_COUNT; i++) {
        bool all = given[i] == may_give[i];
        tally(asked[i] > 0 && (all || wanted_calls < 100000));
        printf("face: random: %s: %lu calls", export_names[i], asked[i]);
        printf(all ? "\n" : ", which did not give each of its numbers\n");
    }
}

void at_random(unsigned long calls, uint64_t from)
{
    printf("face: random: %lu calls with seed %" PRIu64 "\n", calls, from);
    wanted_calls = calls;
    seed(from);
    open_rooms();
    subject("random calls", some);
    subject("sittings with a log", some_sittings);
    subject("every export asked", each_export);
}
