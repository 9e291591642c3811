/*
 * Brassgroat: the tone curve part of a photo lab's grey box. The face for C and C++, of 2011 or later.
 *
 * Every call is proved to keep its promise (crates/brassgroat, and the crates that the headings name).
 *
 * A program links libbrassgroat.a, which is for x86-64 Linux and needs no other library. A release has it in lib/. In
 * the project `rt lib`, run in crates/brassgroat, proves it and writes it into crates/brassgroat/out, and
 * `./install PREFIX` puts it into PREFIX/lib. Where PKG_CONFIG_PATH names the release's lib/pkgconfig or
 * PREFIX/lib/pkgconfig:
 *
 *     cc -o program program.c $(pkg-config --cflags --libs brassgroat)
 *
 * What holds for every call:
 *
 * - It takes any input at all. It answers, or it refuses with one of the numbers of `enum bg_refusal`, and
 *   `bg_refusal_text` says in words what the number means. A refused answer has 0 in every other place, and a refused
 *   call has changed no buffer. Where several refusals apply, the one that is listed first at the call is given.
 * - A buffer is a pointer and a count of its ELEMENTS, not bytes. The pointer must be aligned for its type and good for
 *   that many elements; it may be null only where the count is 0. A log is always BG_LOG_PLACES records; the
 *   `count` beside it is one number, which says how many nudges stand, not how long the log is. An output buffer must
 *   not overlap another buffer of the same call; buffers that are only read may overlap each other. A caller must see
 *   to this much and to the floating-point environment (below): nothing else can go wrong.
 * - It keeps no state, allocates nothing, and writes to its output buffers alone. Threads may call it at will, as long
 *   as no buffer that one call writes is used by another.
 * - A NaN among the answers may have any NaN's bits.
 * - The floating-point environment is the caller's. Eight calls work in floats and promise their answers in the default
 *   one alone: round to nearest, no flush to zero, no traps. A program linked with -ffast-math starts in another. They
 *   are bg_lut_interp_linear_float, bg_lut_interp_linear, bg_passthrough_table_impl, bg_parametric_curve_new,
 *   bg_compare_parametric, bg_para_curve, and bg_lut_inverse_interp16 and bg_invert_lut, which work in doubles inside.
 *   With flush to zero bg_lut_interp_linear_float in {0, 0x1p-149f} at 0.5f is 0 and not 0x1p-149f; rounding down,
 *   bg_lut_inverse_interp16 in {0, 8286, 24858, 47388} of 31617 is 50243 and not 50244. All other calls answer the same
 *   in every environment. No call changes it but for its exception flags.
 *
 * A position, the input side of a curve, is a drive; a sample, the output side, is a density. Both are 16 bits wide.
 * They are two types, so that neither is taken for the other: looking up takes a drive and gives a density, and both
 * inverses take a density and give a drive. Tables hold densities. A table has 1 to 65,536 entries.
 */
#ifndef BRASSGROAT_H
#define BRASSGROAT_H

#include <stdbool.h>
#include <stddef.h>
#include <stdint.h>

#ifdef __cplusplus
extern "C" {
#endif

/*
 * The version of this header: 10,000 times its first number, 100 times its second, and its third. An archive of another
 * version may have other structs, or logs of another length, so a program asks first whether bg_version() is
 * BG_VERSION.
 */
#define BG_VERSION 400

/*
 * Why a call is refused; 0 is no refusal. Later versions may have further numbers. What each means stands below, in
 * bg_refusal_text.
 */
enum bg_refusal {
    BG_DONE = 0,
    BG_TABLE_LENGTH = 1,
    BG_NOT_NONDECREASING = 2,
    BG_INDEX_BEYOND = 3,
    BG_OUTSIDE_NEIGHBOURS = 4,
    BG_ABOVE_LAST = 5,
    BG_OUTPUT_LENGTH = 6,
    BG_PARAMETER_COUNT = 7,
    BG_TAG_LENGTH = 8,
    BG_WRONG_SIGNATURE = 9,
    BG_RESERVED_NOT_ZERO = 10,
    BG_FUNCTION_TYPE = 11,
    BG_OUTSIDE_RANGE = 12,
    BG_OUTSIDE_UNIT = 13,
    BG_LOG_FULL = 15,
    BG_NOTHING_TO_TAKE_BACK = 16,
    BG_BAD_LOG = 17,
    BG_EXPONENT = 18
};

/*
 * What a refusal's number means: what is wrong, and after the colon what to do. It has a text for every number at all.
 * The Rust crate has the same texts (bindings/rust/src/refusal.rs), which face/test compares.
 */
static inline const char *bg_refusal_text(uint32_t refusal)
{
    switch (refusal) {
    case BG_DONE:
        return "done";
    case BG_TABLE_LENGTH:
        return "the table's length is 0 or above 65,536 (a start and a gamma curve need 2 at least; a curv tag, a "
               "verdict and lut_interp_linear take 0 as well): use a length within these bounds";
    case BG_NOT_NONDECREASING:
        return "the table is not nondecreasing, as an entry is below the one before it: put its entries in order";
    case BG_INDEX_BEYOND:
        return "the index is beyond the table, or the gamma lookup's input is at or above its number of inputs: "
               "give an index below the table's length, or an input below that number";
    case BG_OUTSIDE_NEIGHBOURS:
        return "the nudged entry would be below its left or above its right neighbour: "
               "give a density from the left neighbour's to the right one's, or nudge those first";
    case BG_ABOVE_LAST:
        return "the density is above the table's last entry, so that no position reaches it: "
               "ask for one that is not above the last entry";
    case BG_OUTPUT_LENGTH:
        return "the output buffer is not exactly as long as needed: lend one of the length that the call asks for";
    case BG_PARAMETER_COUNT:
        return "a parametric curve cannot have this number of parameters: give it 1, 3, 4, 5 or 7";
    case BG_TAG_LENGTH:
        return "the tag has fewer than 12 bytes, or not the total length that its count or function type asks for: "
               "give the whole tag, and no byte more";
    case BG_WRONG_SIGNATURE:
        return "the tag has another signature: read it by the call for its kind of tag";
    case BG_RESERVED_NOT_ZERO:
        return "a reserved byte of the tag is not zero, so the tag is damaged or of another kind: get a sound one";
    case BG_FUNCTION_TYPE:
        return "the function type is above 4: use one of the types 0 to 4, which are all that ICC.1 has";
    case BG_OUTSIDE_RANGE:
        return "the gamma lookup's number of inputs is outside 2 to 65,536 or its depth outside 1 to 16, or the length "
               "of an inverted or a passthrough table is outside 2 to 65,536: give a number within its range";
    case BG_OUTSIDE_UNIT:
        return "the input of lut_interp_linear is a NaN, below 0 or above 1: give one from 0 to 1";
    case 14:
        return "a number that no call of this version gives: see the header of the archive that gave it";
    case BG_LOG_FULL:
        return "the log is full, as 63 nudges stand in it: take one back, or start or accept anew, which empties it";
    case BG_NOTHING_TO_TAKE_BACK:
        return "there is nothing to take back, as no nudge stands in the log: nudge first";
    case BG_BAD_LOG:
        return "the log's count is above 63, or on a take-back its last nudge does not go with the table (a damaged "
               "log, another table, or a table changed by other means): "
               "lend this table's own log, or start or accept anew, which empties the log";
    case BG_EXPONENT:
        return "the gamma curve's exponent is 0 or above 4: "
               "give 1 to 262,144 in 65536ths, or by a gamma tag's entry 1 to 1,024 in 256ths";
    default:
        return "a number that this version has no text for: see the header of the archive that gave it";
    }
}

/* A position, and a sample. */
typedef struct { uint16_t value; } bg_drive;
typedef struct { uint16_t value; } bg_density;

/* The answers. Each begins with the refusal's number, 0 where the call is granted. */
typedef struct { uint32_t refusal; bg_density density; } bg_sample;
typedef struct { uint32_t refusal; bg_drive drive; } bg_position;
typedef struct { uint32_t refusal; uint16_t code; } bg_code;
typedef struct { uint32_t refusal; float value; } bg_real;
typedef struct { uint32_t refusal; bool yes; size_t violations; } bg_monotony;
typedef struct { uint32_t refusal; bool yes; } bg_degeneration;
typedef struct { uint32_t refusal; size_t entries; } bg_count;
typedef struct { uint32_t refusal; size_t start; size_t len; } bg_part;

/* A parametric curve: (aX + b)^g + e from X = d on, cX + f below. */
typedef struct { float g, a, b, c, d, e, f; } bg_curve;
typedef struct { uint32_t refusal; bg_curve curve; } bg_parametric;

/* The raw signed 16.16 numbers of a para tag, in its order; those that its type does not use are 0. */
typedef struct { int32_t g, a, b, c, d, e, f; } bg_raw;
typedef struct { uint32_t refusal; size_t count; bg_raw numbers; } bg_para;

/* How many nudges a log holds. */
#define BG_LOG_PLACES 63

/* The library reads and writes a record as one word of 64 bits, so it is aligned as one. */
#ifdef __cplusplus
#define BG_ALIGNED_AS_WORD alignas(8)
#else
#define BG_ALIGNED_AS_WORD _Alignas(8)
#endif

/*
 * A nudge in a log: the entry at `index` was `old_entry`, and was set to `new_entry`. `channel` is 0 for now. As a word
 * it is index * 2^32 + old_entry * 2^16 + new_entry.
 */
typedef struct {
    BG_ALIGNED_AS_WORD uint16_t new_entry;
    uint16_t old_entry, index, channel;
} bg_record;

/* The archive's own version, as BG_VERSION is the header's. Never refused. */
uint32_t bg_version(void);

/* ---- Looking up (crates lookup, rows and gamma) ---- */

/* The density at a position, by linear interpolation rounded down. Refused: 1. */
bg_sample bg_lut_interp_linear16(const uint16_t *table, size_t table_len, bg_drive position);

/*
 * The densities at a row of drives: out[i] is bg_lut_interp_linear16 at positions[i]. In a table of 65,536 entries, as
 * bg_bake makes it, each costs one load. Refused: 1; 6 where out_len is not positions_len.
 */
uint32_t bg_lut_interp_linear16_row(const uint16_t *table, size_t table_len,
                                    const uint16_t *positions, size_t positions_len,
                                    uint16_t *out, size_t out_len);

/*
 * The table's densities at every one of the 65,536 positions. Looking up in the baked table is looking up in the table.
 * Refused: 1; 6 where out_len is not 65,536.
 */
uint32_t bg_bake(const uint16_t *table, size_t table_len, uint16_t *out, size_t out_len);

/*
 * The integer gamma lookup: of `inputs` inputs from 0 on, the one given, as a code of `depth` bits. The code may be
 * 2^depth. Refused: 1; 12 where `inputs` is outside 2 to 65,536 or `depth` outside 1 to 16; 3 where `input` is not
 * below `inputs`.
 */
bg_code bg_lut_interp_linear_gamma_impl(const uint16_t *table, size_t table_len, size_t inputs, size_t depth,
                                        size_t input);

/* ---- Working on a curve (crates curve and nudge) ---- */

/* Makes the table the straight curve from 0 to 65535. Refused: 1 where table_len is below 2 or above 65,536. */
uint32_t bg_start(uint16_t *table, size_t table_len);

/* Whether the table may be nudged and read backwards: granted, it is nondecreasing. Refused: 1; 2. */
uint32_t bg_accept(const uint16_t *table, size_t table_len);

/* Sets one entry, where the density fits between its neighbours, and changes no other. Refused: 1; 3; 2; 4. */
uint32_t bg_nudge(uint16_t *table, size_t table_len, size_t index, bg_density density);

/* ---- Taking nudges back (crates log and logged) ---- */

/*
 * Beside the table the caller lends a log: BG_LOG_PLACES records, and `count`, how many nudges stand. The first `count`
 * records are those nudges, the oldest first; the records past them are no part of the log.
 *
 * - `log` must be good for BG_LOG_PLACES records and `count` for one number in every call, refused ones as well. Table,
 *   log and count must not overlap each other.
 * - A granted start or accept empties the log, whatever it and the count held, and reads neither: before them a fresh
 *   log needs no clearing. A refused one leaves both as they were, cleared or not.
 * - A refused call changes neither table nor log nor count. A granted nudge writes one record, the one at the count;
 *   the other calls change no record. They take the log for writing all the same, as later versions may move records.
 * - As long as only these four calls change table, log and count, from a granted start or accept on: the table is the
 *   starting one with the standing nudges done in order, so that taking all of them back gives the starting table; the
 *   table is nondecreasing; and no call is refused with 17. The starting table is what the last granted start or accept
 *   left. bg_start and bg_nudge know no log, so they are not among the four.
 */

/* As bg_start, and empties the log. Refused: 1 where table_len is below 2 or above 65,536. */
uint32_t bg_log_start(uint16_t *table, size_t table_len, bg_record *log, size_t *count);

/* As bg_accept, and empties the log. Refused: 1; 2. */
uint32_t bg_log_accept(const uint16_t *table, size_t table_len, bg_record *log, size_t *count);

/*
 * Sets one entry as bg_nudge does, and logs what it was and is. A nudge to the entry's own number is granted and logged
 * too. Refused: 1; 17 where the count is above BG_LOG_PLACES (no record is looked at); 3; 2; 4; 15 where the count is
 * BG_LOG_PLACES.
 */
uint32_t bg_log_nudge(uint16_t *table, size_t table_len, bg_record *log, size_t *count, size_t index,
                      bg_density density);

/*
 * Undoes the last nudge that stands: its entry is the old one again, and its place in the log is free. Refused: 1; 2;
 * 17 where the count is above BG_LOG_PLACES, or where one or more stand and the last record does not go with the table;
 * 16 where none stands. A record goes with the table if its index is below table_len and its channel is 0, its new
 * entry is the table's entry there, and its old entry is neither below the entry to the left nor above the one to the
 * right, as far as there are such.
 */
uint32_t bg_take_back(uint16_t *table, size_t table_len, bg_record *log, size_t *count);

/* ---- From density back to drive (crates least, least_row, inverse and invert) ---- */

/* The smallest position whose density is at least the one given. Refused: 1; 2; 5 where no position reaches it. */
bg_position bg_least_input(const uint16_t *table, size_t table_len, bg_density density);

/*
 * The least inputs of a row of densities: out[i] is bg_least_input of densities[i], or 65,536, which is no position,
 * where that would be refused with 5. Refused: 1; 6 where out_len is not densities_len; 2.
 */
uint32_t bg_least_input_row(const uint16_t *table, size_t table_len,
                            const uint16_t *densities, size_t densities_len,
                            uint32_t *out, size_t out_len);

/* moxcms's own inverse, step by step. It is NOT the least position: of 0 in [0, 100, 65535] it is 255. Refused: 1. */
bg_position bg_lut_inverse_interp16(const uint16_t *table, size_t table_len, bg_density density);

/*
 * The table inverted by bg_lut_inverse_interp16: out[i] is the drive for the density i * (65535 / (out_len - 1)),
 * worked in doubles and rounded. Refused: 1; 12 where out_len is outside 2 to 65,536.
 */
uint32_t bg_invert_lut(const uint16_t *table, size_t table_len, uint16_t *out, size_t out_len);

/* ---- Floats (crates interp, passthrough and rounding): IEEE 754, one rounding for each operation ---- */

/* The float at x in a table of floats; x above 1 or a NaN reads as 1, below 0 as 0. Refused: 1. */
bg_real bg_lut_interp_linear_float(const float *table, size_t table_len, float x);

/*
 * The float, where 1 stands for 65535, at x from 0 to 1 in a table of 16-bit entries. An empty table answers x as the
 * nearest float. Refused: 1 where table_len is above 65,536; 13 where x is a NaN, below 0 or above 1.
 */
bg_real bg_lut_interp_linear(const uint16_t *table, size_t table_len, double x);

/*
 * The table that passes its input through: out[i] is i * (1 / (out_len - 1)), worked in doubles, as the nearest float.
 * Refused: 12 where out_len is outside 2 to 65,536.
 */
uint32_t bg_passthrough_table_impl(float *out, size_t out_len);

/* The float nearest to x, a tie to the even one. Never refused. */
float bg_nearest_f64_to_f32(double x);

/* An unsigned 8.8 number: x / 256, exactly. Never refused. */
float bg_u8_fixed_8number_to_float(uint16_t x);

/* A signed 16.16 number: the float nearest to x / 65536, a tie to the even one. Never refused. */
float bg_s15_fixed16_number_to_float(int32_t x);

/* ---- Parametric curves (crate parametric) ---- */

/*
 * The curve unified from 1, 3, 4, 5 or 7 parameters in the order g a b c d e f (of four: g a b, and e = f).
 * Refused: 7.
 */
bg_parametric bg_parametric_curve_new(const float *params, size_t params_len);

/*
 * Whether no two parameters at one place are further apart than 1e-4f, over the shorter length; a NaN difference counts
 * as close. Never refused.
 */
bool bg_compare_parametric(const float *src, size_t src_len, const float *dst, size_t dst_len);

/* ---- Verdicts (crates monotonic and degeneration) ---- */

/*
 * Whether the curve is monotonic, and how many violations it has. Monotonic: 20 * violations < entries, or fewer than
 * two entries. A violation is an entry below the one before it where `rising`, else an entry above the one before it.
 * Refused: 1 where table_len is above 65,536.
 */
bg_monotony bg_is_curve_monotonic(const uint16_t *table, size_t table_len, bool rising);

/*
 * Whether the curve is degenerated: the run of entries equal to the first, or of those equal to the last, has at least
 * 20 entries. Refused: 1 where table_len is above 65,536.
 */
bg_degeneration bg_is_curve_degenerated(const uint16_t *table, size_t table_len);

/* ---- The house curve, 1,024 entries, gamma 2.5 (crate house) ---- */

/*
 * One entry. Whoever wants many fills a buffer, which costs no more than one of these.
 * Refused: 3 where index is above 1,023.
 */
bg_sample bg_house_entry(size_t index);

/* All entries. Refused: 6 where out_len is not 1,024. */
uint32_t bg_house_fill(uint16_t *out, size_t out_len);

/* ---- Gamma curves (crates power and power_curve) ---- */

/*
 * A gamma curve is 65535 * (x / 65535)^e for drives x, with an exponent e above 0 and at most 4. It is worked out on
 * whole numbers: no float is involved, and every machine and environment gives the same answers.
 *
 * - The exponent comes in one of two units. bg_power and bg_power_table take it in 65536ths: 65,536 is 1, 144,179 is
 *   2.2 as nearly as can be, 262,144 is 4. bg_tag_power and bg_tag_power_table take it as the one entry of a gamma tag
 *   has it, in 256ths: 256 is 1, 0x0233 = 563 is nearly 2.2. Entry k answers what 256 * k answers there, refusals too.
 * - The answer n is within one of the curve: with p for the exponent in 65536ths,
 *   (n-1)^65536 * 65535^p <= x^p * 65535^65536 <= (n+1)^65536 * 65535^p, where n-1 is 0 for an n of 0. Several n may
 *   meet this. Which one is answered is fixed all the same: below an exponent of 1 the value is rounded up, from 1 on
 *   to the nearest (crates/power_curve/specs/Curve.antt).
 * - It is 0 at 0 and 65535 at 65535, and it never falls as x rises. So every table made here is nondecreasing, and
 *   bg_accept grants it.
 * - The exponent 1 (65,536, or a tag's 256) answers x itself, and its table is bg_start's: the straight curve.
 *
 * The curve's value is no lookup in a table of it: between two entries a lookup goes straight, and the curve does not.
 */

/* The density at x of the gamma curve with this exponent in 65536ths. Refused: 18 where it is outside 1 to 262,144. */
bg_sample bg_power(bg_drive x, uint64_t exponent);

/*
 * A table of n entries of that curve: entry i is bg_power at entry i of the straight curve that bg_start makes of n
 * entries. n stands beside the output's own length, and the two must be the same. Refused: 1 where n is below 2 or
 * above 65,536; 18 where the exponent is outside 1 to 262,144; 6 where out_len is not n.
 */
uint32_t bg_power_table(uint16_t *out, size_t out_len, size_t n, uint64_t exponent);

/* bg_power by a gamma tag's entry, in 256ths. Refused: 18 where it is outside 1 to 1,024. */
bg_sample bg_tag_power(bg_drive x, uint16_t gamma);

/*
 * bg_power_table by a gamma tag's entry, in 256ths. A tag of one entry reads into a table of one by bg_curv_read, and
 * that entry is the one to give here. Refused: 1 where n is below 2 or above 65,536; 18 where the entry is outside 1 to
 * 1,024; 6 where out_len is not n.
 */
uint32_t bg_tag_power_table(uint16_t *out, size_t out_len, size_t n, uint16_t gamma);

/* ---- ICC tags (crates curv, curv_reader, curv_part, curv_writer, para, para_curve and para_writer) ---- */

/*
 * How many entries a curv tag has; as in all of these calls, tag_len counts bytes. Refused: 8 where the tag has fewer
 * than 12 bytes; 9; 10; 1 where the count is above 65,536; 8 where the tag is not exactly 12 + 2 * count bytes long.
 */
bg_count bg_curv_count(const uint8_t *tag, size_t tag_len);

/* Reads a curv tag's entries. Refused: as bg_curv_count; 6 where out_len is not the count. */
uint32_t bg_curv_read(const uint8_t *tag, size_t tag_len, uint16_t *out, size_t out_len);

/*
 * Where a curv tag's entries lie: they are the `len` bytes at tag + start, big-endian, and no copy. A granted part may
 * be empty, so look at the number. Refused: as bg_curv_count.
 */
bg_part bg_curv_part(const uint8_t *tag, size_t tag_len);

/*
 * Writes a table, which may be empty, as a curv tag. Refused: 1 where table_len is above 65,536; 6 where out_len is not
 * 12 + 2 * table_len.
 */
uint32_t bg_curv_write(const uint16_t *table, size_t table_len, uint8_t *out, size_t out_len);

/*
 * Reads a para tag: how many numbers it has (1, 3, 4, 5 or 7), and seven. Refused: 8 where the tag has fewer than 12
 * bytes; 9; 10; 11; 8 where the tag is not exactly 12 + 4 * count bytes long.
 */
bg_para bg_para_read(const uint8_t *tag, size_t tag_len);

/* Reads a para tag as a curve, each raw number as bg_s15_fixed16_number_to_float has it. Refused: as bg_para_read. */
bg_parametric bg_para_curve(const uint8_t *tag, size_t tag_len);

/*
 * Writes a para tag of function type 0 to 4, which has 1, 3, 4, 5 or 7 numbers; the others of `numbers` are ignored.
 * Refused: 11 where the type is above 4; 6 where out_len is not 12 + 4 * that count.
 */
uint32_t bg_para_write(size_t function_type, bg_raw numbers, uint8_t *out, size_t out_len);

#ifdef __cplusplus
}
#endif

#endif
