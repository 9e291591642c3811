/*
 * Sweeps: calls over whole ranges of inputs, held to the reference.
 *
 *   tags     every ICC layout; each byte of each short tag changed in every way, and every two bytes of its head in
 *            some; every length about a tag's own; counts at their limits
 *   calls    wrong in two ways, as tags are too; outputs of every telling length; lengths past 2^32
 *   curves   gamma curves of every telling length and exponent
 *   logs     of every count, and with each bit of the last record changed
 *   numbers  rounded to float, against C's own cast
 *
 * Where an answer stands here as a number, the reference is held to it, as the exports are to the reference.
 */
#include "asks.h"
#include "reference.h"

#include <string.h>

/* ---- The tags ---- */

/* Tags of each layout, byte by byte as ICC.1 has them, and the curves of the para tags, worked out by fractions. */
struct tag {
    size_t len;
    uint8_t bytes[40];
    uint32_t curve[7];
};

static const struct tag curvs[] = {
    {12, "curv\0\0\0\0\0\0\0\0", {0}},
    {14, "curv\0\0\0\0\0\0\0\1\x02\x33", {0}},
    {16, "curv\0\0\0\0\0\0\0\2\x00\x01\xfe\x80", {0}},
};

static const struct tag paras[] = {
    /* g = 2.2, nearly */
    {16, "para\0\0\0\0\0\0\0\0\x00\x02\x33\x33", {0x400cccc0, 0x3f800000, 0, 0, 0, 0, 0}},
    /* g = 2, a = 1.5, b = 0.75 */
    {24, "para\0\0\0\0\0\1\0\0\x00\x02\x00\x00\x00\x01\x80\x00\x00\x00\xc0\x00",
     {0x40000000, 0x3fc00000, 0x3f400000, 0, 0xbf000000, 0, 0}},
    /* g = 1.8, nearly, a = -1, b = 0.5, c = -0.25 */
    {28, "para\0\0\0\0\0\2\0\0\x00\x01\xcc\xcd\xff\xff\x00\x00\x00\x00\x80\x00\xff\xff\xc0\x00",
     {0x3fe66680, 0xbf800000, 0x3f000000, 0, 0x3f000000, 0xbe800000, 0xbe800000}},
    /* the sRGB curve as profiles have it */
    {32, "para\0\0\0\0\0\3\0\0\x00\x02\x66\x66\x00\x00\xf2\xa7\x00\x00\x0d\x59\x00\x00\x13\xd0\x00\x00\x0a\x5b",
     {0x40199980, 0x3f72a700, 0x3d559000, 0x3d9e8000, 0x3d25b000, 0, 0}},
    /* one, the largest number, the smallest, two halfway between two floats, the one below 0, and one more halfway */
    {40, "para\0\0\0\0\0\4\0\0\x00\x01\x00\x00\x7f\xff\xff\xff\x80\x00\x00\x00"
         "\x01\x00\x00\x01\x01\x00\x00\x03\xff\xff\xff\xff\xfe\xff\xff\xfd",
     {0x3f800000, 0x47000000, 0xc7000000, 0x43800000, 0x43800002, 0xb7800000, 0xc3800002}},
    /* d = -b/a where the quotient is rounded, where b is 0, where a is 0, and where both are: a NaN */
    {24, "para\0\0\0\0\0\1\0\0\x00\x01\x00\x00\x00\x00\xf2\xa7\x00\x00\x0d\x59",
     {0x3f800000, 0x3f72a700, 0x3d559000, 0, 0xbd614f5c, 0, 0}},
    {24, "para\0\0\0\0\0\1\0\0\x00\x01\x00\x00\x00\x01\x00\x00\x00\x00\x00\x00",
     {0x3f800000, 0x3f800000, 0, 0, 0x80000000, 0, 0}},
    {24, "para\0\0\0\0\0\1\0\0\x00\x01\x00\x00\x00\x00\x00\x00\x00\x01\x00\x00",
     {0x3f800000, 0, 0x3f800000, 0, 0xff800000, 0, 0}},
    {24, "para\0\0\0\0\0\1\0\0\x00\x01\x00\x00\x00\x00\x00\x00\x00\x00\x00\x00",
     {0x3f800000, 0, 0, 0, 0x7fc00000, 0, 0}},
};
enum { CURVS = 3, TYPES = 5, PARAS = sizeof paras / sizeof *paras };

static const size_t most_bytes = 12 + 2 * 65536;

/* The curv tag of 65,536 entries, each its own index, and four zeros after it, as a padded tag has them. */
static const uint8_t *most(void)
{
    static uint8_t bytes[12 + 2 * 65536 + 4] = "curv\0\0\0\0\0\1\0\0";
    for (size_t i = bytes[most_bytes - 1] == 0 ? 0 : 65536; i < 65536; i++) {
        bytes[12 + 2 * i] = (uint8_t)(i >> 8);
        bytes[13 + 2 * i] = (uint8_t)i;
    }
    return bytes;
}

/* A long tag with this head. Its entries are what stands in its room: any, for speed. */
static buffer long_tag(const uint8_t *head, size_t len)
{
    buffer tag = lent(LONG_FIRST, len, 1);
    if (len > 0)
        memcpy(tag.write, head, len < 12 ? len : 12);
    return tag;
}

/* Lends the first bytes of a tag. */
static buffer tag_of(const uint8_t *bytes, size_t len)
{
    buffer b = lent_by_length(FIRST, LONG_FIRST, len, 1);
    if (len > 0)
        memcpy(b.write, bytes, len);
    return b;
}

static buffer entries_out(size_t count)
{
    return lent_by_length(OUT, LONG_OUT, count, 2);
}

static buffer bytes_out(size_t count)
{
    return lent_by_length(OUT, LONG_OUT, count, 1);
}

/* 32-bit numbers or floats. */
static buffer words_out(size_t count)
{
    return lent_by_length(OUT, LONG_OUT, count, 4);
}

/* Every call that reads a curv tag, with buffers for 0 to 3 entries, about as many as its count, and for the most. */
static void read_curv(buffer tag, size_t count)
{
    ask_curv_count(tag);
    ask_curv_part(tag);
    for (size_t n = 0; n <= 3; n++)
        ask_curv_read(tag, entries_out(n));
    for (size_t n = count < 3 ? 4 : count - 1; n <= count + 1; n++)
        ask_curv_read(tag, entries_out(n));
    ask_curv_read(tag, entries_out(65536));
}

static void read_para(buffer tag)
{
    ask_para_read(tag);
    ask_para_curve(tag);
}

/* The seven numbers that a para tag's bytes say; those past its end are what a writer must ignore. */
static void numbers_of(const uint8_t *bytes, size_t len, int32_t raw[7])
{
    for (size_t k = 0; k < 7; k++) {
        const uint8_t *from = bytes + 12 + 4 * k;
        uint32_t x = (uint32_t)from[0] << 24 | (uint32_t)from[1] << 16 | (uint32_t)from[2] << 8 | from[3];
        raw[k] = 12 + 4 * k < len ? (int32_t)x : k % 2 == 0 ? -(int32_t)k : (int32_t)k;
    }
}

/* Writes what a granted para tag says, into buffers of one byte less, one more and its length, and reads it back. */
static void write_para(size_t type, const uint8_t *bytes, size_t len)
{
    buffer out = bytes_out(len);
    int32_t raw[7];
    numbers_of(bytes, len, raw);
    ask_para_write(type, raw, bytes_out(len - 1));
    ask_para_write(type, raw, bytes_out(len + 1));
    ask_para_write(type, raw, out);
    EXPECT(memcmp(out.read, bytes, len) == 0);
    read_para(out);
}

/* The same of a curv tag. */
static void write_curv(const uint8_t *tag, size_t count)
{
    buffer table = lent_by_length(SECOND, LONG_SECOND, count, 2), out = bytes_out(12 + 2 * count);
    for (size_t i = 0; i < count; i++) {
        uint16_t entry = (uint16_t)(tag[12 + 2 * i] << 8 | tag[13 + 2 * i]);
        memcpy(table.write + 2 * i, &entry, 2);
    }
    ask_curv_write(table, bytes_out(11 + 2 * count));
    ask_curv_write(table, bytes_out(13 + 2 * count));
    ask_curv_write(table, out);
    EXPECT(memcmp(out.read, tag, 12 + 2 * count) == 0);
    ask_curv_read(out, lent_by_length(FIRST, LONG_FIRST, count, 2));
}

/* ---- The groups ---- */

static void curv_layouts(void)
{
    for (size_t n = 0; n < CURVS; n++) {
        read_curv(tag_of(curvs[n].bytes, curvs[n].len), n);
        write_curv(curvs[n].bytes, n);
    }
    read_curv(tag_of(most(), most_bytes), 65536);
    write_curv(most(), 65536);
}

/* A curve's places, bit by bit; a NaN has no bits of its own. */
static bool curve_bits_are(bg_parametric p, const uint32_t *bits)
{
    const float places[7] = {p.curve.g, p.curve.a, p.curve.b, p.curve.c, p.curve.d, p.curve.e, p.curve.f};
    for (size_t k = 0; k < 7; k++)
        if ((places[k] != places[k] ? 0x7fc00000 : bits_of(places[k])) != bits[k])
            return false;
    return p.refusal == 0;
}

static void para_layouts(void)
{
    for (size_t i = 0; i < PARAS; i++) {
        buffer tag = tag_of(paras[i].bytes, paras[i].len);
        read_para(tag);
        EXPECT(curve_bits_are(ref_para_curve(tag.read, tag.count), paras[i].curve));
        write_para(paras[i].bytes[9], paras[i].bytes, paras[i].len);
    }
}

/* Each byte of a tag, with each of its values. */
static void each_byte(const struct tag *tag, void (*ask)(const uint8_t *bytes, size_t len))
{
    uint8_t bytes[40];
    for (size_t i = 0; i < tag->len; i++)
        for (unsigned v = 0; v < 256; v++) {
            memcpy(bytes, tag->bytes, sizeof bytes);
            bytes[i] = (uint8_t)v;
            ask(bytes, tag->len);
        }
}

/*
 * Every two bytes of a tag's head changed together, since a test that adds bytes up, or tests them in another order,
 * is right of each by itself: to 0, 1, about where a sign turns, the largest, and each byte's own neighbours.
 */
static void each_pair(const struct tag *tag, void (*ask)(const uint8_t *bytes, size_t len))
{
    static const uint8_t values[] = {0, 1, 0x7f, 0x80, 0xff};
    enum { VALUES = sizeof values, WAYS = VALUES + 2 };
    uint8_t changed[12][WAYS], bytes[40];
    for (size_t i = 0; i < 12; i++) {
        memcpy(changed[i], values, VALUES);
        changed[i][VALUES] = (uint8_t)(tag->bytes[i] - 1);
        changed[i][VALUES + 1] = (uint8_t)(tag->bytes[i] + 1);
    }
    for (size_t i = 0; i < 12; i++)
        for (size_t k = i + 1; k < 12; k++)
            for (size_t way = 0; way < WAYS * WAYS; way++) {
                memcpy(bytes, tag->bytes, sizeof bytes);
                bytes[i] = changed[i][way / WAYS];
                bytes[k] = changed[k][way % WAYS];
                ask(bytes, tag->len);
            }
}

/* A tag that still has its head is written back too. */
static void curv_changed(const uint8_t *bytes, size_t len)
{
    size_t count = (len - 12) / 2;
    read_curv(tag_of(bytes, len), count);
    if (memcmp(bytes, curvs[count].bytes, 12) == 0)
        write_curv(bytes, count);
}

static void para_changed(const uint8_t *bytes, size_t len)
{
    read_para(tag_of(bytes, len));
    if (bytes[9] < TYPES && memcmp(bytes, paras[bytes[9]].bytes, 12) == 0 && len == paras[bytes[9]].len)
        write_para(bytes[9], bytes, len);
}

static void each_curv_byte(void)
{
    for (size_t i = 0; i < CURVS; i++)
        each_byte(&curvs[i], curv_changed);
}

static void each_para_byte(void)
{
    for (size_t i = 0; i < PARAS; i++)
        each_byte(&paras[i], para_changed);
}

static void most_changed(const uint8_t *head, size_t len)
{
    read_curv(long_tag(head, len), 65536);
}

static void each_curv_pair(void)
{
    static const struct tag longest = {12 + 2 * 65536, "curv\0\0\0\0\0\1\0\0", {0}};
    for (size_t i = 0; i < CURVS; i++)
        each_pair(&curvs[i], curv_changed);
    each_pair(&longest, most_changed);
}

static void each_para_pair(void)
{
    for (size_t i = 0; i < TYPES; i++)
        each_pair(&paras[i], para_changed);
}

/* Every length from none to four too many. */
static void curv_lengths(void)
{
    for (size_t i = 0; i < CURVS; i++)
        for (size_t n = 0; n <= curvs[i].len + 4; n++)
            read_curv(tag_of(curvs[i].bytes, n), i);
    for (size_t n = 0; n <= most_bytes + 4; n++)
        read_curv(long_tag(most(), n), 65536);
}

static void para_lengths(void)
{
    for (size_t i = 0; i < PARAS; i++)
        for (size_t n = 0; n <= paras[i].len + 4; n++) {
            uint8_t padded[44] = {0};
            memcpy(padded, paras[i].bytes, 40);
            read_para(tag_of(padded, n));
        }
}

/*
 * Counts about 65,536 and 2^32, with totals that suit them, that do not, and that would if the count, the total or
 * twice the count were cut to 16 or 32 bits.
 */
static void curv_counts(void)
{
    static const uint32_t counts[] = {
        0, 1, 2, 32767, 32768, 65534, 65535, 65536, 65537, 65538, 131071, 131072, 131073, 0x7ffffffe, 0x7fffffff,
        0x80000000, 0x80000001, 0x80000002, 0x80010000, 0xfffffffa, 0xfffffffe, 0xffffffff,
    };
    static const size_t totals[] = {
        0, 10, 11, 12, 13, 14, 15, 16, 17, 65546, 65547, 65548, 131078, 131080, 131082, 131083, 131084, 131085, 131086,
        131087, 131088, 262154, 262156, 262158,
    };
    for (size_t c = 0; c < sizeof counts / sizeof *counts; c++)
        for (size_t t = 0; t < sizeof totals / sizeof *totals; t++) {
            uint8_t head[12] = "curv";
            for (size_t k = 0; k < 4; k++)
                head[8 + k] = (uint8_t)(counts[c] >> (24 - 8 * k));
            read_curv(long_tag(head, totals[t]), counts[c] > 65536 ? 65536 : counts[c]);
        }
}

/* A tag that is to be refused with this number. */
struct refused {
    uint32_t number;
    size_t len;
    const char *bytes;
};

static void curv_in_two_ways(void)
{
    static const struct refused tags[] = {
        /* short, and 9; 10; all */
        {8, 11, "curw\0\0\0\0\0\0\0"},
        {8, 11, "curv\0\1\0\0\0\0\0"},
        {8, 11, "para\xff\xff\xff\xff\xff\xff\xff"},
        /* 9, and 10; 1; 8; all */
        {9, 12, "Curv\1\0\0\0\0\0\0\0"},
        {9, 12, "curV\0\0\0\0\0\1\0\1"},
        {9, 12, "cUrv\0\0\0\0\0\0\0\1"},
        {9, 13, "para\xff\xff\xff\xff\xff\xff\xff\xff\xff"},
        /* 10, and 1; 8; both */
        {10, 12, "curv\0\0\0\1\0\1\0\1"},
        {10, 12, "curv\0\0\x80\0\0\0\0\1"},
        {10, 13, "curv\xff\xff\xff\xff\xff\xff\xff\xff\xff"},
        /* 1, and 8, of an even total and of an odd one */
        {1, 12, "curv\0\0\0\0\0\1\0\1"},
        {1, 13, "curv\0\0\0\0\xff\xff\xff\xff\0"},
    };
    for (size_t i = 0; i < sizeof tags / sizeof *tags; i++) {
        buffer tag = tag_of((const uint8_t *)tags[i].bytes, tags[i].len);
        EXPECT(ref_curv_count(tag.read, tag.count).refusal == tags[i].number);
        read_curv(tag, 0);
    }
}

static void para_in_two_ways(void)
{
    static const struct refused tags[] = {
        /* short, and 9; 10; all */
        {8, 11, "parb\0\0\0\0\0\0\0"},
        {8, 11, "para\0\0\1\0\0\0\0"},
        {8, 11, "curv\xff\xff\xff\xff\xff\xff\xff"},
        /* 9, and either 10; 11; 8; all */
        {9, 16, "Para\0\0\0\1\0\0\0\0\0\1\0\0"},
        {9, 16, "parA\0\0\0\0\0\0\0\1\0\1\0\0"},
        {9, 16, "pAra\0\0\0\0\0\5\0\0\0\1\0\0"},
        {9, 15, "paRa\0\0\0\0\0\0\0\0\0\1\0"},
        {9, 13, "curv\xff\xff\xff\xff\xff\xff\xff\xff\xff"},
        /* either 10, and 11; 8; all */
        {10, 16, "para\1\0\0\0\0\5\0\0\0\1\0\0"},
        {10, 15, "para\0\1\0\0\0\0\0\0\0\1\0"},
        {10, 16, "para\0\0\0\0\0\5\0\1\0\1\0\0"},
        {10, 15, "para\0\0\0\0\0\0\1\0\0\1\0"},
        {10, 13, "para\xff\xff\xff\xff\xff\xff\xff\xff\xff"},
        /* 11, and 8 */
        {11, 13, "para\0\0\0\0\0\5\0\0\0"},
        {11, 12, "para\0\0\0\0\xff\xff\0\0"},
    };
    for (size_t i = 0; i < sizeof tags / sizeof *tags; i++) {
        buffer tag = tag_of((const uint8_t *)tags[i].bytes, tags[i].len);
        EXPECT(ref_para_read(tag.read, tag.count).refusal == tags[i].number);
        read_para(tag);
    }
}

/* Buffers of other lengths: 6, and before it the curv writer's 1, and the para writer's 11 at any width of the type. */
static void buffers(void)
{
    static const size_t lengths[] = {0, 11, 12, 13, 14, 16, 24, 28, 32, 40, 131083, 131084, 131085, 131086, 131087};
    static const size_t tables[] = {0, 1, 2, 65535, 65536, 65537, 131072, LONGEST};
    static const size_t types[] = {0, 1, 2, 3, 4, 5, 255, 256, 257, 65536, 65537, (size_t)1 << 32, SIZE_MAX};
    static const int32_t raw[7] = {1, 2, 3, 4, 5, 6, 7};
    enum { LENGTHS = sizeof lengths / sizeof *lengths };
    buffer two = tag_of(curvs[2].bytes, 16);
    for (size_t n = 0; n <= 5; n++)
        ask_curv_read(two, entries_out(n));
    for (size_t t = 0; t < sizeof tables / sizeof *tables; t++)
        for (size_t n = 0; n < LENGTHS; n++) {
            buffer table = lent(LONG_SECOND, tables[t], 2), out = bytes_out(lengths[n]);
            ask_curv_write(table, out);
        }
    for (size_t t = 0; t < sizeof types / sizeof *types; t++)
        for (size_t n = 0; n < LENGTHS; n++)
            ask_para_write(types[t], raw, bytes_out(lengths[n]));
}

/* Lengths of tables, rows and outputs: none, too few, as many as are needed or as there may be, and too many. */
static const size_t telling_lengths[] = {0, 1, 2, 3, 1023, 1024, 1025, 65535, 65536, 65537, LONGEST};
enum { TELLING_LENGTHS = sizeof telling_lengths / sizeof *telling_lengths };

/* The calls that fill an output from nothing. */
static void fillers(void)
{
    for (size_t i = 0; i < TELLING_LENGTHS; i++) {
        ask_start(entries_out(telling_lengths[i]));
        ask_house_fill(entries_out(telling_lengths[i]));
        ask_passthrough_table_impl(words_out(telling_lengths[i]));
    }
}

/* Tables of gamma curves: every n beside every length, with exponents that are allowed, and about the limits. */
static void gamma_tables(void)
{
    static const uint64_t exponents[] = {0, 65535, 144128, 262145, (UINT64_C(1) << 32) + 65536};
    static const uint16_t gammas[] = {0, 563, 1025, 65535};
    for (size_t n = 0; n < TELLING_LENGTHS; n++)
        for (size_t i = 0; i < TELLING_LENGTHS; i++) {
            for (size_t k = 0; k < sizeof exponents / sizeof *exponents; k++)
                ask_power_table(entries_out(telling_lengths[i]), telling_lengths[n], exponents[k]);
            for (size_t k = 0; k < sizeof gammas / sizeof *gammas; k++)
                ask_tag_power_table(entries_out(telling_lengths[i]), telling_lengths[n], gammas[k]);
        }
}

/* Tables of every length up to 40, of exponents below 1, at 1 and above, so that every kind of ramp's step is met. */
static void gamma_ramps(void)
{
    for (size_t n = 0; n <= 40; n++)
        for (size_t k = 1; k <= 8; k++) {
            ask_power_table(entries_out(n), n, k * 32768);
            ask_tag_power_table(entries_out(n), n, (uint16_t)(k * 128));
        }
}

/* Every exponent about a limit, about a whole one and about a power of two, and every entry that a tag may have. */
static void gamma_exponents(void)
{
    static const uint16_t xs[] = {0, 1, 2, 255, 256, 32767, 32768, 65533, 65534, 65535};
    enum { XS = sizeof xs / sizeof *xs };
    for (uint64_t whole = 0; whole <= 5 * 65536; whole += 65536)
        for (uint64_t near = 0; near <= 200; near++)
            for (size_t i = 0; i < XS; i++)
                ask_power(xs[i], whole + near - 100);
    for (unsigned bit = 0; bit < 64; bit++)
        for (uint64_t near = 0; near <= 2; near++)
            for (size_t i = 0; i < XS; i++)
                ask_power(xs[i], (UINT64_C(1) << bit) + near - 1);
    for (uint32_t gamma = 0; gamma < 65536; gamma++)
        for (size_t i = gamma < 1030 ? 0 : XS - 1; i < XS; i++)
            ask_tag_power(xs[i], (uint16_t)gamma);
}

/* Values at the brink: a step or a root that is rounded up, and so one 65536th more, makes each of them one more. */
static void gamma_brinks(void)
{
    static const struct {
        uint16_t x;
        uint32_t exponent;
        uint16_t value;
    } brinks[] = {
        {39033, 255, 65403}, {26342, 49152, 33083}, {65534, 65535, 65534}, {7028, 98304, 2301}, {65534, 98304, 65533},
        {47777, 144128, 32705}, {49641, 144128, 35577}, {29666, 157286, 9780}, {65348, 163840, 65068},
        {64326, 196608, 61974}, {35693, 262144, 5766},
    };
    for (size_t i = 0; i < sizeof brinks / sizeof *brinks; i++) {
        EXPECT(ref_power(drive(brinks[i].x), brinks[i].exponent).density.value == brinks[i].value);
        ask_power(brinks[i].x, brinks[i].exponent);
        if (brinks[i].exponent % 256 == 0)
            ask_tag_power(brinks[i].x, (uint16_t)(brinks[i].exponent / 256));
    }
}

/* Fills a lent table: entry i of n is 65535 i / n, cut, or so much below 65535. */
static buffer slope(buffer b, bool rising)
{
    for (size_t i = 0; i < b.count; i++) {
        uint16_t step = (uint16_t)(65535 * i / b.count), entry = (uint16_t)(rising ? step : 65535 - step);
        memcpy(b.write + 2 * i, &entry, 2);
    }
    return b;
}

/* The calls that fill an output from a table, and the one that changes it. */
static void from_table(buffer table)
{
    for (size_t i = 0; i < TELLING_LENGTHS; i++) {
        ask_bake(table, entries_out(telling_lengths[i]));
        ask_invert_lut(table, entries_out(telling_lengths[i]));
    }
    ask_nudge(table, table.count, 0);
    ask_nudge(table, 0, 0);
}

/* The calls that fill an output from a table and a row. A row of 2^20 is left out: it would take long. */
static void from_row(buffer table)
{
    for (size_t r = 0; r < TELLING_LENGTHS - 1; r++) {
        buffer row = slope(lent_by_length(SECOND, LONG_SECOND, telling_lengths[r], 2), false);
        for (size_t i = 0; i < TELLING_LENGTHS; i++) {
            ask_lut_interp_linear16_row(table, row, entries_out(telling_lengths[i]));
            ask_least_input_row(table, row, words_out(telling_lengths[i]));
        }
    }
}

static void outputs(void)
{
    static const size_t tables[] = {0, 1, 2, 65536, 65537, LONGEST};
    fillers();
    for (size_t t = 0; t < sizeof tables / sizeof *tables; t++)
        for (int rising = 0; rising <= 1; rising++) {
            buffer table = slope(lent_by_length(FIRST, LONG_FIRST, tables[t], 2), rising);
            from_table(table);
            from_row(table);
        }
}

/* The longest table inverted to the longest where it is 0 or 65535 throughout: the Rust's own steps overflow here. */
static void flat_inverses(void)
{
    for (int byte = 0; byte <= 0xff; byte += 0xff) {
        buffer table = lent(LONG_FIRST, 65536, 2);
        memset(table.write, byte, 2 * 65536);
        ask_invert_lut(table, entries_out(65536));
    }
}

/* ---- Logs ---- */

/* What a table and its log are before a call, so that the next call finds them again. */
struct kept {
    logged l;
    uint16_t table[65537];
    bg_record log[BG_LOG_PLACES];
    size_t count;
};
static struct kept kept;

static void put_kept(void)
{
    if (kept.l.table.count > 0)
        memcpy(kept.l.table.write, kept.table, kept.l.table.count * sizeof *kept.table);
    memcpy(kept.l.log.write, kept.log, sizeof kept.log);
    memcpy(kept.l.count.write, &kept.count, sizeof kept.count);
}

/* Lends a table of so many entries, rising or falling, and a log whose every record nudged one entry of it. */
static void keep_log(size_t table_len, bool rising, size_t index, size_t count)
{
    buffer table = slope(lent_by_length(FIRST, LONG_FIRST, table_len, 2), rising);
    kept.l = lent_beside(table);
    if (table_len > 0)
        memcpy(kept.table, table.read, table_len * sizeof *kept.table);
    for (size_t i = 0; i < BG_LOG_PLACES; i++) {
        bg_record record = {kept.table[index], kept.table[index], (uint16_t)index, 0};
        kept.log[i] = record;
    }
    kept.count = count;
}

/* A call of each kind on what is kept. */
static void each_call(size_t index, uint16_t value)
{
    put_kept();
    ask_log_start(kept.l);
    put_kept();
    ask_log_accept(kept.l);
    put_kept();
    ask_log_nudge(kept.l, index, value);
    put_kept();
    ask_take_back(kept.l);
}

/* Every count to past the places, and counts that would do if they were cut to 8, 16 or 32 bits. */
static void log_counts_of(size_t table_len, bool rising)
{
    static const size_t cut[] = {256, 65536, (size_t)1 << 31, (size_t)1 << 32, (size_t)1 << 63, SIZE_MAX - 62};
    for (size_t count = 0; count <= 130; count++) {
        keep_log(table_len, rising, 0, count);
        each_call(0, kept.table[0]);
    }
    for (size_t i = 0; i < sizeof cut / sizeof *cut; i++)
        for (size_t more = 0; more <= 63; more += more == 1 ? 60 : 1) {
            keep_log(table_len, rising, 0, cut[i] + more);
            each_call(0, kept.table[0]);
        }
}

static void log_counts(void)
{
    static const size_t lengths[] = {0, 1, 2, 21, 65537};
    for (size_t i = 0; i < sizeof lengths / sizeof *lengths; i++) {
        log_counts_of(lengths[i], true);
        log_counts_of(lengths[i], false);
    }
}

/* Each bit of the last record changed, by itself and together with every other. */
static void each_bit_of(size_t table_len, size_t index, size_t count)
{
    uint64_t sound;
    keep_log(table_len, true, index, count);
    memcpy(&sound, &kept.log[count - 1], sizeof sound);
    for (unsigned a = 0; a < 64; a++)
        for (unsigned b = a; b < 64; b++) {
            uint64_t changed = sound ^ (UINT64_C(1) << a | UINT64_C(1) << b);
            memcpy(&kept.log[count - 1], &changed, sizeof changed);
            put_kept();
            ask_take_back(kept.l);
            put_kept();
            ask_log_nudge(kept.l, index, kept.table[index]);
        }
}

static void last_record_bits(void)
{
    static const struct {
        size_t table_len, index;
    } nudges[] = {{1, 0}, {2, 0}, {2, 1}, {3, 0}, {3, 1}, {3, 2}, {21, 0}, {21, 10}, {21, 20}};
    for (size_t i = 0; i < sizeof nudges / sizeof *nudges; i++) {
        each_bit_of(nudges[i].table_len, nudges[i].index, 1);
        each_bit_of(nudges[i].table_len, nudges[i].index, 62);
        each_bit_of(nudges[i].table_len, nudges[i].index, 63);
    }
}

/* Each bit by itself over the longest table, which has an entry at every index of 16 bits. */
static void last_record_bits_longest(void)
{
    static const size_t indices[] = {0, 1, 32768, 65534, 65535};
    for (size_t i = 0; i < sizeof indices / sizeof *indices; i++) {
        keep_log(65536, true, indices[i], 63);
        for (size_t bit = 0; bit < 64; bit++) {
            uint64_t flipped;
            memcpy(&flipped, &kept.log[0], sizeof flipped);
            flipped ^= UINT64_C(1) << bit;
            memcpy(&kept.log[62], &flipped, sizeof flipped);
            put_kept();
            ask_take_back(kept.l);
        }
    }
}

/* Every old and new entry about the table's own, at every index about the table, in tables with and without room. */
static void last_record_entries(void)
{
    static const uint16_t tables[][3] = {{2, 4, 6}, {4, 4, 4}, {0, 4, 4}, {4, 4, 65535}, {0, 0, 65535}, {4, 2, 6}};
    for (size_t t = 0; t < sizeof tables / sizeof *tables; t++)
        for (size_t n = 1; n <= 3; n++)
            for (size_t way = 0; way < 5 * 11 * 11; way++) {
                size_t old_entry = way / 5 % 11, new_entry = way / 55;
                bg_record record = {(uint16_t)(new_entry - 2), (uint16_t)(old_entry - 2), (uint16_t)(way % 5), 0};
                keep_log(n, true, 0, 1);
                memcpy(kept.table, tables[t], n * sizeof **tables);
                kept.log[0] = record;
                put_kept();
                ask_take_back(kept.l);
            }
}

/* Every index and entry about a table's own, over logs with room and without. */
static void log_nudges(void)
{
    static const uint16_t tables[][3] = {{2, 4, 6}, {4, 4, 4}, {0, 4, 4}, {4, 4, 65535}, {0, 0, 65535}, {4, 2, 6}};
    static const size_t counts[] = {0, 1, 62, 63, 64};
    static const size_t indices[] = {0, 1, 2, 3, 4, 65536, (size_t)1 << 32, SIZE_MAX};
    for (size_t t = 0; t < sizeof tables / sizeof *tables; t++)
        for (size_t n = 1; n <= 3; n++)
            for (size_t way = 0; way < 5 * 8 * 11; way++) {
                keep_log(n, true, 0, counts[way % 5]);
                memcpy(kept.table, tables[t], n * sizeof **tables);
                put_kept();
                ask_log_nudge(kept.l, indices[way / 5 % 8], (uint16_t)(way / 40 - 2));
            }
}

/* Lengths past 2^32, of each buffer of each export, which would do if they were cut to 32 bits. */
static void vast(void)
{
    static const uint16_t rising[4] = {1, 2, 3, 4};
    static const int32_t raw[7] = {1, 2, 3, 4, 5, 6, 7};
    buffer two = lent(FIRST, 2, 2), row = lent(SECOND, 2, 2), floats = lent(SECOND, 2, 4);
    memcpy(two.write, rising, 4);
    memset(floats.write, 0, 8);
    for (size_t more = 0; more <= 7; more++) {
        buffer table = lent_vast(more, 2, rising, 8), out = lent(OUT, more, 2), longs = lent(OUT, more, 4);
        ask_lut_interp_linear16(table, 9);
        ask_lut_interp_linear16_row(table, row, lent(OUT, 2, 2));
        ask_lut_interp_linear16_row(two, table, out);
        ask_lut_interp_linear16_row(two, lent(SECOND, more, 2), table);
        ask_bake(table, lent(LONG_OUT, 65536, 2));
        ask_lut_interp_linear_gamma_impl(table, 2, 8, 1);
        ask_start(table);
        ask_accept(table);
        ask_nudge(table, 0, 1);
        ask_log_start(lent_beside(table));
        ask_log_accept(lent_beside(table));
        ask_log_nudge(lent_beside(table), 0, 1);
        ask_take_back(lent_beside(table));
        ask_least_input(table, 1);
        ask_least_input_row(table, row, lent(OUT, 2, 4));
        ask_least_input_row(two, table, longs);
        ask_lut_inverse_interp16(table, 1);
        ask_invert_lut(table, lent(OUT, 2, 2));
        ask_invert_lut(two, table);
        ask_lut_interp_linear_float(lent_vast(more, 4, rising, 0), 1);
        ask_lut_interp_linear(table, 1);
        ask_passthrough_table_impl(lent_vast(more, 4, rising, 0));
        ask_parametric_curve_new(lent_vast(more, 4, rising, 0));
        ask_compare_parametric(lent_vast(more, 4, rising, 0), floats);
        ask_is_curve_monotonic(table, true);
        ask_is_curve_degenerated(table);
        ask_curv_write(table, lent(OUT, 12 + 2 * more, 1));
        ask_power_table(table, more, 65536);
        ask_power_table(table, table.count, 65536);
        ask_power_table(out, table.count, 65536);
        ask_tag_power_table(table, more, 256);
        ask_tag_power_table(table, table.count, 256);
        ask_tag_power_table(out, table.count, 256);
    }
    ask_bake(two, lent_vast(65536, 2, rising, 8));
    ask_house_fill(lent_vast(1024, 2, rising, 8));
    for (size_t n = 0; n < CURVS; n++) {
        buffer tag = lent_vast(curvs[n].len, 1, curvs[n].bytes, curvs[n].len);
        read_curv(tag, n);
        ask_curv_read(tag_of(curvs[n].bytes, curvs[n].len), lent_vast(n, 2, rising, 0));
        ask_curv_write(lent(FIRST, n, 2), lent_vast(12 + 2 * n, 1, rising, 0));
    }
    for (size_t t = 0; t < TYPES; t++) {
        read_para(lent_vast(paras[t].len, 1, paras[t].bytes, paras[t].len));
        ask_para_write(t, raw, lent_vast(paras[t].len, 1, rising, 0));
    }
}

/* ---- f64 to the nearest f32 ---- */

static unsigned long numbers;

static void ask_rounded(uint64_t bits)
{
    double x;
    memcpy(&x, &bits, sizeof x);
    ask_nearest_f64_to_f32(x);
}

static uint64_t packed(uint64_t sign, uint64_t exponent, uint64_t digits)
{
    return (sign & UINT64_C(1) << 63) | exponent << 52 | (digits & ((UINT64_C(1) << 52) - 1));
}

/* The digits down to 2^places, and below them half of that, or one less or more. */
static uint64_t near_half(uint64_t digits, unsigned places, uint64_t w)
{
    return (digits >> places << places) | ((UINT64_C(1) << (places - 1)) - 1 + w % 3);
}

static void any_pattern(void)
{
    for (size_t i = 0; i < numbers; i++)
        ask_rounded(word());
}

static void normal_ties(void)
{
    for (size_t i = 0; i < numbers; i++) {
        uint64_t w = word();
        ask_rounded(packed(w, 897 + (w >> 52) % 254, near_half(w, 29, w)));
    }
}

/* Below the normal numbers, down to half of the smallest. */
static void subnormal_ties(void)
{
    for (size_t i = 0; i < numbers; i++) {
        uint64_t w = word();
        unsigned exponent = 872 + (unsigned)((w >> 52) % 25);
        ask_rounded(packed(w, exponent, near_half(w, 926 - exponent, w)));
    }
}

static void largest(void)
{
    for (size_t i = 0; i < numbers; i++) {
        uint64_t w = word();
        ask_rounded(packed(w, 1149 + (w >> 52) % 3, near_half((UINT64_C(1) << 52) - 1, 29, w)));
    }
}

static void special(void)
{
    for (size_t i = 0; i < numbers; i++) {
        uint64_t w = word();
        ask_rounded(packed(w, 2047 * (w % 2), w % 4 < 2 ? 0 : w));
    }
}

/*
 * Below 2^24 every number is a float itself. Above, those that matter are at a tie and next to one: of each power of
 * two the first, the last and any. The rest are each half with the other all zeros or all ones, and any numbers.
 */
static void signed_16_16(void)
{
    for (unsigned bits = 25; bits <= 31; bits++)
        for (size_t i = 0; i < 4000; i++) {
            uint32_t unit = UINT32_C(1) << (bits - 24), top = UINT32_C(1) << (bits - 1);
            uint32_t digits = i == 0 ? 0 : i == 1 ? top - unit : (uint32_t)word() % top / unit * unit;
            for (uint32_t near = 0; near <= 2; near++) {
                int32_t x = (int32_t)(top + digits + unit / 2 - 1 + near);
                ask_s15_fixed16_number_to_float(x);
                ask_s15_fixed16_number_to_float(-x);
            }
        }
    for (uint32_t half = 0; half < 65536; half++) {
        ask_s15_fixed16_number_to_float((int32_t)half);
        ask_s15_fixed16_number_to_float((int32_t)(half << 16));
        ask_s15_fixed16_number_to_float((int32_t)(half << 16 | 0xffff));
        ask_s15_fixed16_number_to_float((int32_t)(0xffff0000 | half));
    }
    for (size_t i = 0; i < numbers; i++)
        ask_s15_fixed16_number_to_float((int32_t)word());
}

static void unsigned_8_8(void)
{
    for (uint32_t x = 0; x < 65536; x++)
        ask_u8_fixed_8number_to_float((uint16_t)x);
}

/* Document 01's thirteen numbers, of the reference. */
static void thirteen(void)
{
    static const uint16_t straight[2] = {0, 65535}, one[1] = {1000}, bent[3] = {0, 100, 65535}, back[2] = {65535, 0};
    static const uint16_t low[2] = {10, 20}, full[2] = {65535, 65535};
    uint16_t three[3];
    EXPECT(ref_lut_interp_linear16(straight, 2, drive(12345)).density.value == 12345);
    EXPECT(ref_lut_interp_linear16(one, 1, drive(65535)).density.value == 1000);
    EXPECT(ref_lut_interp_linear16(bent, 3, drive(32767)).density.value == 99);
    EXPECT(ref_lut_interp_linear16(bent, 3, drive(32768)).density.value == 100);
    EXPECT(ref_lut_interp_linear16(back, 2, drive(1)).density.value == 65534);
    EXPECT(ref_lut_inverse_interp16(bent, 3, density(0)).drive.value == 255);
    EXPECT(ref_least_input(bent, 3, density(0)).drive.value == 0);
    EXPECT(ref_least_input(bent, 3, density(100)).drive.value == 32768);
    EXPECT(ref_least_input(bent, 3, density(65534)).drive.value == 65535);
    EXPECT(ref_least_input(low, 2, density(21)).refusal == 5);
    EXPECT(ref_lut_inverse_interp16(full, 2, density(7)).drive.value == 0);
    EXPECT(ref_lut_interp_linear_gamma_impl(straight, 2, 2, 10, 1).code == 1024);
    EXPECT(ref_start(three, 3) == 0 && three[0] == 0 && three[1] == 32768 && three[2] == 65535);
}

void sweeps(unsigned long of_each_class)
{
    numbers = of_each_class;
    seed(1);
    open_rooms();
    subject("the reference", thirteen);
    subject("curv layouts", curv_layouts);
    subject("para layouts", para_layouts);
    subject("curv, each byte changed", each_curv_byte);
    subject("para, each byte changed", each_para_byte);
    subject("curv, two bytes changed", each_curv_pair);
    subject("para, two bytes changed", each_para_pair);
    subject("curv, cut short and padded", curv_lengths);
    subject("para, cut short and padded", para_lengths);
    subject("curv counts", curv_counts);
    subject("curv, wrong in two ways", curv_in_two_ways);
    subject("para, wrong in two ways", para_in_two_ways);
    subject("buffers of tags", buffers);
    subject("outputs of every length", outputs);
    subject("flat tables inverted", flat_inverses);
    subject("tables of gamma curves, of every length", gamma_tables);
    subject("tables of gamma curves, short ones", gamma_ramps);
    subject("exponents about their limits", gamma_exponents);
    subject("values at the brink", gamma_brinks);
    subject("logs of every count", log_counts);
    subject("logged nudges about a table's entries", log_nudges);
    subject("the last record, its bits changed", last_record_bits);
    subject("the last record over the longest table", last_record_bits_longest);
    subject("the last record, about a table's entries", last_record_entries);
    subject("lengths past 2^32", vast);
    subject("f64 of any pattern", any_pattern);
    subject("f64 at a tie, or next to one", normal_ties);
    subject("f64 at a tie below the normal f32s", subnormal_ties);
    subject("f64 about the largest f32", largest);
    subject("f64 that is zero, subnormal, infinite or no number", special);
    subject("signed 16.16", signed_16_16);
    subject("unsigned 8.8", unsigned_8_8);
}
