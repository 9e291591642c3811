/* What is measured, and on what: a curve in every form that a call wants, the questions, and room for the answers. */
#ifndef WORK_H
#define WORK_H

#include "brassgroat.h"

#include <stdbool.h>
#include <stddef.h>
#include <stdint.h>

enum { QUESTIONS = 16384, INVERTED = 4096, POSITIONS = 65536, TAG_HEAD = 12 };

/* The gamma curves: 2.2 in 65536ths, all of whose sixteen roots are taken, and a gamma tag's 2.2, which takes eight. */
enum { EXPONENT = 144179, GAMMA_ENTRY = 563 };

/* Little CMS tabulates a gamma curve at so many entries, and at no other number. */
enum { LCMS_GAMMA_ENTRIES = 4096 };

struct work {
    size_t n;                /* entries of the curve */
    size_t count;            /* questions to ask, or whole tables to do */
    uint16_t *table;         /* the curve */
    uint16_t *straight;      /* the straight curve of n entries: where a gamma curve's table asks */
    float *floats;           /* the curve, 1 for 65535 */
    uint16_t *baked;         /* its answers at every position */
    uint8_t *tag;            /* the curve as a curv tag */
    uint16_t *asked;         /* positions or values, anywhere */
    uint16_t *asked_near;    /* positions that wander, each near the one before it, as along a row of a picture */
    float *asked_f32;        /* numbers from 0 to 1 */
    double *asked_f64;       /* the same */
    bg_record *log;          /* a full log: the first questions as nudges of entries to what they are */
    uint16_t *out;           /* answers: a row, a baked, an inverted or a read table */
    uint32_t *out_wide;      /* answers: a row of inverses */
    uint8_t *out_tag;        /* answers: a written tag */
    void *rust_tag;          /* what the Rust writes its tag from and to */
    void *lcms_curve;        /* the curve as Little CMS keeps it; NULL where it takes none so long */
};

/* Asks work->count questions, or does as many whole tables. The sum of the answers; of calls that fill a buffer, of
   what they return. */
typedef uint64_t piece(const struct work *work);

/* One side of a comparison. */
struct side {
    const char *call;        /* what is done, as in the list of calls */
    const char *who;         /* ours, called, inlined, libc or lcms */
    bool same;               /* whether its answers must be those of our side */
    piece *run;
};

extern const struct side our_sides[], rust_sides[], libc_sides[], lcms_sides[];
void rust_prepare(struct work *work);
void rust_settle(struct work *work); /* brings what the Rust wrote into work->out_tag */
void lcms_prepare(struct work *work);
uint16_t lcms_lookup(const struct work *work, uint16_t position);
size_t lcms_gamma(double gamma, uint16_t *out); /* cmsBuildGamma's entries, into room for POSITIONS, and how many */
uint16_t libc_value(uint16_t x, double gamma); /* a gamma curve's value by the C library's pow, rounded */
/* Gives back the position: for the cost of a loop of calls. */
uint16_t same(const uint16_t *table, size_t n, uint16_t position);

#endif
