/* What the face's tests share: a count of what was expected, and lent buffers that show every write beside them. */
#ifndef CHECK_H
#define CHECK_H

#include "../../include/brassgroat.h"

/* Counts one expectation, and prints where it stands if it does not hold. */
void expect(bool holds, const char *what, const char *file, int line);
#define EXPECT(holds) expect((holds), #holds, __FILE__, __LINE__)

/* Counts one expectation, where the caller prints what does not hold. */
void tally(bool holds);

/*
 * Lends a buffer of `count` elements of `size` bytes, filled with a pattern. Guard words stand before it, and after it
 * a page that can be neither read nor written. Lending nothing gives a null pointer.
 */
void *lend(size_t count, size_t size);
#define LEND(type, count) ((type *)lend((count), sizeof(type)))

/* Lends a buffer that holds what is given. */
void *lend_copy(const void *from, size_t count, size_t size);
#define LEND_COPY(type, ...) \
    ((type *)lend_copy((const type[]){__VA_ARGS__}, sizeof((const type[]){__VA_ARGS__}) / sizeof(type), sizeof(type)))

/* Takes what every lent buffer holds now for what it should hold. */
void settle(void);

/* Says, after settling, that a call should leave these bytes at a place in a lent buffer. */
void should_be(const void *at, const void *these, size_t bytes);

/* Whether every lent buffer but `out` holds what it should hold, and every guard word stands. */
bool kept_but(const void *out);

/* Gives all lent buffers back. */
void give_back(void);

/* A granted call: it gives 0, and writes to `out` alone. */
#define GRANTED(out, call) (settle(), EXPECT((call) == 0), EXPECT(kept_but(out)))

/* A refused call: it gives the number, and changes no buffer. */
#define REFUSED(number, call) (settle(), EXPECT((call) == (number)), EXPECT(kept_but(NULL)))

/* A call that answers by a value changes no buffer either. */
#define ANSWERS(holds) (settle(), EXPECT(holds), EXPECT(kept_but(NULL)))

/* Lends a table whose entries are all the same. */
uint16_t *lend_same(uint16_t entry, size_t count);

/* A float's bits, so that zeros are told apart. */
uint32_t bits_of(float x);

/* A position and a sample, for a call's arguments. */
bg_drive drive(uint16_t value);
bg_density density(uint16_t value);

/* Whether a curve is granted with these numbers; and whether it is refused, with seven times 0.0, bit for bit. */
bool curve_is(bg_parametric p, float g, float a, float b, float c, float d, float e, float f);
bool curve_refused(bg_parametric p, uint32_t refusal);

/* One for each subject. */
void curv_tags(void);
void curves(void);
void floats(void);
void house_curve(void);
void inverses(void);
void logs(void);
void lookups(void);
void para_curves(void);
void para_tags(void);
void parametrics(void);
void ported_inverses(void);
void powers(void);
void refusals(void);
void rounded(void);
void verdicts(void);
void version(void);

/*
 * Runs a subject, gives its buffers back, and prints how many expectations it had and how many failed. A subject that
 * expects nothing has failed.
 */
void subject(const char *name, void (*run)(void));

/* Runs every subject whose calls work in floats, or every other one. */
void run_all(bool floats);

/* Runs them in other floating-point environments. */
void environments(void);

#endif
