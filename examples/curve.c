/*
 * A morning at the lab, in C: a curve arrives as an ICC tag, the operator nudges a point, overshoots and takes that
 * back, the day's jobs read the curve, and it goes back into a tag. From the project's root:
 *
 *     (cd crates/brassgroat && rt lib)
 *     cc -Iinclude -o target/curve examples/curve.c crates/brassgroat/out/libbrassgroat.a && target/curve
 */
#include <brassgroat.h>

#include <stdio.h>
#include <stdlib.h>

/* Every answer begins with a number. 0 is done; any other says why not, and then the call has changed nothing. */
static void must(uint32_t refusal, const char *what)
{
    if (refusal != BG_DONE) {
        fprintf(stderr, "%s was refused with %u, %s\n", what, (unsigned)refusal, bg_refusal_text(refusal));
        exit(1);
    }
}

int main(void)
{
    /* An archive of another version may have other structs than this header. */
    if (bg_version() != BG_VERSION) {
        fprintf(stderr, "the archive's version is %u, and the header's %u\n", (unsigned)bg_version(),
                (unsigned)BG_VERSION);
        return 1;
    }

    /* The tag: "curv", four zero bytes, how many entries, and the entries, big-endian. */
    const uint8_t tag[] = {'c', 'u', 'r', 'v', 0, 0, 0, 0, 0, 0, 0, 5,
                           0x00, 0x00, 0x23, 0x28, 0x75, 0x30, 0xcb, 0x20, 0xff, 0xff};

    /* Ask how many entries there are, lend a buffer of exactly that many, and read them. */
    bg_count count = bg_curv_count(tag, sizeof tag);
    must(count.refusal, "counting the tag's entries");
    size_t n = count.entries;
    uint16_t *table = malloc(n * sizeof *table);
    if (table == NULL)
        return 1;
    must(bg_curv_read(tag, sizeof tag, table, n), "reading the tag");
    printf("the tag has %zu entries, the third is %u\n", n, (unsigned)table[2]);

    /* A curve may be worked on if no entry is below the one before it. The log beside it is empty from here on. */
    bg_record log[BG_LOG_PLACES];
    size_t standing = 0;
    must(bg_log_accept(table, n, log, &standing), "accepting the curve");

    /* The operator nudges the middle. A nudge past a neighbour is refused, and the curve stays in order. */
    bg_density darker = {33000}, too_dark = {60000}, overshot = {45000};
    must(bg_log_nudge(table, n, log, &standing, 2, darker), "nudging the third entry");
    printf("nudged to %u\n", (unsigned)table[2]);
    if (bg_log_nudge(table, n, log, &standing, 2, too_dark) == BG_OUTSIDE_NEIGHBOURS)
        printf("60000 is above the next entry: still %u\n", (unsigned)table[2]);

    /* A nudge that went too far is taken back. The log says what stands. */
    must(bg_log_nudge(table, n, log, &standing, 2, overshot), "nudging it again");
    printf("overshot to %u\n", (unsigned)table[2]);
    must(bg_take_back(table, n, log, &standing), "taking that back");
    printf("taken back to %u; what stands is entry %u, from %u to %u\n", (unsigned)table[2], (unsigned)log[0].index,
           (unsigned)log[0].old_entry, (unsigned)log[0].new_entry);

    /* A drive in, a density out. They are two types, so that neither is taken for the other. */
    bg_drive half = {32768};
    bg_sample sample = bg_lut_interp_linear16(table, n, half);
    must(sample.refusal, "looking up");
    printf("drive %u gives density %u\n", (unsigned)half.value, (unsigned)sample.density.value);

    /* And back: the least drive that gives at least a density. */
    bg_position position = bg_least_input(table, n, sample.density);
    must(position.refusal, "asking for the least drive");
    printf("density %u is first reached at drive %u\n", (unsigned)sample.density.value, (unsigned)position.drive.value);

    /* A job has many positions: look up a row of them in one call. */
    const uint16_t job[4] = {0, 16384, 49152, 65535};
    uint16_t print[4];
    must(bg_lut_interp_linear16_row(table, n, job, 4, print, 4), "looking up a row");
    printf("the row: %u %u %u %u\n", (unsigned)print[0], (unsigned)print[1], (unsigned)print[2], (unsigned)print[3]);

    /* In the evening the curve goes back into a tag, 12 bytes and two for each entry. */
    uint8_t evening[sizeof tag];
    must(bg_curv_write(table, n, evening, sizeof evening), "writing the tag");
    printf("bytes 16 and 17 of the tag: %02x %02x\n", (unsigned)evening[16], (unsigned)evening[17]);
    free(table);
    return 0;
}
