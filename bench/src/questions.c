/* A curve and questions from a fixed generator, in whole numbers as far as they go, so that every machine has the
   same. */
#include "questions.h"

#include <stdio.h>
#include <stdlib.h>
#include <string.h>

/* splitmix64 */
static uint64_t next(uint64_t *state) {
    uint64_t z = (*state += 0x9e3779b97f4a7c15);
    z = (z ^ (z >> 30)) * 0xbf58476d1ce4e5b9;
    z = (z ^ (z >> 27)) * 0x94d049bb133111eb;
    return z ^ (z >> 31);
}

static void *room(size_t bytes) {
    void *place = calloc(1, bytes);
    if (!place) {
        fputs("bench: no memory\n", stderr);
        exit(1);
    }
    return place;
}

/* A curve as a step wedge gives it: four times as steep at its end as at its start, uneven, never falling, from 0 to a
   single 65535. (Two of them at the end of a long table would be outside the Rust's domain.) */
static void draw_curve(uint16_t *table, size_t n, uint64_t *state) {
    uint64_t *risen = room(n * sizeof *risen);
    for (size_t i = 1; i < n; i++)
        risen[i] = risen[i - 1] + (n + 3 * i) * (512 + next(state) % 1024);
    for (size_t i = 0; i < n; i++)
        table[i] = (uint16_t)(65535 * risen[i] / risen[n - 1]);
    free(risen);
}

static void put_tag(uint8_t *tag, const uint16_t *table, size_t n) {
    memcpy(tag, "curv", 4);
    for (int i = 0; i < 4; i++)
        tag[8 + i] = (uint8_t)(n >> (24 - 8 * i));
    for (size_t i = 0; i < n; i++) {
        tag[TAG_HEAD + 2 * i] = (uint8_t)(table[i] >> 8);
        tag[TAG_HEAD + 2 * i + 1] = (uint8_t)table[i];
    }
}

static void draw_questions(struct work *work, size_t questions, uint64_t *state) {
    uint16_t near = 32768;
    for (size_t i = 0; i < questions; i++) {
        uint64_t drawn = next(state);
        work->asked[i] = (uint16_t)drawn;
        work->asked_near[i] = near = (uint16_t)(near + drawn % 513 - 256);
        work->asked_f32[i] = (float)(drawn >> 40) / (1 << 24);
        work->asked_f64[i] = (double)(drawn >> 11) / 9007199254740992.0;
    }
}

static void fill_log(const struct work *work) {
    for (size_t i = 0; i < BG_LOG_PLACES; i++) {
        uint16_t at = (uint16_t)(work->asked[i] % work->n), entry = work->table[at];
        work->log[i] = (bg_record){.new_entry = entry, .old_entry = entry, .index = at};
    }
}

uint16_t same(const uint16_t *table, size_t n, uint16_t position) {
    (void)table;
    (void)n;
    return position;
}

struct work work_of(size_t n, size_t questions) {
    uint64_t state = n;
    struct work work = {.n = n};
    work.table = room(n * sizeof *work.table);
    work.straight = room(n * sizeof *work.straight);
    work.floats = room(n * sizeof *work.floats);
    work.baked = room(POSITIONS * sizeof *work.baked);
    work.tag = room(TAG_HEAD + 2 * n);
    work.asked = room(QUESTIONS * sizeof *work.asked);
    work.asked_near = room(QUESTIONS * sizeof *work.asked_near);
    work.asked_f32 = room(QUESTIONS * sizeof *work.asked_f32);
    work.asked_f64 = room(QUESTIONS * sizeof *work.asked_f64);
    work.log = room(BG_LOG_PLACES * sizeof *work.log);
    work.out = room(POSITIONS * sizeof *work.out);
    work.out_wide = room(QUESTIONS * sizeof *work.out_wide);
    work.out_tag = room(TAG_HEAD + 2 * n);
    draw_curve(work.table, n, &state);
    for (size_t i = 0; i < n; i++) {
        work.floats[i] = (float)work.table[i] / 65535.0f;
        work.straight[i] = (uint16_t)((131070 * i + n - 1) / (2 * n - 2));
    }
    put_tag(work.tag, work.table, n);
    draw_questions(&work, questions, &state);
    fill_log(&work);
    return work;
}
