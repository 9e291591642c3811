/* The memory that buffers are lent from, the reports, and one question for each export. */
#define _GNU_SOURCE
#include "asks.h"
#include "reference.h"

#include <inttypes.h>
#include <signal.h>
#include <stdio.h>
#include <stdlib.h>
#include <string.h>
#include <sys/mman.h>
#include <unistd.h>

/* PAGE has whole pages of any size that a machine, or the one below an emulator, may have. */
enum { PAGE = 65536, GUARD = 64, SHOWN = 44 };

static const size_t room_bytes[PLACES] = {
    [FIRST] = PAGE, [SECOND] = PAGE, [OUT] = PAGE, [LOG] = PAGE, [COUNT] = PAGE,
    [LONG_FIRST] = 2 * LONGEST + PAGE, [LONG_SECOND] = 2 * LONGEST + PAGE,
    [LONG_FLOATS] = 4 * LONGEST + PAGE, [LONG_OUT] = 4 * LONGEST + PAGE,
};
static struct {
    unsigned char *write, *read;
} rooms[PLACES];

/* What the reference writes: an output or a table, and of a log its records and its count. */
static void *wanted;
static bg_record wanted_log[BG_LOG_PLACES];
static size_t wanted_count;

unsigned long asked[ASK_COUNT];
unsigned given[ASK_COUNT];
#define AS_NAME(name, numbers) "bg_" #name,
const char *const export_names[ASK_COUNT] = {EXPORTS(AS_NAME)};
#define AS_NUMBERS(name, numbers) numbers,
const unsigned may_give[ASK_COUNT] = {EXPORTS(AS_NUMBERS)};

/* The call that is being made: its buffers, and its other arguments, floats as their bits. */
static struct {
    enum export export;
    const buffer *buffers[3];
    uint64_t numbers[8];
    size_t number_count;
    unsigned long call;
} now;

static uint64_t state;

void seed(uint64_t from)
{
    state = from != 0 ? from : 1;
}

uint64_t word(void)
{
    state ^= state << 13;
    state ^= state >> 7;
    state ^= state << 17;
    return state;
}

size_t below(size_t limit)
{
    return limit == 0 ? 0 : (size_t)((word() >> 16) % limit);
}

/* ---- Rooms ---- */

static void no_memory(void)
{
    fprintf(stderr, "face: no memory\n");
    exit(2);
}

static unsigned char *map(int file, size_t bytes, int protection)
{
    unsigned char *shut = mmap(NULL, bytes + 2 * PAGE, PROT_NONE, MAP_PRIVATE | MAP_ANONYMOUS, -1, 0);
    if (shut == MAP_FAILED || mmap(shut + PAGE, bytes, protection, MAP_SHARED | MAP_FIXED, file, 0) == MAP_FAILED)
        no_memory();
    return shut + PAGE;
}

buffer lent(enum place place, size_t count, size_t size)
{
    size_t at_end = below(2), gap = below(64), room = room_bytes[place], at = room;
    if (count == 0 && at_end == 0)
        return (buffer){NULL, NULL, 0, size, place};
    if (gap > 31)
        gap = 0;
    if (count > 0)
        at = at_end == 0 ? gap * size : room - (count + gap) * size;
    return (buffer){rooms[place].write + at, rooms[place].read + at, count, size, place};
}

buffer lent_by_length(enum place brief, enum place lengthy, size_t count, size_t size)
{
    return lent(count < 1000 ? brief : lengthy, count, size);
}

logged lent_beside(buffer table)
{
    buffer log = lent(LOG, BG_LOG_PLACES, sizeof(bg_record)), count = lent(COUNT, 1, sizeof(size_t));
    return (logged){table, log, count};
}

/* What is not touched costs no memory. */
buffer lent_vast(size_t more, size_t size, const void *first, size_t first_bytes)
{
    static unsigned char *vast;
    if (vast == NULL)
        vast = mmap(NULL, ((size_t)1 << 34) + LONGEST, PROT_READ, MAP_PRIVATE | MAP_ANONYMOUS | MAP_NORESERVE, -1, 0);
    if (vast == MAP_FAILED || mprotect(vast, PAGE, PROT_READ | PROT_WRITE) != 0)
        no_memory();
    memset(vast, 0, PAGE);
    memcpy(vast, first, first_bytes);
    if (mprotect(vast, PAGE, PROT_READ) != 0)
        no_memory();
    return (buffer){NULL, vast, ((size_t)1 << 32) + more, size, PLACES};
}

/* ---- Reports ---- */

static void show_buffer(const buffer *b)
{
    printf(" [%zu:", b->count);
    for (size_t i = 0; i < b->count && i < SHOWN; i++) {
        uint64_t x = 0;
        memcpy(&x, b->read + i * b->size, b->size);
        printf(" %0*" PRIx64, (int)(2 * b->size), x);
    }
    printf(b->count > SHOWN ? " ..]" : "]");
}

/* Of a log only the records about the count, which are all that a call may look at or write. */
static void show_log(const buffer *log, const buffer *count)
{
    size_t standing;
    memcpy(&standing, count->read, sizeof standing);
    printf(" [%zu:", log->count);
    for (size_t i = standing < 2 ? 0 : standing - 2; i < log->count && i <= standing; i++) {
        uint64_t x;
        memcpy(&x, log->read + i * sizeof x, sizeof x);
        printf(" %016" PRIx64 " at %zu", x, i);
    }
    printf("]");
}

/* The call, so that it can be made again: its export, the first elements of each buffer, and the other arguments. */
static void show_call(void)
{
    if (now.export == ASK_COUNT) {
        printf("face: a call that is no question");
        return;
    }
    printf("face: %s, call %lu:", export_names[now.export], now.call);
    for (size_t i = 0; i < 3 && now.buffers[i] != NULL; i++)
        if (now.buffers[i]->place == LOG)
            show_log(now.buffers[i], now.buffers[i + 1]);
        else
            show_buffer(now.buffers[i]);
    for (size_t i = 0; i < now.number_count; i++)
        printf(" 0x%" PRIx64, now.numbers[i]);
}

static void show_numbers(const char *whose, const uint64_t *numbers, size_t count)
{
    printf("%s", whose);
    for (size_t i = 0; i < count; i++)
        printf(" 0x%" PRIx64, numbers[i]);
}

static void show_answers(const uint64_t *got, const uint64_t *want, size_t count)
{
    show_numbers(" answers", got, count);
    show_numbers(", should be", want, count);
    printf("\n");
}

/*
 * Counts a question, which is one expectation whatever is drawn for it, and shows the call where it is answered
 * otherwise. Then the difference is to be shown too, but not often: a wrong export would give thousands.
 */
static bool is_shown(bool holds, uint32_t want)
{
    static unsigned long shown[ASK_COUNT];
    tally(holds);
    given[now.export] |= 1u << want;
    if (holds || ++shown[now.export] > 5)
        return false;
    show_call();
    return true;
}

/* Holds an answer, place by place; the first is the number of the refusal. */
static void hold(const uint64_t *got, const uint64_t *want, size_t count)
{
    if (is_shown(memcmp(got, want, count * sizeof *got) == 0, (uint32_t)want[0]))
        show_answers(got, want, count);
}

/* Something was read or written that was not lent for it. */
static void fault(int signal, siginfo_t *info, void *context)
{
    const unsigned char *at = info->si_addr;
    (void)signal;
    (void)context;
    show_call();
    printf(" reads or writes what it should not");
    for (size_t i = 0; i < 3 && now.buffers[i] != NULL; i++) {
        const buffer *b = now.buffers[i];
        for (const unsigned char *from = b->read; from != NULL; from = from == b->read ? b->write : NULL) {
            if (at >= from && at < from + b->count * b->size)
                printf(", byte %td of buffer %zu", at - from, i + 1);
            else if (at >= from - PAGE && at < from + b->count * b->size + PAGE)
                printf(", %td bytes from the start of buffer %zu", at - from, i + 1);
        }
    }
    printf("\nface: stopped\n");
    fflush(stdout);
    _exit(1);
}

void open_rooms(void)
{
    struct sigaction action;
    wanted = malloc(4 * LONGEST);
    for (size_t i = 0; i < PLACES; i++) {
        int file = memfd_create("room", 0);
        if (wanted == NULL || file < 0 || ftruncate(file, (off_t)room_bytes[i]) != 0)
            no_memory();
        rooms[i].write = map(file, room_bytes[i], PROT_READ | PROT_WRITE);
        rooms[i].read = map(file, room_bytes[i], PROT_READ);
        close(file);
        for (size_t at = 0; at < room_bytes[i]; at += 8) {
            uint64_t any = word();
            memcpy(rooms[i].write + at, &any, 8);
        }
    }
    memset(&action, 0, sizeof action);
    action.sa_sigaction = fault;
    action.sa_flags = SA_SIGINFO;
    sigaction(SIGSEGV, &action, NULL);
    sigaction(SIGBUS, &action, NULL);
}

/* ---- Outputs ---- */

/* The byte that stands about what a call is lent from a room to write. */
static unsigned char fillers[PLACES];

/* The next byte for a room: another each time. */
static unsigned char next_filler(enum place place)
{
    static unsigned char next;
    next = (unsigned char)(next + 0x35);
    return fillers[place] = next;
}

static size_t bytes_of(const buffer *b)
{
    return b->count * b->size;
}

/* Where the guard bytes of a buffer begin and end: 64 on both sides, or as many as the room has. */
static unsigned char *guards_from(const buffer *b)
{
    unsigned char *room = rooms[b->place].write;
    return b->write - room < GUARD ? room : b->write - GUARD;
}

static unsigned char *guards_to(const buffer *b)
{
    unsigned char *end = rooms[b->place].write + room_bytes[b->place], *to = b->write + bytes_of(b);
    return end - to < GUARD ? end : to + GUARD;
}

/*
 * What a call is lent to write: filled and writable. A call that is to be refused is lent it read-only, so that it
 * faults at the first byte that it writes, even with what stood there.
 */
static void *ready(const buffer *b, uint32_t refusal)
{
    if (refusal != 0 || b->write == NULL)
        return (void *)(uintptr_t)b->read;
    memset(guards_from(b), next_filler(b->place), (size_t)(guards_to(b) - guards_from(b)));
    return b->write;
}

/* The same for a buffer that is changed: what it holds stays, and only the bytes about it are filled. */
static void *ready_changed(const buffer *b, uint32_t refusal)
{
    unsigned char filler, *to;
    if (refusal != 0 || b->write == NULL)
        return (void *)(uintptr_t)b->read;
    filler = next_filler(b->place);
    to = b->write + bytes_of(b);
    memset(guards_from(b), filler, (size_t)(b->write - guards_from(b)));
    memset(to, filler, (size_t)(guards_to(b) - to));
    return b->write;
}

/* What a call is lent that should only read it, whether it is refused or not. */
static void *only_read(const buffer *b)
{
    return (void *)(uintptr_t)b->read;
}

/* A buffer that a granted call writes, and what it should hold then. */
struct output {
    const buffer *lent;
    const void *want;
};

static bool filled(const unsigned char *from, const unsigned char *to, unsigned char filler)
{
    while (from < to && *from == filler)
        from++;
    return from == to;
}

/* Whether it holds what the reference wrote. */
static bool holds_wanted(const struct output *o)
{
    return o->lent->write == NULL || memcmp(o->lent->write, o->want, bytes_of(o->lent)) == 0;
}

/* Whether the bytes about it are what they were. */
static bool guards_stand(const struct output *o)
{
    const buffer *b = o->lent;
    return b->write == NULL || (filled(guards_from(b), b->write, fillers[b->place]) &&
                                filled(b->write + bytes_of(b), guards_to(b), fillers[b->place]));
}

static void show_first_difference(const struct output *o)
{
    const buffer *b = o->lent;
    const unsigned char *want = o->want;
    uint64_t x = 0, y = 0;
    size_t i = 0, which = 0;
    while (memcmp(b->write + i, want + i, b->size) == 0)
        i += b->size;
    while (now.buffers[which] != b)
        which++;
    memcpy(&x, b->write + i, b->size);
    memcpy(&y, want + i, b->size);
    printf(" leaves 0x%" PRIx64 " at %zu of buffer %zu, should be 0x%" PRIx64 "\n", x, i / b->size, which + 1, y);
}

/*
 * Holds the number that a call gives; and where that is 0, what it wrote to what the reference did, and the bytes about
 * its outputs to what they were.
 */
static void hold_outputs(uint32_t got, uint32_t want, const struct output *outputs, size_t count)
{
    const struct output *other = NULL, *beside = NULL;
    for (size_t i = 0; i < count && want == 0; i++) {
        if (!holds_wanted(&outputs[i]))
            other = &outputs[i];
        if (!guards_stand(&outputs[i]))
            beside = &outputs[i];
    }
    if (!is_shown(got == want && other == NULL && beside == NULL, want))
        return;
    if (got != want)
        show_answers((const uint64_t[]){got}, (const uint64_t[]){want}, 1);
    else if (beside != NULL)
        printf(" writes beside its output, which it should not\n");
    else
        show_first_difference(other);
}

/* The same of a call that has one. */
static void hold_output(uint32_t got, uint32_t want, const buffer *b)
{
    hold_outputs(got, want, (const struct output[]){{b, wanted}}, 1);
}

/* ---- Answers as lists of numbers ---- */

/* A float's bits; a NaN among the answers may have any. */
static uint64_t number_of(float x)
{
    return x != x ? 0x7fc00000 : bits_of(x);
}

static uint64_t double_bits(double x)
{
    uint64_t bits;
    memcpy(&bits, &x, sizeof bits);
    return bits;
}

static void hold_sample(bg_sample g, bg_sample w)
{
    hold((const uint64_t[]){g.refusal, g.density.value}, (const uint64_t[]){w.refusal, w.density.value}, 2);
}

static void hold_position(bg_position g, bg_position w)
{
    hold((const uint64_t[]){g.refusal, g.drive.value}, (const uint64_t[]){w.refusal, w.drive.value}, 2);
}

static void hold_real(bg_real g, bg_real w)
{
    hold((const uint64_t[]){g.refusal, number_of(g.value)}, (const uint64_t[]){w.refusal, number_of(w.value)}, 2);
}

/* An answer that is the number of the refusal alone. */
static void hold_done(uint32_t g, uint32_t w)
{
    hold((const uint64_t[]){g}, (const uint64_t[]){w}, 1);
}

/* An answer that no refusal goes with. */
static void hold_plain(uint64_t g, uint64_t w)
{
    hold((const uint64_t[]){0, g}, (const uint64_t[]){0, w}, 2);
}

static void put_curve(uint64_t *to, bg_parametric p)
{
    const float places[7] = {p.curve.g, p.curve.a, p.curve.b, p.curve.c, p.curve.d, p.curve.e, p.curve.f};
    to[0] = p.refusal;
    for (size_t k = 0; k < 7; k++)
        to[k + 1] = number_of(places[k]);
}

static void hold_curve(bg_parametric g, bg_parametric w)
{
    uint64_t got[8], want[8];
    put_curve(got, g);
    put_curve(want, w);
    hold(got, want, 8);
}

static void put_para(uint64_t *to, bg_para p)
{
    const bg_raw n = p.numbers;
    const int32_t places[7] = {n.g, n.a, n.b, n.c, n.d, n.e, n.f};
    to[0] = p.refusal;
    to[1] = p.count;
    for (size_t k = 0; k < 7; k++)
        to[k + 2] = (uint32_t)places[k];
}

/* ---- The questions ---- */

/* Says which call comes now. */
static void at(enum export export, const buffer *a, const buffer *b, const buffer *c)
{
    now.export = export;
    now.buffers[0] = a;
    now.buffers[1] = b;
    now.buffers[2] = c;
    now.number_count = 0;
    now.call = ++asked[export];
}

void end_of_questions(void)
{
    now.export = ASK_COUNT;
    now.buffers[0] = NULL;
}

/* Says what else it is given. */
static void with(uint64_t number)
{
    now.numbers[now.number_count++] = number;
}

#define U16(b) ((const uint16_t *)(const void *)(b).read)
#define F32(b) ((const float *)(const void *)(b).read)

void ask_version(void)
{
    at(ASK_version, NULL, NULL, NULL);
    hold_plain(bg_version(), ref_version());
}

void ask_lut_interp_linear16(buffer table, uint16_t position)
{
    at(ASK_lut_interp_linear16, &table, NULL, NULL);
    with(position);
    hold_sample(bg_lut_interp_linear16(U16(table), table.count, drive(position)),
                ref_lut_interp_linear16(U16(table), table.count, drive(position)));
}

void ask_lut_interp_linear16_row(buffer table, buffer positions, buffer out)
{
    uint32_t want = ref_lut_interp_linear16_row(U16(table), table.count, U16(positions), positions.count,
                                                wanted, out.count);
    at(ASK_lut_interp_linear16_row, &table, &positions, &out);
    hold_output(bg_lut_interp_linear16_row(U16(table), table.count, U16(positions), positions.count, ready(&out, want),
                                           out.count), want, &out);
}

void ask_bake(buffer table, buffer out)
{
    uint32_t want = ref_bake(U16(table), table.count, wanted, out.count);
    at(ASK_bake, &table, &out, NULL);
    hold_output(bg_bake(U16(table), table.count, ready(&out, want), out.count), want, &out);
}

void ask_lut_interp_linear_gamma_impl(buffer table, size_t inputs, size_t depth, size_t input)
{
    bg_code w = ref_lut_interp_linear_gamma_impl(U16(table), table.count, inputs, depth, input), g;
    at(ASK_lut_interp_linear_gamma_impl, &table, NULL, NULL);
    with(inputs);
    with(depth);
    with(input);
    g = bg_lut_interp_linear_gamma_impl(U16(table), table.count, inputs, depth, input);
    hold((const uint64_t[]){g.refusal, g.code}, (const uint64_t[]){w.refusal, w.code}, 2);
}

void ask_start(buffer table)
{
    uint32_t want = ref_start(wanted, table.count);
    at(ASK_start, &table, NULL, NULL);
    hold_output(bg_start(ready(&table, want), table.count), want, &table);
}

void ask_accept(buffer table)
{
    at(ASK_accept, &table, NULL, NULL);
    hold_done(bg_accept(U16(table), table.count), ref_accept(U16(table), table.count));
}

/* The reference changes a copy. It looks at no table that is too long to be copied. */
static void copy_table(const buffer *table)
{
    if (table->count > 0 && table->count <= LONGEST)
        memcpy(wanted, table->read, bytes_of(table));
}

static void copy_log(const logged *l)
{
    memcpy(wanted_log, l->log.read, sizeof wanted_log);
    memcpy(&wanted_count, l->count.read, sizeof wanted_count);
}

void ask_nudge(buffer table, size_t index, uint16_t value)
{
    uint32_t want;
    copy_table(&table);
    want = ref_nudge(wanted, table.count, index, density(value));
    at(ASK_nudge, &table, NULL, NULL);
    with(index);
    with(value);
    hold_output(bg_nudge(ready_changed(&table, want), table.count, index, density(value)), want, &table);
}

void ask_log_start(logged l)
{
    uint32_t want;
    uint16_t *table;
    size_t *count;
    copy_log(&l);
    want = ref_log_start(wanted, l.table.count, wanted_log, &wanted_count);
    table = ready(&l.table, want);
    count = ready_changed(&l.count, want);
    at(ASK_log_start, &l.table, &l.log, &l.count);
    hold_outputs(bg_log_start(table, l.table.count, only_read(&l.log), count), want,
                 (const struct output[]){{&l.table, wanted}, {&l.count, &wanted_count}}, 2);
}

void ask_log_accept(logged l)
{
    uint32_t want;
    size_t *count;
    copy_log(&l);
    want = ref_log_accept(U16(l.table), l.table.count, wanted_log, &wanted_count);
    count = ready_changed(&l.count, want);
    at(ASK_log_accept, &l.table, &l.log, &l.count);
    hold_outputs(bg_log_accept(U16(l.table), l.table.count, only_read(&l.log), count), want,
                 (const struct output[]){{&l.count, &wanted_count}}, 1);
}

void ask_log_nudge(logged l, size_t index, uint16_t value)
{
    uint32_t want;
    uint16_t *table;
    bg_record *log;
    size_t *count;
    copy_table(&l.table);
    copy_log(&l);
    want = ref_log_nudge(wanted, l.table.count, wanted_log, &wanted_count, index, density(value));
    table = ready_changed(&l.table, want);
    log = ready_changed(&l.log, want);
    count = ready_changed(&l.count, want);
    at(ASK_log_nudge, &l.table, &l.log, &l.count);
    with(index);
    with(value);
    hold_outputs(bg_log_nudge(table, l.table.count, log, count, index, density(value)), want,
                 (const struct output[]){{&l.table, wanted}, {&l.log, wanted_log}, {&l.count, &wanted_count}}, 3);
}

void ask_take_back(logged l)
{
    uint32_t want;
    uint16_t *table;
    size_t *count;
    copy_table(&l.table);
    copy_log(&l);
    want = ref_take_back(wanted, l.table.count, wanted_log, &wanted_count);
    table = ready_changed(&l.table, want);
    count = ready_changed(&l.count, want);
    at(ASK_take_back, &l.table, &l.log, &l.count);
    hold_outputs(bg_take_back(table, l.table.count, only_read(&l.log), count), want,
                 (const struct output[]){{&l.table, wanted}, {&l.count, &wanted_count}}, 2);
}

void ask_least_input(buffer table, uint16_t value)
{
    at(ASK_least_input, &table, NULL, NULL);
    with(value);
    hold_position(bg_least_input(U16(table), table.count, density(value)),
                  ref_least_input(U16(table), table.count, density(value)));
}

void ask_least_input_row(buffer table, buffer densities, buffer out)
{
    uint32_t want = ref_least_input_row(U16(table), table.count, U16(densities), densities.count, wanted, out.count);
    at(ASK_least_input_row, &table, &densities, &out);
    hold_output(bg_least_input_row(U16(table), table.count, U16(densities), densities.count, ready(&out, want),
                                   out.count), want, &out);
}

void ask_lut_inverse_interp16(buffer table, uint16_t value)
{
    at(ASK_lut_inverse_interp16, &table, NULL, NULL);
    with(value);
    hold_position(bg_lut_inverse_interp16(U16(table), table.count, density(value)),
                  ref_lut_inverse_interp16(U16(table), table.count, density(value)));
}

void ask_invert_lut(buffer table, buffer out)
{
    uint32_t want = ref_invert_lut(U16(table), table.count, wanted, out.count);
    at(ASK_invert_lut, &table, &out, NULL);
    hold_output(bg_invert_lut(U16(table), table.count, ready(&out, want), out.count), want, &out);
}

void ask_lut_interp_linear_float(buffer table, float x)
{
    at(ASK_lut_interp_linear_float, &table, NULL, NULL);
    with(bits_of(x));
    hold_real(bg_lut_interp_linear_float(F32(table), table.count, x),
              ref_lut_interp_linear_float(F32(table), table.count, x));
}

void ask_lut_interp_linear(buffer table, double x)
{
    at(ASK_lut_interp_linear, &table, NULL, NULL);
    with(double_bits(x));
    hold_real(bg_lut_interp_linear(U16(table), table.count, x), ref_lut_interp_linear(U16(table), table.count, x));
}

void ask_passthrough_table_impl(buffer out)
{
    uint32_t want = ref_passthrough_table_impl(wanted, out.count);
    at(ASK_passthrough_table_impl, &out, NULL, NULL);
    hold_output(bg_passthrough_table_impl(ready(&out, want), out.count), want, &out);
}

void ask_nearest_f64_to_f32(double x)
{
    at(ASK_nearest_f64_to_f32, NULL, NULL, NULL);
    with(double_bits(x));
    hold_plain(number_of(bg_nearest_f64_to_f32(x)), number_of(ref_nearest_f64_to_f32(x)));
}

void ask_u8_fixed_8number_to_float(uint16_t x)
{
    at(ASK_u8_fixed_8number_to_float, NULL, NULL, NULL);
    with(x);
    hold_plain(number_of(bg_u8_fixed_8number_to_float(x)), number_of(ref_u8_fixed_8number_to_float(x)));
}

void ask_s15_fixed16_number_to_float(int32_t x)
{
    at(ASK_s15_fixed16_number_to_float, NULL, NULL, NULL);
    with((uint32_t)x);
    hold_plain(number_of(bg_s15_fixed16_number_to_float(x)), number_of(ref_s15_fixed16_number_to_float(x)));
}

void ask_parametric_curve_new(buffer params)
{
    at(ASK_parametric_curve_new, &params, NULL, NULL);
    hold_curve(bg_parametric_curve_new(F32(params), params.count), ref_parametric_curve_new(F32(params), params.count));
}

void ask_compare_parametric(buffer src, buffer dst)
{
    at(ASK_compare_parametric, &src, &dst, NULL);
    hold_plain(bg_compare_parametric(F32(src), src.count, F32(dst), dst.count),
               ref_compare_parametric(F32(src), src.count, F32(dst), dst.count));
}

void ask_is_curve_monotonic(buffer table, bool rising)
{
    bg_monotony w = ref_is_curve_monotonic(U16(table), table.count, rising), g;
    at(ASK_is_curve_monotonic, &table, NULL, NULL);
    with(rising);
    g = bg_is_curve_monotonic(U16(table), table.count, rising);
    hold((const uint64_t[]){g.refusal, g.yes, g.violations}, (const uint64_t[]){w.refusal, w.yes, w.violations}, 3);
}

void ask_is_curve_degenerated(buffer table)
{
    bg_degeneration w = ref_is_curve_degenerated(U16(table), table.count), g;
    at(ASK_is_curve_degenerated, &table, NULL, NULL);
    g = bg_is_curve_degenerated(U16(table), table.count);
    hold((const uint64_t[]){g.refusal, g.yes}, (const uint64_t[]){w.refusal, w.yes}, 2);
}

void ask_house_entry(size_t index)
{
    at(ASK_house_entry, NULL, NULL, NULL);
    with(index);
    hold_sample(bg_house_entry(index), ref_house_entry(index));
}

void ask_house_fill(buffer out)
{
    uint32_t want = ref_house_fill(wanted, out.count);
    at(ASK_house_fill, &out, NULL, NULL);
    hold_output(bg_house_fill(ready(&out, want), out.count), want, &out);
}

void ask_power(uint16_t x, uint64_t exponent)
{
    at(ASK_power, NULL, NULL, NULL);
    with(x);
    with(exponent);
    hold_sample(bg_power(drive(x), exponent), ref_power(drive(x), exponent));
}

void ask_power_table(buffer out, size_t n, uint64_t exponent)
{
    uint32_t want = ref_power_table(wanted, out.count, n, exponent);
    at(ASK_power_table, &out, NULL, NULL);
    with(n);
    with(exponent);
    hold_output(bg_power_table(ready(&out, want), out.count, n, exponent), want, &out);
}

void ask_tag_power(uint16_t x, uint16_t gamma)
{
    at(ASK_tag_power, NULL, NULL, NULL);
    with(x);
    with(gamma);
    hold_sample(bg_tag_power(drive(x), gamma), ref_tag_power(drive(x), gamma));
}

void ask_tag_power_table(buffer out, size_t n, uint16_t gamma)
{
    uint32_t want = ref_tag_power_table(wanted, out.count, n, gamma);
    at(ASK_tag_power_table, &out, NULL, NULL);
    with(n);
    with(gamma);
    hold_output(bg_tag_power_table(ready(&out, want), out.count, n, gamma), want, &out);
}

void ask_curv_count(buffer tag)
{
    bg_count w = ref_curv_count(tag.read, tag.count), g;
    at(ASK_curv_count, &tag, NULL, NULL);
    g = bg_curv_count(tag.read, tag.count);
    hold((const uint64_t[]){g.refusal, g.entries}, (const uint64_t[]){w.refusal, w.entries}, 2);
}

void ask_curv_read(buffer tag, buffer out)
{
    uint32_t want = ref_curv_read(tag.read, tag.count, wanted, out.count);
    at(ASK_curv_read, &tag, &out, NULL);
    hold_output(bg_curv_read(tag.read, tag.count, ready(&out, want), out.count), want, &out);
}

void ask_curv_part(buffer tag)
{
    bg_part w = ref_curv_part(tag.read, tag.count), g;
    at(ASK_curv_part, &tag, NULL, NULL);
    g = bg_curv_part(tag.read, tag.count);
    hold((const uint64_t[]){g.refusal, g.start, g.len}, (const uint64_t[]){w.refusal, w.start, w.len}, 3);
}

void ask_curv_write(buffer table, buffer out)
{
    uint32_t want = ref_curv_write(U16(table), table.count, wanted, out.count);
    at(ASK_curv_write, &table, &out, NULL);
    hold_output(bg_curv_write(U16(table), table.count, ready(&out, want), out.count), want, &out);
}

void ask_para_read(buffer tag)
{
    uint64_t got[9], want[9];
    at(ASK_para_read, &tag, NULL, NULL);
    put_para(want, ref_para_read(tag.read, tag.count));
    put_para(got, bg_para_read(tag.read, tag.count));
    hold(got, want, 9);
}

void ask_para_curve(buffer tag)
{
    at(ASK_para_curve, &tag, NULL, NULL);
    hold_curve(bg_para_curve(tag.read, tag.count), ref_para_curve(tag.read, tag.count));
}

void ask_para_write(size_t function_type, const int32_t *raw, buffer out)
{
    bg_raw numbers = {raw[0], raw[1], raw[2], raw[3], raw[4], raw[5], raw[6]};
    uint32_t want = ref_para_write(function_type, numbers, wanted, out.count);
    at(ASK_para_write, &out, NULL, NULL);
    with(function_type);
    for (size_t k = 0; k < 7; k++)
        with((uint32_t)raw[k]);
    hold_output(bg_para_write(function_type, numbers, ready(&out, want), out.count), want, &out);
}
