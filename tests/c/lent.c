/* What every function leaves of the memory that it is lent, byte by byte: on each refusal, with too little room of every size, with a null
   pointer of length 0, and where it does what it is asked. The answers are those of documents 01 and 02, by hand. */
#include "memory.h"

#define COUNT(array) (sizeof(array) / sizeof((array)[0]))
enum { NUMBER = sizeof(uint32_t), WIDE = sizeof(uint64_t), STATE_BYTES = TOLLSALMON_STATE * WIDE };

static uint64_t analyse(void *const at[], const size_t bytes[], struct tick tick, uint64_t *place)
{
    (void)tick;
    return tollsalmon_analyse(at[0], bytes[0] / NUMBER, at[1], bytes[1] / NUMBER, place);
}

static uint64_t start(void *const at[], const size_t bytes[], struct tick tick, uint64_t *place)
{
    (void)tick;
    return tollsalmon_start(at[0], bytes[0] / NUMBER, at[1], bytes[1] / WIDE, place);
}

static uint64_t step(void *const at[], const size_t bytes[], struct tick tick, uint64_t *place)
{
    return tollsalmon_step(at[0], bytes[0] / WIDE, tick.mask, tick.signal, tick.early, at[1], bytes[1], place);
}

static uint64_t ticks(void *const at[], const size_t bytes[], struct tick tick, uint64_t *place)
{
    (void)tick;
    return tollsalmon_ticks(at[0], bytes[0] / WIDE, at[1], bytes[1], at[2], bytes[2], place);
}

static uint64_t check(void *const at[], const size_t bytes[], struct tick tick, uint64_t *place)
{
    (void)tick;
    return tollsalmon_check(at[0], bytes[0], place);
}

static uint64_t table(void *const at[], const size_t bytes[], struct tick tick, uint64_t *place)
{
    (void)tick, (void)place;
    return tollsalmon_table(at[0], bytes[0], at[1], bytes[1] / NUMBER);
}

static uint64_t script(void *const at[], const size_t bytes[], struct tick tick, uint64_t *place)
{
    (void)tick, (void)place;
    return tollsalmon_script(at[0], bytes[0], at[1], bytes[1]);
}

static uint64_t write_plan(void *const at[], const size_t bytes[], struct tick tick, uint64_t *place)
{
    (void)tick;
    return tollsalmon_write(at[0], bytes[0] / NUMBER, at[1], bytes[1], at[2], bytes[2], place);
}

static uint64_t report(void *const at[], const size_t bytes[], struct tick tick, uint64_t *place)
{
    (void)tick, (void)place;
    return tollsalmon_report(at[0], bytes[0], at[1], bytes[1]);
}

/* What a call is lent: bytes to read, room to write, bytes that are replaced, and nothing at a null pointer. */
static struct lent in(const void *bytes, size_t size)
{
    return (struct lent){bytes, size, size, NULL, 0, false};
}

static struct lent room(size_t size, const void *after, size_t written)
{
    return (struct lent){NULL, 0, size, after, written, false};
}

static struct lent changed(const void *before, const void *after, size_t size)
{
    return (struct lent){before, size, size + PAGE, after, size, false};
}

static struct lent untouched(size_t size)
{
    return room(size, NULL, 0);
}

static const struct lent null = {NULL, 0, 0, NULL, 0, true};

static void call(const char *what, function *f, struct lent a, struct lent b, struct lent c, uint64_t answer, uint64_t place)
{
    make_call(&(struct call){what, f, {a, b, c}, {0, 0, 0}, answer, place});
}

static void tick(const char *what, struct lent state, struct tick t, struct lent answer, uint64_t refusal, uint64_t place)
{
    make_call(&(struct call){what, step, {state, answer, null}, t, refusal, place});
}

/* Tables. */

static const uint32_t p3[] = {10, 8, 6, 2};
static const uint32_t p9[] = {10, 10, 2, 1, 20, 20, 4, 2}, p9_results[] = {3, 7, 4, 4, 16, 7};
static const uint64_t no_rows[TOLLSALMON_STATE];
static uint64_t fresh_p3[TOLLSALMON_STATE], fresh_p9[TOLLSALMON_STATE], fresh_32[TOLLSALMON_STATE], closed_32[TOLLSALMON_STATE];

static const struct {
    const char *what;
    uint32_t numbers[20];
    size_t count;
    uint32_t refusal;
    uint64_t place;
} refused_tables[] = {
    {"P1: no numbers", {0}, 0, TOLLSALMON_TABLE_LENGTH, 0},
    {"three numbers", {10, 8, 3}, 3, TOLLSALMON_TABLE_LENGTH, 3},
    {"five numbers", {10, 8, 3, 2, 10}, 5, TOLLSALMON_TABLE_LENGTH, 5},
    {"P11: a C of 0", {10, 8, 0, 2}, 4, TOLLSALMON_FIELD_RANGE, 2},
    {"a T above a million", {1000001, 8, 3, 2}, 4, TOLLSALMON_FIELD_RANGE, 0},
    {"P8: D above T", {10, 11, 1, 1}, 4, TOLLSALMON_DEADLINE_ABOVE_PERIOD, 1},
    {"P7: no active period", {5, 5, 1, 6}, 4, TOLLSALMON_NO_ACTIVE_PERIOD, 1},
    {"P6: a hypertask too late", {5, 2, 1, 3}, 4, TOLLSALMON_START_TOO_LATE, 1},
    {"P10: the second too late", {5, 5, 1, 2, 7, 7, 1, 2, 7, 7, 1, 2}, 12, TOLLSALMON_START_TOO_LATE, 2},
    {"P4: a C too long for its E", {10, 8, 7, 2}, 4, TOLLSALMON_NO_GUEST_WINDOW, 1},
    {"P5: an E of 0", {5, 2, 1, 2}, 4, TOLLSALMON_NO_GUEST_WINDOW, 1},
    {"rows below leave a guest no window", {10, 10, 2, 1, 40, 35, 6, 2, 50, 50, 8, 1, 100, 90, 10, 2, 1000, 1000, 50, 3}, 20,
     TOLLSALMON_NO_GUEST_WINDOW, 1},
    {"neither window at task 2", {5, 4, 1, 1, 3, 3, 2, 1}, 8, TOLLSALMON_NO_GUEST_WINDOW, 2},
    {"7 at task 1 before 19 at task 2", {7, 4, 3, 1, 11, 10, 1, 3}, 8, TOLLSALMON_NO_GUEST_WINDOW, 1},
    {"no window after the own hypertask", {5, 5, 2, 1, 8, 8, 2, 1}, 8, TOLLSALMON_NO_HYPERTASK_WINDOW, 2},
    {"19 at task 1 before 7 at task 2", {23, 23, 8, 7, 19, 19, 4, 2, 21, 21, 4, 3}, 12, TOLLSALMON_NO_HYPERTASK_WINDOW, 1},
};

static void try_refused_tables(void)
{
    static const uint32_t rows_33[33 * TOLLSALMON_ROW];

    call("33 rows", analyse, in(rows_33, sizeof rows_33), untouched(400), null, TOLLSALMON_TABLE_LENGTH, COUNT(rows_33));
    call("33 rows", start, in(rows_33, sizeof rows_33), room(STATE_BYTES + PAGE, no_rows, STATE_BYTES), null,
         TOLLSALMON_TABLE_LENGTH, COUNT(rows_33));
    for (size_t i = 0; i < COUNT(refused_tables); i++) {
        struct lent numbers = in(refused_tables[i].numbers, refused_tables[i].count * NUMBER);

        call(refused_tables[i].what, analyse, numbers, untouched(400), null, refused_tables[i].refusal, refused_tables[i].place);
        call(refused_tables[i].what, start, numbers, room(STATE_BYTES + PAGE, no_rows, STATE_BYTES), null,
             refused_tables[i].refusal, refused_tables[i].place);
    }
}

static void try_results_of_every_size(void)
{
    for (size_t size = 0; size < sizeof p9_results; size += NUMBER)
        call("results too short", analyse, in(p9, sizeof p9), untouched(size), null, TOLLSALMON_RESULTS_SHORT, COUNT(p9_results));
    call("P9", analyse, in(p9, sizeof p9), room(sizeof p9_results, p9_results, sizeof p9_results), null, TOLLSALMON_ACCEPTED, 2);
    call("P9 and room", analyse, in(p9, sizeof p9), room(400, p9_results, sizeof p9_results), null, TOLLSALMON_ACCEPTED, 2);
}

static void try_states_of_every_size(void)
{
    uint8_t records[3 * TOLLSALMON_RECORD] = {1};

    for (size_t size = 0; size < STATE_BYTES; size += WIDE) {
        call("state too short", start, in(p9, sizeof p9), untouched(size), null, TOLLSALMON_OUTPUT_SHORT, TOLLSALMON_STATE);
        tick("state too short", in(fresh_p3, size), (struct tick){1, 0, 0}, untouched(100), TOLLSALMON_NOT_WELL_FORMED, 0);
        call("state too short", ticks, in(fresh_p3, size), in(records, sizeof records), untouched(100), TOLLSALMON_NOT_WELL_FORMED, 0);
    }
    call("P9", start, in(p9, sizeof p9), room(STATE_BYTES, fresh_p9, STATE_BYTES), null, TOLLSALMON_ACCEPTED, 2);
    call("P9 and room", start, in(p9, sizeof p9), room(STATE_BYTES + PAGE, fresh_p9, STATE_BYTES), null, TOLLSALMON_ACCEPTED, 2);
}

/* Machines. */

static uint64_t *place_of(uint64_t state[], size_t task)
{
    return &state[TOLLSALMON_AT_PLACES + (task - 1) * TOLLSALMON_PLACE];
}

static void set_stage(uint64_t state[], size_t task, uint64_t stage, uint64_t arrival, uint64_t used_or_left)
{
    uint64_t *place = place_of(state, task);

    place[TOLLSALMON_AT_STAGE] = stage;
    place[TOLLSALMON_AT_ARRIVAL] = arrival;
    place[TOLLSALMON_AT_TICKS] = used_or_left;
}

static void add_row(uint64_t state[], uint64_t t, uint64_t d, uint64_t c, uint64_t k, uint64_t e)
{
    uint64_t *place = place_of(state, ++state[TOLLSALMON_AT_ROWS]);

    place[TOLLSALMON_AT_T] = t;
    place[TOLLSALMON_AT_D] = d;
    place[TOLLSALMON_AT_C] = c;
    place[TOLLSALMON_AT_K] = k;
    place[TOLLSALMON_AT_E] = e;
}

static void make_machines(void)
{
    add_row(fresh_p3, 10, 8, 6, 2, 6);
    add_row(fresh_p9, 10, 10, 2, 1, 7);
    add_row(fresh_p9, 20, 20, 4, 2, 16);
    closed_32[TOLLSALMON_AT_NOW] = 700;
    for (size_t task = 1; task <= TOLLSALMON_TASKS; task++) {
        add_row(fresh_32, 300, 200, 1, 1, 100);
        add_row(closed_32, 300, 200, 1, 1, 100);
        set_stage(closed_32, task, TOLLSALMON_STAGE_CLOSED, 500, 0);
    }
}

/* A machine that can't be read, by both ways to tick it. */
static void refuse_state(const char *what, const uint64_t state[], uint32_t mask)
{
    uint8_t records[3 * TOLLSALMON_RECORD] = {(uint8_t)mask};

    tick(what, in(state, STATE_BYTES), (struct tick){mask, 0, 0}, untouched(100), TOLLSALMON_NOT_WELL_FORMED, 0);
    call(what, ticks, in(state, STATE_BYTES), in(records, sizeof records), untouched(100), TOLLSALMON_NOT_WELL_FORMED, 0);
}

static void spoil(const char *what, const uint64_t good[], size_t index, uint64_t value)
{
    uint64_t state[TOLLSALMON_STATE];

    memcpy(state, good, STATE_BYTES);
    state[index] = value;
    refuse_state(what, state, 0);
}

/* A number that its stage has no use for is 0, whatever else it might be. */
static void spoil_unused(const char *what, const uint64_t good[], size_t index)
{
    static const uint64_t values[] = {1, 77, 255, UINT32_MAX, (uint64_t)1 << 32, (uint64_t)1 << 40, (uint64_t)1 << 63, UINT64_MAX};

    for (size_t i = 0; i < COUNT(values); i++)
        spoil(what, good, index, values[i]);
}

/* A number that is good in its lowest bits alone. */
static void spoil_wide(const char *what, const uint64_t good[], size_t index)
{
    spoil(what, good, index, good[index] + ((uint64_t)1 << 32));
    spoil(what, good, index, good[index] + ((uint64_t)1 << 63));
    spoil(what, good, index, UINT64_MAX);
}

static void spoil_place(const uint64_t good[], size_t task)
{
    size_t first = TOLLSALMON_AT_PLACES + (task - 1) * TOLLSALMON_PLACE;

    for (size_t number = TOLLSALMON_AT_T; number <= TOLLSALMON_AT_E; number++)
        spoil_wide("a number of a row that has more than 32 bits", good, first + number);
    spoil_wide("a wide stage", good, first + TOLLSALMON_AT_STAGE);
    spoil("stage 4", good, first + TOLLSALMON_AT_STAGE, TOLLSALMON_STAGE_CLOSED + 1);
    spoil("a stage that is good in 8 bits", good, first + TOLLSALMON_AT_STAGE, good[first + TOLLSALMON_AT_STAGE] + 256);
    spoil_unused("an unused number of ticks", good, first + TOLLSALMON_AT_TICKS);
    if (good[first + TOLLSALMON_AT_STAGE] == TOLLSALMON_STAGE_NEVER)
        spoil_unused("an unused arrival", good, first + TOLLSALMON_AT_ARRIVAL);
}

static void try_unreadable_states(void)
{
    uint64_t state[TOLLSALMON_STATE];

    memcpy(state, fresh_p3, STATE_BYTES);
    state[48] = 123; /* the arrival of the sixth place, as it was found */
    refuse_state("an arrival past the last row, and that task in the mask", state, 1 << 5);
    for (size_t task = 1; task <= TOLLSALMON_TASKS; task++) {
        spoil_place(fresh_p3, task);
        spoil_place(fresh_32, task);
        spoil_place(closed_32, task);
    }
}

/* Ticks. */

static void put_number(uint8_t to[], uint32_t number)
{
    for (int i = 0; i < NUMBER; i++)
        to[i] = (uint8_t)(number >> (8 * i));
}

/* A tick on a machine that is read: refused, one call leaves everything, and many ticks write their answer and leave the machine. */
static void refuse_tick(const char *what, const uint64_t state[], uint32_t mask, uint8_t number, uint32_t place)
{
    uint8_t record[TOLLSALMON_RECORD] = {0}, answer[TOLLSALMON_ANSWER] = {0};

    put_number(record, mask);
    put_number(answer + TOLLSALMON_AT_CLOCK, (uint32_t)state[TOLLSALMON_AT_NOW]);
    put_number(answer + TOLLSALMON_AT_PLACE, place);
    answer[TOLLSALMON_AT_WHO] = TOLLSALMON_WHO_REFUSED;
    answer[TOLLSALMON_AT_TASK] = number;
    tick(what, in(state, STATE_BYTES), (struct tick){mask, 0, 0}, untouched(100), number, place);
    call(what, ticks, in(state, STATE_BYTES), in(record, sizeof record), room(100, answer, sizeof answer), TOLLSALMON_ACCEPTED, 1);
}

/* What makes a machine on P3 with one job badly formed: some number, in place of the good one. */
static const struct {
    const char *what;
    size_t index;
    uint64_t value;
} badly_formed[] = {
    {"no rows", TOLLSALMON_AT_ROWS, 0},
    {"33 rows", TOLLSALMON_AT_ROWS, 33},
    {"rows that are good in 32 bits", TOLLSALMON_AT_ROWS, ((uint64_t)1 << 32) + 1},
    {"a second row of zeros", TOLLSALMON_AT_ROWS, 2},
    {"a clock past its end", TOLLSALMON_AT_NOW, ((uint64_t)1 << 40) + 1},
    {"a clock that is good in 63 bits", TOLLSALMON_AT_NOW, ((uint64_t)1 << 63) + 3},
    {"a T of 0", TOLLSALMON_AT_PLACES + TOLLSALMON_AT_T, 0},
    {"a D above T", TOLLSALMON_AT_PLACES + TOLLSALMON_AT_D, 11},
    {"a C above a million", TOLLSALMON_AT_PLACES + TOLLSALMON_AT_C, 1000001},
    {"a K of 0", TOLLSALMON_AT_PLACES + TOLLSALMON_AT_K, 0},
    {"an E of 0", TOLLSALMON_AT_PLACES + TOLLSALMON_AT_E, 0},
    {"an E of D", TOLLSALMON_AT_PLACES + TOLLSALMON_AT_E, 8},
    {"a hypertask before its time", TOLLSALMON_AT_PLACES + TOLLSALMON_AT_STAGE, TOLLSALMON_STAGE_HYPER},
    {"an arrival in time to come", TOLLSALMON_AT_PLACES + TOLLSALMON_AT_ARRIVAL, 4},
    {"more used than C", TOLLSALMON_AT_PLACES + TOLLSALMON_AT_TICKS, 7},
    {"a number past the last row", TOLLSALMON_AT_PLACES + TOLLSALMON_PLACE + TOLLSALMON_AT_T, 1},
    {"a closed job past the last row", TOLLSALMON_AT_PLACES + TOLLSALMON_PLACE + TOLLSALMON_AT_STAGE, TOLLSALMON_STAGE_CLOSED},
};

static void try_badly_formed_states(void)
{
    for (size_t i = 0; i < COUNT(badly_formed); i++) {
        uint64_t state[TOLLSALMON_STATE];

        memcpy(state, fresh_p3, STATE_BYTES);
        state[TOLLSALMON_AT_NOW] = 3;
        set_stage(state, 1, TOLLSALMON_STAGE_GUEST, 0, 3);
        state[badly_formed[i].index] = badly_formed[i].value;
        refuse_tick(badly_formed[i].what, state, 0, TOLLSALMON_NOT_WELL_FORMED, 0);
    }
}

static void try_refused_ticks(void)
{
    uint64_t state[TOLLSALMON_STATE];

    memcpy(state, fresh_p3, STATE_BYTES);
    refuse_tick("task 2 of one", state, 2, TOLLSALMON_NO_SUCH_TASK, 2);
    refuse_tick("tasks 6 and 32 of one, and a good one", state, 0x80000021, TOLLSALMON_NO_SUCH_TASK, 6);
    state[TOLLSALMON_AT_NOW] = (uint64_t)1 << 40;
    refuse_tick("a clock at its end", state, 1, TOLLSALMON_CLOCK_AT_END, 0);
    state[TOLLSALMON_AT_NOW] = 5;
    set_stage(state, 1, TOLLSALMON_STAGE_GUEST, 0, 5);
    refuse_tick("an arrival too soon after a guest's", state, 1, TOLLSALMON_ARRIVAL_TOO_SOON, 1);
    state[TOLLSALMON_AT_NOW] = 9;
    set_stage(state, 1, TOLLSALMON_STAGE_CLOSED, 0, 0);
    refuse_tick("an arrival too soon after a closed job's", state, 1, TOLLSALMON_ARRIVAL_TOO_SOON, 1);
    state[TOLLSALMON_AT_NOW] = 10;
    set_stage(state, 1, TOLLSALMON_STAGE_HYPER, 0, 2);
    refuse_tick("an arrival while the hypertask is pending", state, 1, TOLLSALMON_ARRIVAL_WHILE_HYPER, 1);
    refuse_tick("an arrival too soon of task 32", closed_32, 0x80000000, TOLLSALMON_ARRIVAL_TOO_SOON, TOLLSALMON_TASKS);
}

/* A machine on P3 that has run its guest for some ticks since the arrival at 0, and the answers to them. */
static void run_guest(uint64_t state[], uint8_t answers[], size_t count)
{
    memcpy(state, fresh_p3, STATE_BYTES);
    if (count > 0)
        set_stage(state, 1, TOLLSALMON_STAGE_GUEST, 0, count);
    for (state[TOLLSALMON_AT_NOW] = 0; state[TOLLSALMON_AT_NOW] < count; state[TOLLSALMON_AT_NOW]++) {
        uint8_t *answer = answers + state[TOLLSALMON_AT_NOW] * TOLLSALMON_ANSWER;

        memset(answer, 0, TOLLSALMON_ANSWER);
        answer[TOLLSALMON_AT_CLOCK] = (uint8_t)state[TOLLSALMON_AT_NOW];
        answer[TOLLSALMON_AT_WHO] = TOLLSALMON_WHO_GUEST;
        answer[TOLLSALMON_AT_TASK] = 1;
    }
}

static void try_steps(void)
{
    static const uint8_t nobody[TOLLSALMON_ANSWER];
    uint64_t state[TOLLSALMON_STATE];
    uint8_t answer[TOLLSALMON_ANSWER];

    memcpy(state, fresh_32, STATE_BYTES);
    state[TOLLSALMON_AT_NOW] = 1;
    tick("32 rows and nobody", changed(fresh_32, state, STATE_BYTES), (struct tick){0, 0, 0}, room(100, nobody, TOLLSALMON_ANSWER),
         TOLLSALMON_ACCEPTED, 0);
    run_guest(state, answer, 1);
    tick("a tick", changed(fresh_p3, state, STATE_BYTES), (struct tick){1, 0, 1}, room(TOLLSALMON_ANSWER, answer, TOLLSALMON_ANSWER),
         TOLLSALMON_ACCEPTED, 0);
    tick("a tick and room", changed(fresh_p3, state, STATE_BYTES), (struct tick){1, 0, 0}, room(100, answer, TOLLSALMON_ANSWER),
         TOLLSALMON_ACCEPTED, 0);
    for (size_t size = 0; size < TOLLSALMON_ANSWER; size++)
        tick("answer too short", in(fresh_p3, STATE_BYTES), (struct tick){1, 0, 0}, untouched(size), TOLLSALMON_OUTPUT_SHORT,
             TOLLSALMON_ANSWER);
}

static void try_early_marks(void)
{
    for (unsigned early = 2; early <= UINT8_MAX; early++) {
        tick("an early mark above 1", in(fresh_p3, STATE_BYTES), (struct tick){1, 0, (uint8_t)early}, untouched(100),
             TOLLSALMON_RECORD_BYTES, 0);
        tick("an early mark above 1 and nothing else right", null, (struct tick){2, 0, (uint8_t)early}, null, TOLLSALMON_RECORD_BYTES, 0);
    }
}

/* Records and answers of every size: a tick for each whole record with room for its answer. */
static void try_ticks_of_size(size_t records_size)
{
    static const uint8_t records[3 * TOLLSALMON_RECORD] = {1};
    uint64_t state[TOLLSALMON_STATE];
    uint8_t answers[3 * TOLLSALMON_ANSWER];

    for (size_t size = 0; size <= sizeof answers; size++) {
        size_t whole = records_size / TOLLSALMON_RECORD, fit = size / TOLLSALMON_ANSWER, count = whole < fit ? whole : fit;

        run_guest(state, answers, count);
        call("ticks", ticks, changed(fresh_p3, state, STATE_BYTES), in(records, records_size),
             room(size, answers, count * TOLLSALMON_ANSWER), TOLLSALMON_ACCEPTED, count);
    }
}

static void try_ticks(void)
{
    for (size_t size = 0; size <= 3 * TOLLSALMON_RECORD; size++)
        try_ticks_of_size(size);
}

/* Plan files. */

static const uint8_t plan[] = {
    2, 0, 0, 0,
    1, 0, 0, 0, 28, 0, 0, 0, 16, 0, 0, 0,
    2, 0, 0, 0, 44, 0, 0, 0, 16, 0, 0, 0,
    10, 0, 0, 0, 8, 0, 0, 0, 6, 0, 0, 0, 2, 0, 0, 0,
    1, 0, 0, 0, 0, 0, 0, 0,
    0, 0, 0, 0, 0, 0, 0, 0,
};
static const uint8_t *const records = plan + 44;
enum { RECORDS = 16 };
static const char text[] = "ACCEPT 1\n1 10 8 6 2 2 6 6\n0 G1 - 0\n1 G1 - 0\nTASK 1 1 0 0 1\n";
enum { TEXT = sizeof text - 1 };
static const uint8_t plan_without_script[] = {
    1, 0, 0, 0,
    1, 0, 0, 0, 16, 0, 0, 0, 16, 0, 0, 0,
    10, 0, 0, 0, 8, 0, 0, 0, 6, 0, 0, 0, 2, 0, 0, 0,
};
/* Its K is too long: 19 at task 2. */
static const uint8_t plan_refused[] = {
    1, 0, 0, 0,
    1, 0, 0, 0, 16, 0, 0, 0, 32, 0, 0, 0,
    15, 0, 0, 0, 15, 0, 0, 0, 5, 0, 0, 0, 1, 0, 0, 0,
    20, 0, 0, 0, 20, 0, 0, 0, 6, 0, 0, 0, 4, 0, 0, 0,
};
static const char refused_text[] = "REFUSE 19 2\n";

/* A text with room of every size: all of it or nothing. */
static void try_text(const char *what, struct lent file, const void *wanted, size_t length)
{
    for (size_t size = 0; size <= length + 1; size++)
        call(what, report, file, room(size, wanted, size < length ? 0 : length), null, length, NO_PLACE);
}

static void refuse_file(const char *what, const uint8_t bytes[], size_t size, uint32_t refusal, uint64_t place)
{
    char words[40];
    int length = snprintf(words, sizeof words, "REFUSE %" PRIu32 " %" PRIu64 "\n", refusal, place);

    call(what, check, in(bytes, size), null, null, refusal, place);
    call(what, table, in(bytes, size), untouched(600), null, 0, NO_PLACE);
    call(what, script, in(bytes, size), untouched(600), null, 0, NO_PLACE);
    try_text(what, in(bytes, size), words, (size_t)length);
}

static void try_cut_files(void)
{
    static const uint8_t long_file[TOLLSALMON_FILE + 1];

    refuse_file("a file too long", long_file, sizeof long_file, TOLLSALMON_FILE_LENGTH, sizeof long_file);
    for (size_t size = 0; size < sizeof plan; size++)
        if (size < 4)
            refuse_file("a file too short", plan, size, TOLLSALMON_FILE_LENGTH, size);
        else if (size < 28)
            refuse_file("contents cut", plan, size, TOLLSALMON_CONTENTS, 0);
        else
            refuse_file("a body cut", plan, size, TOLLSALMON_BODY_PLACE, size < 44 ? 1 : 2);
}

/* A plan that is damaged: its length, and up to three bytes in place of the good ones ({0, 2} is the good first byte). */
static const struct {
    const char *what;
    size_t size;
    struct {
        uint8_t at, byte;
    } damage[3];
    uint32_t refusal;
    uint64_t place;
} damaged[] = {
    {"no sections", 60, {{0, 2}, {0, 2}, {0, 0}}, TOLLSALMON_CONTENTS, 0},
    {"three sections", 60, {{0, 2}, {0, 2}, {0, 3}}, TOLLSALMON_CONTENTS, 0},
    {"a first section of kind 2", 60, {{4, 2}, {0, 2}, {0, 2}}, TOLLSALMON_CONTENTS, 1},
    {"a second section of kind 1", 60, {{16, 1}, {0, 2}, {0, 2}}, TOLLSALMON_CONTENTS, 2},
    {"rows that begin too late", 60, {{8, 29}, {0, 2}, {0, 2}}, TOLLSALMON_BODY_PLACE, 1},
    {"a script that begins too late", 60, {{20, 45}, {0, 2}, {0, 2}}, TOLLSALMON_BODY_PLACE, 2},
    {"a script that ends too soon", 60, {{24, 8}, {0, 2}, {0, 2}}, TOLLSALMON_BODY_PLACE, 2},
    {"rows of 15 bytes", 60, {{12, 15}, {20, 43}, {24, 17}}, TOLLSALMON_BODY_SIZE, 1},
    {"a script of no bytes", 44, {{24, 0}, {0, 2}, {0, 2}}, TOLLSALMON_BODY_SIZE, 2},
    {"a script of 12 bytes", 56, {{24, 12}, {0, 2}, {0, 2}}, TOLLSALMON_BODY_SIZE, 2},
    {"an early mark of 2", 60, {{49, 2}, {0, 2}, {0, 2}}, TOLLSALMON_RECORD_BYTES, 0},
    {"a spare byte of 1", 60, {{59, 1}, {0, 2}, {0, 2}}, TOLLSALMON_RECORD_BYTES, 1},
};

static void try_damaged_files(void)
{
    for (size_t i = 0; i < COUNT(damaged); i++) {
        uint8_t file[sizeof plan];

        memcpy(file, plan, sizeof plan);
        file[damaged[i].damage[0].at] = damaged[i].damage[0].byte;
        file[damaged[i].damage[1].at] = damaged[i].damage[1].byte;
        file[damaged[i].damage[2].at] = damaged[i].damage[2].byte;
        refuse_file(damaged[i].what, file, damaged[i].size, damaged[i].refusal, damaged[i].place);
    }
}

static void try_parts(void)
{
    struct lent file = in(plan, sizeof plan);

    call("a plan", check, file, null, null, TOLLSALMON_ACCEPTED, 0);
    for (size_t count = 0; count <= 5; count++)
        call("its rows", table, file, room(count * NUMBER, p3, count < COUNT(p3) ? 0 : sizeof p3), null, COUNT(p3), NO_PLACE);
}

static void try_scripts(void)
{
    for (size_t size = 0; size <= RECORDS + 2; size++)
        call("its script", script, in(plan, sizeof plan), room(size, records, size < RECORDS ? 0 : RECORDS), null, RECORDS, NO_PLACE);
}

static void try_refused_writes(void)
{
    static uint8_t bad[TOLLSALMON_FILE];
    struct lent rows = in(p3, sizeof p3), output = untouched(TOLLSALMON_FILE + PAGE);

    call("three numbers", write_plan, in(p3, 3 * NUMBER), in(records, RECORDS), output, TOLLSALMON_TABLE_LENGTH, 3);
    call("a script that is too long", write_plan, rows, in(bad, 65512), output, TOLLSALMON_FILE_LENGTH, 28 + sizeof p3 + 65512);
    bad[8 + 5] = 2;
    call("an early mark of 2", write_plan, rows, in(bad, RECORDS), output, TOLLSALMON_RECORD_BYTES, 1);
    bad[7] = 1;
    call("a spare byte of 1", write_plan, rows, in(bad, RECORDS), output, TOLLSALMON_RECORD_BYTES, 0);
    for (size_t size = 1; size < TOLLSALMON_RECORD; size++)
        call("a script that isn't in eights", write_plan, rows, in(records, size), output, TOLLSALMON_BODY_SIZE, 2);
}

static void try_writes(void)
{
    for (size_t size = 0; size <= sizeof plan + 2; size++) {
        bool fits = size >= sizeof plan;

        call("a plan", write_plan, in(p3, sizeof p3), in(records, RECORDS), room(size, plan, fits ? sizeof plan : 0),
             fits ? TOLLSALMON_ACCEPTED : TOLLSALMON_OUTPUT_SHORT, sizeof plan);
    }
}

/* A null pointer of length 0, for every array of every function. */
static void try_null(void)
{
    static const char refusal[] = "REFUSE 13 0\n";
    struct lent rows = in(p3, sizeof p3), state = in(fresh_p3, STATE_BYTES), ticked = in(records, RECORDS), file = in(plan, sizeof plan);

    call("null numbers", analyse, null, untouched(400), null, TOLLSALMON_TABLE_LENGTH, 0);
    call("null results", analyse, rows, null, null, TOLLSALMON_RESULTS_SHORT, 3);
    call("null numbers", start, null, room(STATE_BYTES, no_rows, STATE_BYTES), null, TOLLSALMON_TABLE_LENGTH, 0);
    call("null state", start, rows, null, null, TOLLSALMON_OUTPUT_SHORT, TOLLSALMON_STATE);
    tick("null state", null, (struct tick){1, 0, 0}, untouched(100), TOLLSALMON_NOT_WELL_FORMED, 0);
    tick("null answer", state, (struct tick){1, 0, 0}, null, TOLLSALMON_OUTPUT_SHORT, TOLLSALMON_ANSWER);
    tick("null state and answer", null, (struct tick){1, 0, 0}, null, TOLLSALMON_OUTPUT_SHORT, TOLLSALMON_ANSWER);
    call("null state", ticks, null, ticked, untouched(100), TOLLSALMON_NOT_WELL_FORMED, 0);
    call("null records", ticks, state, null, untouched(100), TOLLSALMON_ACCEPTED, 0);
    call("null answers", ticks, state, ticked, null, TOLLSALMON_ACCEPTED, 0);
    call("null file", check, null, null, null, TOLLSALMON_FILE_LENGTH, 0);
    call("null file", table, null, untouched(400), null, 0, NO_PLACE);
    call("null table", table, file, null, null, COUNT(p3), NO_PLACE);
    call("null file", script, null, untouched(400), null, 0, NO_PLACE);
    call("null script", script, file, null, null, RECORDS, NO_PLACE);
    call("null numbers", write_plan, null, ticked, untouched(400), TOLLSALMON_TABLE_LENGTH, 0);
    call("null script", write_plan, rows, null, room(400, plan_without_script, sizeof plan_without_script), TOLLSALMON_ACCEPTED,
         sizeof plan_without_script);
    call("null output", write_plan, rows, ticked, null, TOLLSALMON_OUTPUT_SHORT, sizeof plan);
    call("null file", report, null, room(400, refusal, sizeof refusal - 1), null, sizeof refusal - 1, NO_PLACE);
    call("null text", report, file, null, null, TEXT, NO_PLACE);
}

int main(void)
{
    make_regions();
    make_machines();
    try_refused_tables();
    try_results_of_every_size();
    try_states_of_every_size();
    try_unreadable_states();
    try_badly_formed_states();
    try_refused_ticks();
    try_steps();
    try_early_marks();
    try_ticks();
    try_cut_files();
    try_damaged_files();
    try_parts();
    try_scripts();
    try_text("a text", in(plan, sizeof plan), text, TEXT);
    try_text("a refused table's text", in(plan_refused, sizeof plan_refused), refused_text, sizeof refused_text - 1);
    try_refused_writes();
    try_writes();
    try_null();
    printf("lent: %lu calls in %d positions each, %lu wrong\n", calls, POSITIONS, wrong);
    return wrong > 0;
}
