/* Tollsalmon from C: starts a table, steps it tick by tick and prints who ran.

       ./tollsalmon install PREFIX
       export PKG_CONFIG_PATH=PREFIX/lib/pkgconfig
       cc -o first examples/first.c $(pkg-config --cflags --libs tollsalmon)
       ./first                             (prints examples/first.out) */
#include <inttypes.h>
#include <stdio.h>
#include <tollsalmon.h>

/* T, D, C and K of two tasks, the higher priority first: a lift's brake, and a camera. */
static const uint32_t table[] = {
    10, 10, 2, 1,
    20, 20, 4, 2,
};

enum { NOBODY = 0, BRAKE = 1, CAMERA = 2 };
#define ARRIVES(task) (UINT32_C(1) << ((task) - 1))

/* What a tick brings: arrivals, the task whose guest signals its output, the early-end mark. */
struct tick {
    uint32_t mask;
    uint8_t signal;
    uint8_t early;
};
#define NOTHING {0, NOBODY, 0}

static const struct tick ticks[] = {
    {ARRIVES(BRAKE) | ARRIVES(CAMERA), NOBODY, 0},
    {0, BRAKE, 0}, /* the brake's guest is done */
    NOTHING, NOTHING, NOTHING, NOTHING,
    {0, CAMERA, 0}, /* the camera's has had its four ticks and comes too late */
    {ARRIVES(BRAKE), NOBODY, 0}, /* less than 10 ticks after its last arrival: refused, and the clock stands still */
    NOTHING, NOTHING, NOTHING,
    {ARRIVES(BRAKE), NOBODY, 0},
    NOTHING, NOTHING, NOTHING, NOTHING, NOTHING,
    NOTHING, NOTHING, NOTHING, /* clock 16: the camera's hypertask takes over, then the brake's */
};

static void print_refusal(const char *what, uint32_t number, uint64_t place)
{
    printf("%s is refused with %" PRIu32 " at %" PRIu64 ": %s\n", what, number, place, tollsalmon_words(number));
}

static const char *who_ran(const uint8_t answer[])
{
    switch (answer[TOLLSALMON_AT_WHO]) {
    case TOLLSALMON_WHO_GUEST: return "the guest";
    case TOLLSALMON_WHO_HYPERTASK: return "the hypertask";
    default: return "nobody";
    }
}

static const char *what_came_of_it(const uint8_t answer[])
{
    switch (answer[TOLLSALMON_AT_MARK]) {
    case TOLLSALMON_MARK_OUTPUT: return ", and gives the output";
    case TOLLSALMON_MARK_BUDGET_USED_UP: return ", and has used up its ticks";
    default: return "";
    }
}

static void print_answer(uint64_t clock, const uint8_t answer[])
{
    printf("%2" PRIu64 ": %s", clock, who_ran(answer));
    if (answer[TOLLSALMON_AT_WHO] != TOLLSALMON_WHO_NOBODY)
        printf(" of task %d", answer[TOLLSALMON_AT_TASK]);
    printf("%s%s\n", what_came_of_it(answer), answer[TOLLSALMON_AT_IGNORED] ? "; a signal is ignored" : "");
}

/* Whether the machine can go on: a refused arrival leaves it as it was. */
static int step(uint64_t state[], const struct tick *tick)
{
    uint8_t answer[TOLLSALMON_ANSWER];
    uint64_t place, clock = state[TOLLSALMON_AT_NOW];
    uint32_t number = tollsalmon_step(state, TOLLSALMON_STATE, tick->mask, tick->signal, tick->early,
                                      answer, TOLLSALMON_ANSWER, &place);

    if (number == TOLLSALMON_ACCEPTED)
        print_answer(clock, answer);
    else
        print_refusal("    a tick", number, place);
    return number == TOLLSALMON_ACCEPTED || number == TOLLSALMON_ARRIVAL_TOO_SOON;
}

int main(void)
{
    uint64_t state[TOLLSALMON_STATE], place;
    size_t i, count = sizeof ticks / sizeof ticks[0];
    uint32_t number = tollsalmon_start(table, sizeof table / sizeof table[0], state, TOLLSALMON_STATE, &place);

    if (number != TOLLSALMON_ACCEPTED) {
        print_refusal("the table", number, place);
        return 1;
    }
    printf("a machine of %" PRIu64 " tasks\n", place);
    for (i = 0; i < count && step(state, &ticks[i]); i++) {
    }
    return i < count;
}
