/* Every function on a thread whose whole stack is TOLLSALMON_STACK bytes, above a page that nobody may touch, with the largest inputs;
   and how deep it goes, by a pattern on the stack that it leaves where it hasn't been. */
#include <inttypes.h>
#include <pthread.h>
#include <stdio.h>
#include <stdlib.h>
#include <string.h>
#include <sys/mman.h>
#include <tollsalmon.h>

enum { PAGE = 4096, NEAR = 512 };
enum {
    NUMBERS = TOLLSALMON_TASKS * TOLLSALMON_ROW,
    CONTENTS = 28,
    TICKS = (TOLLSALMON_FILE - CONTENTS - NUMBERS * sizeof(uint32_t)) / TOLLSALMON_RECORD,
    FILE_SIZE = CONTENTS + NUMBERS * sizeof(uint32_t) + TICKS * TOLLSALMON_RECORD
};

static uint32_t table[NUMBERS], results[TOLLSALMON_TASKS * TOLLSALMON_RESULT];
static uint64_t state[TOLLSALMON_STATE], place;
static uint8_t records[TICKS * TOLLSALMON_RECORD], answers[TICKS * TOLLSALMON_ANSWER], answer[TOLLSALMON_ANSWER];
static uint8_t file[TOLLSALMON_FILE], text[TOLLSALMON_TEXT];

static uint64_t analyse(void)
{
    return tollsalmon_analyse(table, NUMBERS, results, TOLLSALMON_TASKS * TOLLSALMON_RESULT, &place);
}

static uint64_t start(void)
{
    return tollsalmon_start(table, NUMBERS, state, TOLLSALMON_STATE, &place);
}

static uint64_t step(void)
{
    return tollsalmon_step(state, TOLLSALMON_STATE, UINT32_MAX, 1, 1, answer, TOLLSALMON_ANSWER, &place);
}

static uint64_t ticks(void)
{
    return tollsalmon_ticks(state, TOLLSALMON_STATE, records, sizeof records, answers, sizeof answers, &place);
}

static uint64_t write_plan(void)
{
    return tollsalmon_write(table, NUMBERS, records, sizeof records, file, TOLLSALMON_FILE, &place);
}

static uint64_t check(void)
{
    return tollsalmon_check(file, FILE_SIZE, &place);
}

static uint64_t rows(void)
{
    return tollsalmon_table(file, FILE_SIZE, table, NUMBERS);
}

static uint64_t script(void)
{
    return tollsalmon_script(file, FILE_SIZE, records, sizeof records);
}

static uint64_t report(void)
{
    return tollsalmon_report(file, FILE_SIZE, text, TOLLSALMON_TEXT);
}

/* In an order in which each has what it needs, with the least and the most that it answers, so that none stops before its work. */
static const struct job {
    const char *name;
    uint64_t (*call)(void);
    uint64_t least, most;
} jobs[] = {
    {"analyse", analyse, TOLLSALMON_ACCEPTED, TOLLSALMON_ACCEPTED},
    {"start", start, TOLLSALMON_ACCEPTED, TOLLSALMON_ACCEPTED},
    {"step", step, TOLLSALMON_ACCEPTED, TOLLSALMON_ACCEPTED},
    {"ticks", ticks, TOLLSALMON_ACCEPTED, TOLLSALMON_ACCEPTED},
    {"write", write_plan, TOLLSALMON_ACCEPTED, TOLLSALMON_ACCEPTED},
    {"check", check, TOLLSALMON_ACCEPTED, TOLLSALMON_ACCEPTED},
    {"table", rows, NUMBERS, NUMBERS},
    {"script", script, sizeof records, sizeof records},
    {"report", report, TICKS * sizeof "0 I - 0", TOLLSALMON_TEXT},
};

/* One job on a stack, and how far below the frame that calls it the stack was written. */
struct visit {
    const struct job *job;
    unsigned char *stack;
    uint64_t answer;
    size_t depth;
};

static unsigned char pattern(const unsigned char *at)
{
    return (unsigned char)(((uintptr_t)at * 151 + 43) | 1);
}

static void paint(unsigned char *from, const unsigned char *to)
{
    for (volatile unsigned char *at = from; at < to; at++)
        *at = pattern((const unsigned char *)at);
}

static void *visit(void *given)
{
    struct visit *v = given;
    unsigned char *here = __builtin_frame_address(0), *lowest = v->stack;

    paint(v->stack, here - NEAR);
    v->answer = v->job->call();
    while (lowest < here - NEAR && *lowest == pattern(lowest))
        lowest++;
    v->depth = (size_t)(here - lowest);
    return NULL;
}

static unsigned char *make_stack(void)
{
    unsigned char *all = mmap(NULL, PAGE + TOLLSALMON_STACK, PROT_NONE, MAP_PRIVATE | MAP_ANONYMOUS, -1, 0);

    if (all == MAP_FAILED || mprotect(all + PAGE, TOLLSALMON_STACK, PROT_READ | PROT_WRITE) != 0)
        exit(3);
    return all + PAGE;
}

static size_t depth_of(const struct job *job, unsigned char *stack)
{
    struct visit v = {job, stack, 0, 0};
    pthread_attr_t attributes;
    pthread_t thread;

    if (pthread_attr_init(&attributes) != 0 || pthread_attr_setstack(&attributes, stack, TOLLSALMON_STACK) != 0)
        exit(3);
    if (pthread_create(&thread, &attributes, visit, &v) != 0 || pthread_join(thread, NULL) != 0)
        exit(3);
    pthread_attr_destroy(&attributes);
    if (v.answer < job->least || v.answer > job->most) {
        printf("stack: %s answered %" PRIu64 "\n", job->name, v.answer);
        exit(1);
    }
    return v.depth;
}

/* 32 rows and the longest script: all arrive at once, run as guests and then as hypertasks, and arrive again after T. */
static void make_inputs(void)
{
    static const uint32_t row[TOLLSALMON_ROW] = {8000, 8000, 50, 50};

    for (size_t task = 0; task < TOLLSALMON_TASKS; task++)
        memcpy(table + task * TOLLSALMON_ROW, row, sizeof row);
    memset(records, UINT8_MAX, 4);
    memset(records + row[0] * TOLLSALMON_RECORD, UINT8_MAX, 4);
}

int main(void)
{
    unsigned char *stack = make_stack();
    size_t deepest = 0;

    make_inputs();
    for (size_t i = 0; i < sizeof jobs / sizeof jobs[0]; i++) {
        size_t depth = depth_of(&jobs[i], stack);

        printf("stack: %s goes %zu bytes deep\n", jobs[i].name, depth);
        deepest = depth > deepest ? depth : deepest;
    }
    printf("stack: %zu of %d bytes are used\n", deepest, TOLLSALMON_STACK);
    return 2 * deepest > TOLLSALMON_STACK; /* another compiler may want more */
}
