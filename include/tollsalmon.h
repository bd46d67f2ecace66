/* Tollsalmon for C and C++, on x86-64: one analysis of a table, one machine that steps it, one plan file for both.
   Link libtollsalmon.a (./tollsalmon install PREFIX). What each function promises, and where it is proved: docs/PROMISES.md.

   Every function that can refuse returns 0 or the refusal's number, and *place is then its place (0 where it has none).
   A refused call leaves all lent memory but *place as it was, with one exception: tollsalmon_start.

   Memory   A pointer and a length lend an array. It must be aligned as its type is, and what a function writes must overlap nothing
            else that it is given. An array of length 0 may be a null pointer; place must not be null.
   Threads  There are no globals and nothing is allocated: calls from several threads are independent as long as they write
            to different memory.
   Stack    TOLLSALMON_STACK bytes are enough for any call. */
#ifndef TOLLSALMON_H
#define TOLLSALMON_H

#include <stddef.h>
#include <stdint.h>

#define TOLLSALMON_VERSION "0.3.0"
#define TOLLSALMON_VERSION_MAJOR 0
#define TOLLSALMON_VERSION_MINOR 3
#define TOLLSALMON_VERSION_PATCH 0

#ifdef __cplusplus
extern "C" {
#endif

/* Sizes. */
#define TOLLSALMON_TASKS 32     /* the most tasks of a table */
#define TOLLSALMON_ROW 4        /* numbers of a row: T, D, C, K */
#define TOLLSALMON_RESULT 3     /* numbers of a task's result: R, E, G */
#define TOLLSALMON_STATE 258    /* numbers of a machine */
#define TOLLSALMON_RECORD 8     /* bytes of a tick record */
#define TOLLSALMON_ANSWER 12    /* bytes of an answer */
#define TOLLSALMON_FILE 65536   /* the most bytes of a plan file */
#define TOLLSALMON_TEXT 655360  /* the most bytes of a run's text */
#define TOLLSALMON_STACK 32768  /* bytes of stack; tests/c/stack.c measures less than half of it */

/* A machine, as TOLLSALMON_STATE numbers: how many rows, the clock, then TOLLSALMON_PLACE numbers for each of TOLLSALMON_TASKS places.
   A number that the stage has no use for is 0. */
#define TOLLSALMON_PLACE 8
enum {
    TOLLSALMON_AT_ROWS = 0,
    TOLLSALMON_AT_NOW = 1,
    TOLLSALMON_AT_PLACES = 2
};
/* The numbers of a place. */
enum {
    TOLLSALMON_AT_T = 0,
    TOLLSALMON_AT_D = 1,
    TOLLSALMON_AT_C = 2,
    TOLLSALMON_AT_K = 3,
    TOLLSALMON_AT_E = 4,
    TOLLSALMON_AT_STAGE = 5,
    TOLLSALMON_AT_ARRIVAL = 6,
    TOLLSALMON_AT_TICKS = 7 /* a Guest's used, a Hyper's left */
};
enum tollsalmon_stage {
    TOLLSALMON_STAGE_NEVER = 0,
    TOLLSALMON_STAGE_GUEST = 1,
    TOLLSALMON_STAGE_HYPER = 2,
    TOLLSALMON_STAGE_CLOSED = 3
};

/* The bytes of an answer; numbers of 4 bytes have their lowest byte first. */
enum {
    TOLLSALMON_AT_CLOCK = 0, /* 4 bytes: the lowest 32 bits of the clock before the tick */
    TOLLSALMON_AT_PLACE = 4, /* 4 bytes: a refusal's place */
    TOLLSALMON_AT_WHO = 8,
    TOLLSALMON_AT_TASK = 9, /* the task that ran, or a refusal's number */
    TOLLSALMON_AT_MARK = 10,
    TOLLSALMON_AT_IGNORED = 11 /* 1 where a signal was ignored */
};
enum tollsalmon_who {
    TOLLSALMON_WHO_NOBODY = 0,
    TOLLSALMON_WHO_GUEST = 1,
    TOLLSALMON_WHO_HYPERTASK = 2,
    TOLLSALMON_WHO_REFUSED = 3
};
enum tollsalmon_mark {
    TOLLSALMON_MARK_NOTHING = 0,
    TOLLSALMON_MARK_OUTPUT = 1,
    TOLLSALMON_MARK_BUDGET_USED_UP = 2
};

/* The refusals. */
/* from refusals.txt: */
enum tollsalmon_refusal {
    TOLLSALMON_ACCEPTED = 0,
    TOLLSALMON_TABLE_LENGTH = 1,
    TOLLSALMON_FIELD_RANGE = 2,
    TOLLSALMON_DEADLINE_ABOVE_PERIOD = 3,
    TOLLSALMON_RESULTS_SHORT = 4,
    TOLLSALMON_NO_ACTIVE_PERIOD = 5,
    TOLLSALMON_START_TOO_LATE = 6,
    TOLLSALMON_NO_GUEST_WINDOW = 7,
    TOLLSALMON_NOT_WELL_FORMED = 8,
    TOLLSALMON_CLOCK_AT_END = 9,
    TOLLSALMON_NO_SUCH_TASK = 10,
    TOLLSALMON_ARRIVAL_TOO_SOON = 11,
    TOLLSALMON_ARRIVAL_WHILE_HYPER = 12,
    TOLLSALMON_FILE_LENGTH = 13,
    TOLLSALMON_CONTENTS = 14,
    TOLLSALMON_BODY_PLACE = 15,
    TOLLSALMON_BODY_SIZE = 16,
    TOLLSALMON_RECORD_BYTES = 17,
    TOLLSALMON_OUTPUT_SHORT = 18,
    TOLLSALMON_NO_HYPERTASK_WINDOW = 19
};

/* What a number means, in a few words. */
static inline const char *tollsalmon_words(uint32_t number)
{
    switch (number) {
    case TOLLSALMON_ACCEPTED: return "accepted";
    case TOLLSALMON_TABLE_LENGTH: return "the table isn't 1 to 32 rows of four numbers";
    case TOLLSALMON_FIELD_RANGE: return "a number of the table is 0 or above 1,000,000";
    case TOLLSALMON_DEADLINE_ABOVE_PERIOD: return "the deadline is longer than the period";
    case TOLLSALMON_RESULTS_SHORT: return "too little room was lent for the results";
    case TOLLSALMON_NO_ACTIVE_PERIOD: return "hypertasks alone overload the processor";
    case TOLLSALMON_START_TOO_LATE: return "the hypertask can end after its deadline";
    case TOLLSALMON_NO_GUEST_WINDOW: return "the guest can't have its ticks before its enforcement instant";
    case TOLLSALMON_NOT_WELL_FORMED: return "the machine's state is damaged or can't be read";
    case TOLLSALMON_CLOCK_AT_END: return "the clock has reached 2^40";
    case TOLLSALMON_NO_SUCH_TASK: return "the mask names a task that isn't in the table";
    case TOLLSALMON_ARRIVAL_TOO_SOON: return "an arrival less than T after the task's last";
    case TOLLSALMON_ARRIVAL_WHILE_HYPER: return "an arrival while the task's hypertask is pending";
    case TOLLSALMON_FILE_LENGTH: return "the file is shorter than 4 or longer than 65,536 bytes";
    case TOLLSALMON_CONTENTS: return "the count of sections is wrong or the contents pass the file's end (entry 0), or an entry has the wrong kind";
    case TOLLSALMON_BODY_PLACE: return "a body isn't where it belongs";
    case TOLLSALMON_BODY_SIZE: return "a body isn't in whole rows or records, or is empty";
    case TOLLSALMON_RECORD_BYTES: return "an early mark above 1 or a spare byte that isn't 0";
    case TOLLSALMON_OUTPUT_SHORT: return "too little room was lent for what is written";
    case TOLLSALMON_NO_HYPERTASK_WINDOW: return "after the task's own hypertask the guest can't have its ticks within the period";
    default: return "no such refusal";
    }
}
/* end of refusals.txt */

/* R, E, G of each task to the front of results, and the number of tasks in *place. Refusals, in the order in which they are looked at:
   1, 2, 3, 4, then 5 and 6 row by row, then 7 and 19 row by row. */
uint32_t tollsalmon_analyse(const uint32_t *table, size_t table_len, uint32_t *results, size_t results_len, uint64_t *place);

/* A fresh machine to the front of state, and the number of tasks in *place. Refusals: 18 (place TOLLSALMON_STATE, state too short and
   untouched); 1, 2, 3, 5, 6, 7, 19 in tollsalmon_analyse's order, and then state is the machine with no rows, which answers 8 to every
   tick. */
uint32_t tollsalmon_start(const uint32_t *table, size_t table_len, uint64_t *state, size_t state_len, uint64_t *place);

/* One tick: bit 0 of mask is an arrival of task 1; signal is 0 for none, else the number that a guest signalled; early is 1 where the
   running hypertask ends early, else 0. The machine afterwards in state, the answer's TOLLSALMON_ANSWER bytes at the front of answer.
   Refusals: 17 (early above 1), 18 (place TOLLSALMON_ANSWER), 8 (also where state can't be read), 9, 10, 11, 12. */
uint32_t tollsalmon_step(uint64_t *state, size_t state_len, uint32_t mask, uint8_t signal, uint8_t early,
                         uint8_t *answer, size_t answer_len, uint64_t *place);

/* A tick for each whole record (mask 4 bytes, signal, early, two spare) that has room for its whole answer, and how many in *place.
   A tick that is refused is answered too (who is TOLLSALMON_WHO_REFUSED), and the next comes at the same clock.
   The records are not checked: an early mark other than 1 counts as 0, spare bytes and an incomplete last record are not looked at.
   Refusal: 8, where state can't be read: fewer than TOLLSALMON_STATE numbers, T, D, C, K or E of 2^32 or more, a stage above 3,
   or a number that its stage has no use for and that isn't 0. */
uint32_t tollsalmon_ticks(uint64_t *state, size_t state_len, const uint8_t *records, size_t records_len,
                          uint8_t *answers, size_t answers_len, uint64_t *place);

/* Whether bytes are a plan file. Refusals: 13, 14, 15, 16, 17. */
uint32_t tollsalmon_check(const uint8_t *file, size_t file_len, uint64_t *place);

/* How many numbers the rows of a plan file have, and how many bytes its script; 0 where the file is refused.
   They are copied to the front of what is lent only where all of it fits. */
uint64_t tollsalmon_table(const uint8_t *file, size_t file_len, uint32_t *table, size_t table_len);
uint64_t tollsalmon_script(const uint8_t *file, size_t file_len, uint8_t *script, size_t script_len);

/* The plan file of a table and a script (records, or none) to the front of output, and its length in *place.
   Refusals: 1, 16, 17, 13, 18. */
uint32_t tollsalmon_write(const uint32_t *table, size_t table_len, const uint8_t *script, size_t script_len,
                          uint8_t *output, size_t output_len, uint64_t *place);

/* How many bytes the whole text of a plan's run has; written to the front of text only where all of it fits. A refused plan has a
   text too, "REFUSE number place" and a line feed. */
uint64_t tollsalmon_report(const uint8_t *file, size_t file_len, uint8_t *text, size_t text_len);

#ifdef __cplusplus
}
#endif

#endif
