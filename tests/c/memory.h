/* Memory to lend: every array of a call lies in a region of its own, with a page before and after it that nobody may touch. A call is made
   three times: with what it is lent right behind the first page, right before the last, and in the middle of a pattern. Afterwards every
   byte of the regions is compared with what it must be, inputs and what lies beside the lent part among them. */
#include <inttypes.h>
#include <signal.h>
#include <stdbool.h>
#include <stdio.h>
#include <stdlib.h>
#include <string.h>
#include <sys/mman.h>
#include <unistd.h>
#include <tollsalmon.h>

enum { ARRAYS = 3, PLACE = ARRAYS, REGIONS, PAGE = 4096, ROOM = 176 * PAGE };
enum { FRONT, MIDDLE, BACK, POSITIONS };

/* For a function that has no place: what lies there stays. */
#define NO_PLACE UINT64_MAX

/* An array of a call: the first 'held' of its 'bytes' are those of 'before', the rest a pattern; afterwards the first 'written' of them
   are those of 'after', and all else is as it was. */
struct lent {
    const void *before;
    size_t held, bytes;
    const void *after;
    size_t written;
    bool null;
};

struct tick {
    uint32_t mask;
    uint8_t signal, early;
};

typedef uint64_t function(void *const at[], const size_t bytes[], struct tick tick, uint64_t *place);

struct call {
    const char *what;
    function *function;
    struct lent lent[ARRAYS];
    struct tick tick;
    uint64_t answer, place;
};

/* Where a region's lent part lies, and the part of the region around it that is compared. */
struct region {
    unsigned char *base, *at, *seen, *wanted;
    size_t size;
};

static struct region regions[REGIONS];
static unsigned long calls, wrong;
static const struct call *now;
static int position;

static void print_now(const char *what)
{
    static const char *const positions[] = {"behind a guard page", "in the middle", "before a guard page"};

    if (wrong++ < 20)
        fprintf(stderr, "lent: WRONG: %s (%s): %s\n", now->what, positions[position], what);
}

static void touched_a_guard_page(int number)
{
    (void)number;
    print_now("memory that isn't lent was touched");
    _exit(1);
}

static void make_regions(void)
{
    for (int i = 0; i < REGIONS; i++) {
        unsigned char *all = mmap(NULL, ROOM + 2 * PAGE, PROT_NONE, MAP_PRIVATE | MAP_ANONYMOUS, -1, 0);
        regions[i].wanted = malloc(ROOM);
        if (all == MAP_FAILED || regions[i].wanted == NULL || mprotect(all + PAGE, ROOM, PROT_READ | PROT_WRITE) != 0)
            exit(3);
        regions[i].base = all + PAGE;
    }
    signal(SIGSEGV, touched_a_guard_page);
    signal(SIGBUS, touched_a_guard_page);
}

/* A pattern without a 0 in it, since what is written is often 0. */
static void paint(unsigned char *bytes, size_t size)
{
    for (size_t i = 0; i < size; i++)
        bytes[i] = (unsigned char)((i * 151 + 43) | 1);
}

static void prepare(struct region *r, const struct lent *l)
{
    size_t before, after;

    r->at = position == FRONT ? r->base : position == MIDDLE ? r->base + PAGE : r->base + ROOM - l->bytes;
    before = position == FRONT ? 0 : PAGE;
    after = position == BACK ? 0 : PAGE;
    r->seen = r->at - before;
    r->size = before + l->bytes + after;
    paint(r->seen, r->size);
    if (l->held > 0)
        memcpy(r->at, l->before, l->held);
    memcpy(r->wanted, r->seen, r->size);
    if (l->written > 0)
        memcpy(r->wanted + before, l->after, l->written);
}

static void compare(const struct region *r, const char *name)
{
    char words[100];
    size_t i = 0;

    if (memcmp(r->seen, r->wanted, r->size) == 0)
        return;
    while (r->seen[i] == r->wanted[i])
        i++;
    snprintf(words, sizeof words, "byte %td of %s is %d in place of %d", r->seen + i - r->at, name, r->seen[i], r->wanted[i]);
    print_now(words);
}

static void compare_answer(uint64_t answer)
{
    char words[100];

    if (answer == now->answer)
        return;
    snprintf(words, sizeof words, "answered %" PRIu64 " in place of %" PRIu64, answer, now->answer);
    print_now(words);
}

static void call_here(void)
{
    static const char *const names[REGIONS] = {"the first array", "the second array", "the third array", "place"};
    struct lent place = {NULL, 0, sizeof(uint64_t), &now->place, now->place == NO_PLACE ? 0 : sizeof(uint64_t), false};
    void *at[ARRAYS];
    size_t bytes[ARRAYS];

    for (int i = 0; i < ARRAYS; i++) {
        prepare(&regions[i], &now->lent[i]);
        at[i] = now->lent[i].null ? NULL : regions[i].at;
        bytes[i] = now->lent[i].bytes;
    }
    prepare(&regions[PLACE], &place);
    compare_answer(now->function(at, bytes, now->tick, (uint64_t *)(void *)regions[PLACE].at));
    for (int i = 0; i < REGIONS; i++)
        compare(&regions[i], names[i]);
}

static void make_call(const struct call *call)
{
    now = call;
    calls++;
    for (position = FRONT; position < POSITIONS; position++)
        call_here();
}
