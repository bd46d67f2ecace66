/* What tollsalmon_words says of numbers that have a refusal and of those that have none. */
#include <inttypes.h>
#include <stdio.h>
#include <string.h>
#include <tollsalmon.h>

static const struct {
    uint32_t number;
    const char *words;
} said[] = {
    {0, "accepted"},
    {1, "the table isn't 1 to 32 rows of four numbers"},
    {7, "the guest can't have its ticks before its enforcement instant"},
    {18, "too little room was lent for what is written"},
    {19, "after the task's own hypertask the guest can't have its ticks within the period"},
    {999, "no such refusal"},
    {UINT32_MAX, "no such refusal"},
};

int main(void)
{
    size_t count = sizeof said / sizeof said[0];
    int wrong = 0;

    for (size_t i = 0; i < count; i++)
        if (strcmp(tollsalmon_words(said[i].number), said[i].words) != 0) {
            fprintf(stderr, "words: WRONG: %" PRIu32 " is '%s'\n", said[i].number, tollsalmon_words(said[i].number));
            wrong++;
        }
    printf("words: %zu numbers, %d wrong\n", count, wrong);
    return wrong > 0;
}
