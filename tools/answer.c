/* The part's answer to the queue message on standard input, for queue_text.py: a line `R V`, and behind it the bytes of
 * the plan, or of the split plan, where R is 0. The table is as long as the part asks, or as the first word says, where
 * that is less. A second word is the second cutter's start: with it the queue is split. With the one word `size` the
 * queue is not planned, and the line is `R V V`: the entries that its table needs, and the most that can be kept. */
#include "kippertarn.h"

#include <stdio.h>
#include <stdlib.h>
#include <string.h>

static uint64_t ask(const uint8_t *message, size_t length, const char *second, uint64_t *table, size_t entries,
                    uint8_t *plan)
{
    if (!second)
        return kippertarn_plan(message, length, table, entries, plan, KIPPERTARN_PLAN_BYTES);
    unsigned long long start = strtoull(second, NULL, 10);
    return kippertarn_split(message, length, start < UINT32_MAX ? (uint32_t)start : UINT32_MAX, table, entries, plan,
                            KIPPERTARN_PLAN_BYTES);
}

int main(int count, char **words)
{
    uint8_t message[KIPPERTARN_QUEUE_DECIDING_BYTES], plan[KIPPERTARN_PLAN_BYTES];
    size_t length = fread(message, 1, sizeof message, stdin);
    const char *second = count > 2 ? words[2] : NULL;
    uint64_t answer = kippertarn_table_entries(message, length);
    if (count > 1 && strcmp(words[1], "size") == 0) {
        printf("%u %llu %llu\n", KIPPERTARN_R(answer), (unsigned long long)KIPPERTARN_V(answer),
               (unsigned long long)KIPPERTARN_V(kippertarn_most_kept(message, length)));
        return 0;
    }
    if (KIPPERTARN_R(answer) == KIPPERTARN_DONE) {
        size_t entries = (size_t)KIPPERTARN_V(answer);
        if (count > 1 && strtoull(words[1], NULL, 10) < entries)
            entries = (size_t)strtoull(words[1], NULL, 10);
        uint64_t *table = malloc(entries * sizeof *table);
        answer = ask(message, length, second, table, table ? entries : 0, plan);
        free(table);
    }
    printf("%u %llu\n", KIPPERTARN_R(answer), (unsigned long long)KIPPERTARN_V(answer));
    if (KIPPERTARN_R(answer) == KIPPERTARN_DONE)
        fwrite(plan, 1, (size_t)KIPPERTARN_V(answer), stdout);
    return 0;
}
