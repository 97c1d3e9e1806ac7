/* Plans a queue message from a file or standard input: prints the plan's cost and the jobs in order, or the refusal. */
#include "kippertarn.h"
#include "messages.h"

#include <stdio.h>
#include <stdlib.h>

static int refused(uint64_t answer)
{
    printf("refused %u: %s\n", KIPPERTARN_R(answer), kippertarn_sentence(KIPPERTARN_R(answer)));
    return 1;
}

int main(int count, char **words)
{
    uint8_t message[KIPPERTARN_QUEUE_DECIDING_BYTES], plan[KIPPERTARN_PLAN_BYTES];
    struct kippertarn_plan_record planned;
    FILE *file = count > 1 ? fopen(words[1], "rb") : stdin;
    if (!file) {
        perror(words[1]);
        return 2;
    }
    size_t length = fread(message, 1, sizeof message, file);

    /* The part says how many entries the table needs, or refuses the message. */
    uint64_t answer = kippertarn_table_entries(message, length);
    if (KIPPERTARN_R(answer) != KIPPERTARN_DONE)
        return refused(answer);
    size_t entries = (size_t)KIPPERTARN_V(answer);
    uint64_t *table = malloc(entries * sizeof *table);
    if (!table)
        return 2;

    answer = kippertarn_plan(message, length, table, entries, plan, sizeof plan);
    free(table);
    if (KIPPERTARN_R(answer) != KIPPERTARN_DONE || !kippertarn_read_plan_record(&planned, plan, KIPPERTARN_V(answer)))
        return refused(answer);
    printf("cost %llu\norder", (unsigned long long)planned.cost);
    for (unsigned place = 0; place < planned.jobs; place++)
        printf(" %u", planned.job[place]);
    printf("\n");
    return 0;
}
