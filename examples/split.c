/* Splits a queue message from a file or standard input over two cutters, of which the first word is the second's start:
 * prints the cost and each cutter's jobs in order, or the refusal. */
#include "kippertarn.h"
#include "messages.h"

#include <stdio.h>
#include <stdlib.h>

static int refused(uint64_t answer)
{
    printf("refused %u: %s\n", KIPPERTARN_R(answer), kippertarn_sentence(KIPPERTARN_R(answer)));
    return 1;
}

static void print_jobs(const char *name, const struct kippertarn_cutter_record *cutter)
{
    printf("%s", name);
    for (unsigned place = 0; place < cutter->jobs; place++)
        printf(" %u", cutter->job[place]);
    printf("\n");
}

int main(int count, char **words)
{
    uint8_t message[KIPPERTARN_QUEUE_DECIDING_BYTES], plan[KIPPERTARN_PLAN_BYTES];
    struct kippertarn_split_record split;
    char *end = NULL;
    unsigned long second_start = count > 1 ? strtoul(words[1], &end, 10) : 0;
    if (!end || end == words[1] || *end || second_start > UINT32_MAX) {
        fprintf(stderr, "usage: split SECOND_START [MESSAGE]\n");
        return 2;
    }
    FILE *file = count > 2 ? fopen(words[2], "rb") : stdin;
    if (!file) {
        perror(words[2]);
        return 2;
    }
    size_t length = fread(message, 1, sizeof message, file);

    /* The part says how many entries the table needs, or refuses the message. */
    uint64_t answer = kippertarn_table_entries(message, length);
    if (KIPPERTARN_R(answer) != KIPPERTARN_DONE)
        return refused(answer);
    size_t entries = (size_t)KIPPERTARN_V(answer);
    uint64_t *table = malloc(entries * sizeof *table);
    if (!table)
        return 2;

    answer = kippertarn_split(message, length, (uint32_t)second_start, table, entries, plan, sizeof plan);
    free(table);
    if (KIPPERTARN_R(answer) != KIPPERTARN_DONE || !kippertarn_read_split_record(&split, plan, KIPPERTARN_V(answer)))
        return refused(answer);
    printf("cost %llu\n", (unsigned long long)split.cost);
    print_jobs("first", &split.first);
    print_jobs("second", &split.second);
    return 0;
}
