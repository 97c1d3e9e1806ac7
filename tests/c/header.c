/* Both headers as they are installed, in use; compiled only, by header.sh. */
#include "kippertarn.h"
#include "kippertarn_messages.h"

static uint64_t table[KIPPERTARN_ENTRIES(2, 2, 1, 0, 0, 0)];

const char *plan_in_static_table(const struct kippertarn_queue_record *queue, uint8_t *plan, uint64_t *cost);
const char *split_in_static_table(const struct kippertarn_queue_record *queue, uint32_t second_start, uint64_t *cost);
int fits_static_table(const struct kippertarn_queue_record *queue, uint64_t *most_kept);

const char *plan_in_static_table(const struct kippertarn_queue_record *queue, uint8_t *plan, uint64_t *cost)
{
    uint8_t message[KIPPERTARN_QUEUE_BYTES];
    struct kippertarn_plan_record planned;
    uint64_t length = kippertarn_write_queue_record(queue, message, sizeof message),
             answer = kippertarn_check_queue(message, length);
    if (kippertarn_version() != KIPPERTARN_VERSION_NUMBER)
        return KIPPERTARN_VERSION;
    if (KIPPERTARN_R(answer) == KIPPERTARN_DONE)
        answer = kippertarn_plan(message, length, table, sizeof table / sizeof *table, plan, KIPPERTARN_PLAN_BYTES);
    *cost = KIPPERTARN_ENTRIES_MOST;
    if (KIPPERTARN_R(answer) == KIPPERTARN_TABLE)
        *cost = KIPPERTARN_V(answer);
    else if (KIPPERTARN_R(answer) == KIPPERTARN_DONE && table[0] != KIPPERTARN_NOT_KEPT
             && kippertarn_read_plan_record(&planned, plan, KIPPERTARN_V(answer)))
        *cost = planned.cost;
    else
        answer = kippertarn_check_plan(plan, KIPPERTARN_PLAN_BYTES);
    return kippertarn_sentence(KIPPERTARN_R(answer));
}

const char *split_in_static_table(const struct kippertarn_queue_record *queue, uint32_t second_start, uint64_t *cost)
{
    uint8_t message[KIPPERTARN_QUEUE_BYTES], plan[KIPPERTARN_PLAN_BYTES];
    struct kippertarn_split_record split;
    uint64_t length = kippertarn_write_queue_record(queue, message, sizeof message),
             answer = kippertarn_split(message, length, second_start, table, sizeof table / sizeof *table, plan,
                                       sizeof plan);
    *cost = 0;
    switch (KIPPERTARN_R(answer)) {
    case KIPPERTARN_DONE:
        if (KIPPERTARN_V(answer) <= KIPPERTARN_SPLIT_BYTES
            && kippertarn_read_split_record(&split, plan, KIPPERTARN_V(answer)) && split.goal == queue->goal
            && split.first.jobs + split.second.jobs == queue->jobs)
            *cost = split.cost;
        break;
    case KIPPERTARN_NO_ORDER: return queue->gap[queue->start][0] == KIPPERTARN_NEVER ? "1 is never first" : "no split";
    case KIPPERTARN_UNCOVERED: return "every place is needed";
    case KIPPERTARN_SECOND_START: return "no such kind";
    default: break;
    }
    return kippertarn_sentence(KIPPERTARN_R(answer));
}

int fits_static_table(const struct kippertarn_queue_record *queue, uint64_t *most_kept)
{
    uint8_t message[KIPPERTARN_QUEUE_BYTES];
    uint64_t length = kippertarn_write_queue_record(queue, message, sizeof message),
             answer = kippertarn_table_entries(message, length);
    *most_kept = KIPPERTARN_V(kippertarn_most_kept(message, length));
    return KIPPERTARN_R(answer) == KIPPERTARN_DONE && KIPPERTARN_V(answer) <= sizeof table / sizeof *table;
}
