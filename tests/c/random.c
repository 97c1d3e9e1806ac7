/* Random queues through the planning entry: answer, plan bytes, every table entry and everything around them as the
 * reference has them; and through those that say how much table to lend, before there is one. */
#include "queues.h"

/* Most tables small, some large. */
static size_t table_limit(unsigned long round)
{
    return round % 20000 == 0 ? 300000 : round % 500 == 0 ? 40000 : round % 20 == 0 ? 6000 : 600;
}

/* What the unproved helper takes out of the plan is what was planned. */
static void compare_record(const struct ref_answer *a, const struct kippertarn_queue_record *q)
{
    struct kippertarn_plan_record plan = { 0 };
    int read = kippertarn_read_plan_record(&plan, a->plan, a->plan_bytes);
    int same = plan.goal == q->goal && plan.cost == a->cost && plan.kept == a->kept && plan.jobs == q->jobs;
    expect("the helper's plan record", (uint64_t)(read && same), 1);
}

/* Every job may stand at every place from 1 to T, and no gap is never. */
static int all_permitted(const struct kippertarn_queue_record *q)
{
    for (unsigned i = 0; i <= q->kinds; i++)
        for (unsigned j = 0; j < q->kinds; j++)
            if (q->gap[i][j] == KIPPERTARN_NEVER)
                return 0;
    for (unsigned i = 1; i <= q->jobs; i++)
        for (unsigned p = 1; p <= q->jobs; p++)
            if (!ref_permitted(q, i, p))
                return 0;
    return 1;
}

/* What the part says beforehand: as many entries as 16 carries; and never fewer states than are kept, also where 17 has
 * no plan to report them, but just as many where all is permitted. Answers whether it is. */
static int compare_beforehand(const struct ref_answer *a, const struct kippertarn_queue_record *q,
                              const uint8_t *message, size_t length)
{
    uint8_t plan[KIPPERTARN_PLAN_BYTES];
    uint64_t most = KIPPERTARN_V(kippertarn_most_kept(message, length)), kept = held(wanted_table, a->filled);
    compare_sizes("a random queue", message, length, 0, q);
    expect("what 16 carries", kippertarn_plan(message, length, NULL, 0, plan, sizeof plan),
           KIPPERTARN_TABLE + kippertarn_table_entries(message, length));
    expect("the entries filled", a->filled, KIPPERTARN_V(kippertarn_table_entries(message, length)));
    expect("the kept count", a->kept, kept);
    expect("no more kept than the counts allow", (uint64_t)(kept <= most), 1);
    if (!all_permitted(q))
        return 0;
    expect("as many kept as the counts allow", kept, most);
    return 1;
}

/* Whether a queue has an order with nothing forbidden. */
static int free_has_order(struct kippertarn_queue_record q)
{
    memset(q.gap, 0, sizeof q.gap);
    return ref_plan_record(&q, wanted_table, REF_MOST, 77).answer % 256 == 0;
}

/* The largest table there is, for each goal, without a never and with some. */
static void largest(unsigned goal, int nevers)
{
    struct kippertarn_queue_record q = {
        .kinds = 5, .goal = goal, .shift = goal == 1 ? 60 : 25, .start = 3, .jobs = 60
    };
    struct ref_answer a;
    uint8_t message[KIPPERTARN_QUEUE_BYTES];
    size_t length;
    for (unsigned i = 0; i < 60; i++)
        q.kind[i] = 1 + (i * 7 + i / 5) % 5;
    for (unsigned j = 0; j < 5; j++) {
        q.first[j] = 1;
        q.last[j] = 60;
        q.pupils[j] = between(990, 1000);
        for (unsigned i = 0; i <= 5; i++)
            q.gap[i][j] = nevers && (i * 2 + j) % 5 == 0 ? KIPPERTARN_NEVER : between(65000, 65535);
    }
    expect("the largest table", entries_of(&q), KIPPERTARN_ENTRIES_MOST);
    length = kippertarn_write_queue_record(&q, message, sizeof message);
    a = compare_plan("the largest table", message, length, KIPPERTARN_ENTRIES_MOST, 77);
    expect("the largest table", a.answer % 256, KIPPERTARN_DONE);
    compare_beforehand(&a, &q, message, length);
}

int main(int count, char **words)
{
    struct rounds rounds = rounds_from(count, words, 300000);
    char cases[240];
    unsigned long queues = 0, entries = 0, forbidden = 0, permitted = 0;
    open_rooms();
    if (count < 2 || count > 3) {
        largest(1, 0);
        largest(2, 0);
        largest(1, 1);
        largest(2, 1);
    }
    while (another_round(&rounds)) {
        struct kippertarn_queue_record q;
        uint8_t message[KIPPERTARN_QUEUE_BYTES];
        size_t length, needed;
        random_queue(&q, 60, table_limit(rounds.done));
        length = kippertarn_write_queue_record(&q, message, sizeof message);
        needed = entries_of(&q);
        struct ref_answer a = compare_plan("a random queue", message, length, needed + (below(4) ? 0 : below(9)),
                                           77 + (below(4) ? 0 : below(99)));
        if (a.answer % 256 == 0)
            compare_record(&a, &q);
        else
            expect("an accepted queue is planned or has no order", a.answer, 17);
        permitted += compare_beforehand(&a, &q, message, length) && q.jobs > 1; /* with one job it is soon so */
        forbidden += a.answer == 17 && free_has_order(q);
        queues++;
        entries += needed;
    }
    expect_nevers(queues);
    if (met[17] < queues / 20 || met[0] < queues / 2 || forbidden < queues / 50 || permitted < queues / 20) {
        printf("FAILED: %lu plans and %lu queues without an order only, %lu by nevers alone, %lu with all permitted\n",
               met[0], met[17], forbidden, permitted);
        failures++;
    }
    snprintf(cases, sizeof cases,
             "%lu queues, %lu with a never, %lu without an order, %lu of them by nevers alone, %lu with all permitted, "
             "%lu table entries",
             queues, queues - met_nevers[NO_NEVER], met[17], forbidden, permitted, entries);
    return summary("random", cases);
}
