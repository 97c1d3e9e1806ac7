/* Small queues against all their orders, those that exchange jobs of one kind included: 17 exactly when none is
 * permitted, none permitted costs less than the plan, the plan's order is permitted and costs what it states, the kept
 * count is 01's sentence, with 02's way on, counted out, and the most that can be kept is the number of all states, to
 * which the same jobs come with nothing in their way. Nothing here uses the recursion. */
#include "queues.h"

static unsigned long orders_tried, sets_tried;

/* 01's "permitted" once more, apart from reference.h, so that a slip in one shows: |p - i| <= m and a_j <= p <= b_j. */
static int may_stand(const struct kippertarn_queue_record *q, unsigned job, unsigned place)
{
    unsigned j = q->kind[job - 1] - 1;
    int off = (int)place - (int)job, m = (int)q->shift;
    if (off < -m || off > m)
        return 0;
    return place >= q->first[j] && place <= q->last[j];
}

/* 02's forbidden successions, apart from reference.h too: whether a job may be cut right after one of kind `before`, or
 * on a cold cutter where that is 0. */
static int may_follow(const struct kippertarn_queue_record *q, unsigned before, unsigned job)
{
    return q->gap[before][q->kind[job - 1] - 1] <= 65535;
}

/* 01's cost of a permitted order, given as the job at each place. */
static uint64_t order_cost(const struct kippertarn_queue_record *q, const unsigned *job)
{
    uint64_t finish = 0, waiting = 0;
    unsigned before = q->start;
    for (unsigned place = 1; place <= q->jobs; place++) {
        unsigned j = q->kind[job[place - 1] - 1];
        finish += q->gap[before][j - 1];
        waiting += q->pupils[j - 1] * finish;
        before = j;
    }
    return q->goal == 1 ? finish : waiting;
}

static int order_permitted(const struct kippertarn_queue_record *q, const unsigned *job)
{
    for (unsigned place = 1; place <= q->jobs; place++) {
        unsigned before = place == 1 ? q->start : q->kind[job[place - 2] - 1];
        if (!may_stand(q, job[place - 1], place) || !may_follow(q, before, job[place - 1]))
            return 0;
    }
    return 1;
}

/* Among all permitted orders that go on from `job`: the least cost, and the kinds of the first by kinds that reaches
 * it. */
struct best {
    uint64_t cost;
    unsigned kinds[8];
};

static void try_orders(const struct kippertarn_queue_record *q, unsigned *job, unsigned placed, struct best *best)
{
    if (placed == q->jobs) {
        unsigned kinds[8] = { 0 };
        uint64_t cost = order_cost(q, job);
        int first = 0;
        orders_tried++;
        for (unsigned i = 0; i < placed; i++)
            kinds[i] = q->kind[job[i] - 1];
        for (unsigned i = 0; i < placed && !first; i++)
            first = (int)best->kinds[i] - (int)kinds[i];
        if (cost < best->cost || (cost == best->cost && first > 0)) {
            best->cost = cost;
            memcpy(best->kinds, kinds, sizeof kinds);
        }
        return;
    }
    unsigned before = placed == 0 ? q->start : q->kind[job[placed - 1] - 1];
    for (unsigned i = 1; i <= q->jobs; i++) {
        int free = may_stand(q, i, placed + 1) && may_follow(q, before, i);
        for (unsigned p = 0; p < placed; p++)
            free = free && job[p] != i;
        if (free) {
            job[placed] = i;
            try_orders(q, job, placed + 1, best);
        }
    }
}

/* Whether the jobs not yet used can fill the places from `place` on, all permitted, each kind by hand-in, the first of
 * them after kind `before`. */
static int can_fill(const struct kippertarn_queue_record *q, const int *used, unsigned place, unsigned before)
{
    int now[60] = { 0 };
    if (place > q->jobs)
        return 1;
    for (unsigned i = 1; i <= q->jobs; i++) {
        int next = !used[i - 1] && may_stand(q, i, place) && may_follow(q, before, i);
        for (unsigned earlier = 1; earlier < i; earlier++)
            if (q->kind[earlier - 1] == q->kind[i - 1] && !used[earlier - 1])
                next = 0;
        if (next) {
            memcpy(now, used, q->jobs * sizeof *used);
            now[i - 1] = 1;
            if (can_fill(q, now, place + 1, q->kind[i - 1]))
                return 1;
        }
    }
    return 0;
}

/* Counted over every kind L and all counts of jobs cut: the pairs of them, the states among these, in which a job of L
 * is cut, and of the states the kept ones. */
struct counted {
    unsigned long pairs, states, kept;
};

/* The jobs cut of a kind are its earliest. */
static struct counted count_out(const struct kippertarn_queue_record *q)
{
    struct counted c = { 0, 0, 0 };
    unsigned all[5] = { 0 };
    unsigned long sets = 1;
    for (unsigned i = 0; i < q->jobs; i++)
        all[q->kind[i] - 1]++;
    for (unsigned j = 0; j < q->kinds; j++)
        sets *= all[j] + 1;
    for (unsigned long set = 0; set < sets; set++) {
        unsigned cut[5], place = 0, met_of_kind[5] = { 0 }, latest[5] = { 0 };
        unsigned long rest = set;
        int used[60] = { 0 };
        for (unsigned j = 0; j < q->kinds; j++) {
            cut[j] = (unsigned)(rest % (all[j] + 1));
            rest /= all[j] + 1;
            place += cut[j];
        }
        for (unsigned i = 1; i <= q->jobs; i++) {
            unsigned j = q->kind[i - 1] - 1;
            if (met_of_kind[j]++ < cut[j]) {
                used[i - 1] = 1;
                latest[j] = i;
            }
        }
        for (unsigned j = 0; j < q->kinds; j++) {
            c.pairs++;
            c.states += cut[j] > 0;
            c.kept += cut[j] > 0 && may_stand(q, latest[j], place) && can_fill(q, used, place + 1, j + 1);
        }
        sets_tried++;
    }
    return c;
}

/* Whether a queue would have an order with nothing forbidden. */
static int free_has_order(struct kippertarn_queue_record q)
{
    static const int none_used[60] = { 0 };
    memset(q.gap, 0, sizeof q.gap);
    return can_fill(&q, none_used, 1, q.start);
}

/* What the part answers, held to all orders; the kept states are in the table also where there is none. */
static int plan_is_best(const struct kippertarn_queue_record *q, unsigned long kept, uint64_t answer,
                        const uint8_t *bytes, const uint64_t *table)
{
    unsigned job[8];
    struct best best = { UINT64_MAX, { 9, 9, 9, 9, 9, 9, 9, 9 } };
    struct kippertarn_plan_record plan;
    try_orders(q, job, 0, &best);
    if (held(table, entries_of(q)) != kept)
        return 0;
    if (best.cost == UINT64_MAX)
        return answer == 17;
    if (answer % 256 != 0 || answer / 256 > KIPPERTARN_PLAN_BYTES || ref_check_plan(bytes, (size_t)(answer / 256))
        || !kippertarn_read_plan_record(&plan, bytes, answer / 256))
        return 0;
    if (plan.goal != q->goal || plan.jobs != q->jobs || !order_permitted(q, plan.job)
        || plan.cost != order_cost(q, plan.job))
        return 0;
    for (unsigned place = 0; place < q->jobs; place++)
        if (q->kind[plan.job[place] - 1] != best.kinds[place])
            return 0;
    return plan.cost == best.cost && plan.kept == kept;
}

/* The kept count that the part reports for the same jobs with nothing in their way; UINT64_MAX without a plan. */
static uint64_t kept_when_free(struct kippertarn_queue_record q, uint64_t *table)
{
    struct kippertarn_plan_record plan;
    uint8_t message[KIPPERTARN_QUEUE_BYTES], bytes[KIPPERTARN_PLAN_BYTES];
    q.shift = 60;
    for (unsigned j = 0; j < q.kinds; j++) {
        q.first[j] = 1;
        q.last[j] = 60;
        for (unsigned i = 0; i <= q.kinds; i++)
            q.gap[i][j] = q.gap[i][j] > 65535 ? 0 : q.gap[i][j];
    }
    size_t length = kippertarn_write_queue_record(&q, message, sizeof message);
    uint64_t answer = kippertarn_plan(message, length, table, entries_of(&q), bytes, sizeof bytes);
    return answer % 256 == 0 && kippertarn_read_plan_record(&plan, bytes, answer / 256) ? plan.kept : UINT64_MAX;
}

int main(int count, char **words)
{
    struct rounds rounds = rounds_from(count, words, 60000);
    static uint64_t table[KIPPERTARN_ENTRIES(5, 7, 7, 7, 7, 7)];
    unsigned long queues = 0, without = 0, forbidden = 0;
    char cases[240];
    tell_of_touches();
    while (another_round(&rounds)) {
        struct kippertarn_queue_record q;
        uint8_t message[KIPPERTARN_QUEUE_BYTES], plan[KIPPERTARN_PLAN_BYTES];
        uint64_t answer;
        size_t length;
        random_queue(&q, 7, sizeof table / sizeof *table);
        length = kippertarn_write_queue_record(&q, message, sizeof message);
        watch(message, length);
        struct counted counted = count_out(&q);
        answer = kippertarn_plan(message, length, table, entries_of(&q), plan, sizeof plan);
        without += answer == 17;
        forbidden += answer == 17 && free_has_order(q);
        queues++;
        compared++;
        if (!plan_is_best(&q, counted.kept, answer, plan, table)) {
            printf("FAILED: answer %llu is not the best of all orders\n", (unsigned long long)answer);
            print_bytes("queue", message, length);
            print_bytes("plan buffer", plan, sizeof plan);
            failures++;
        }
        expect("table entries counted out", kippertarn_table_entries(message, length), 256 * (uint64_t)counted.pairs);
        expect("states counted out", kippertarn_most_kept(message, length), 256 * (uint64_t)counted.states);
        expect("states kept with nothing in the way", kept_when_free(q, table), counted.states);
    }
    expect_nevers(queues);
    if (forbidden < queues / 50) {
        printf("FAILED: %lu queues only have no order by what is forbidden alone\n", forbidden);
        failures++;
    }
    snprintf(cases, sizeof cases,
             "%lu queues, %lu with a never, %lu without an order, %lu of them by nevers alone, %lu permitted orders, "
             "%lu sets of jobs left",
             queues, queues - met_nevers[NO_NEVER], without, forbidden, orders_tried, sets_tried);
    return summary("orders", cases);
}
