/* A splitter over two cutters, written from document 02 alone, to compare with: each share of the jobs is a queue of
 * its own, which the reference plans for one cutter. For long queues there is a faster one. */
#ifndef REFERENCE_SPLIT_H
#define REFERENCE_SPLIT_H

#include "reference.h"

/* A split: its cost, and the jobs of either cutter in their order, by the message's numbers. */
struct ref_orders {
    uint64_t cost;
    unsigned jobs[2], job[2][60];
};

/* 02's 19: the shift plus 1 is under T, or a kind's allowed places don't cover 1 to T. */
static inline int ref_uncovered(const struct kippertarn_queue_record *q)
{
    if (q->shift + 1 < q->jobs)
        return 1;
    for (unsigned j = 0; j < q->kinds; j++)
        for (unsigned place = 1; place <= q->jobs; place++)
            if (place < q->first[j] || place > q->last[j])
                return 1;
    return 0;
}

/* The later of the two last finishes, or the sum of both costs. */
static inline uint64_t ref_both(unsigned goal, uint64_t first, uint64_t second)
{
    if (goal == 2)
        return first + second;
    return first > second ? first : second;
}

/* What one cutter takes, as a queue in which every job may stand at every place. */
struct ref_share {
    struct kippertarn_queue_record q;
    unsigned number[60]; /* its jobs in the message */
};

static inline struct ref_share ref_empty_share(const struct kippertarn_queue_record *q, unsigned start)
{
    struct ref_share s = { .q = *q };
    s.q.start = start;
    s.q.shift = 60;
    for (unsigned j = 0; j < q->kinds; j++) {
        s.q.first[j] = 1;
        s.q.last[j] = 60;
    }
    s.q.jobs = 0;
    return s;
}

/* The earliest n_j of each kind go to the first cutter, the others to the second, all by hand-in. */
static inline void ref_share_out(const struct kippertarn_queue_record *q, const unsigned *n, struct ref_share *share)
{
    unsigned met_of_kind[5] = { 0 };
    share[0].q.jobs = share[1].q.jobs = 0;
    for (unsigned i = 1; i <= q->jobs; i++) {
        unsigned j = q->kind[i - 1];
        struct ref_share *to = met_of_kind[j - 1]++ < n[j - 1] ? &share[0] : &share[1];
        to->number[to->q.jobs] = i;
        to->q.kind[to->q.jobs++] = j;
    }
}

/* The first split of least cost, with the first cutter's counts of the kinds before `kinds` chosen. Kind 1's run
 * slowest, so that of equal splits the one with the fewest of kind 1 comes first, then of kind 2 and on. Where either
 * cutter has no order it is no split. */
static inline void ref_try_shares(const struct kippertarn_queue_record *q, unsigned kinds, unsigned *n,
                                  struct ref_share *share, struct ref_orders *best)
{
    static uint64_t table[REF_MOST];
    unsigned all = 0;
    if (kinds < q->kinds) {
        for (unsigned i = 0; i < q->jobs; i++)
            all += q->kind[i] == kinds + 1;
        for (n[kinds] = 0; n[kinds] <= all; n[kinds]++)
            ref_try_shares(q, kinds + 1, n, share, best);
        return;
    }
    ref_share_out(q, n, share);
    struct ref_answer a[2] = { ref_plan_record(&share[0].q, table, REF_MOST, 77),
                               ref_plan_record(&share[1].q, table, REF_MOST, 77) };
    if (a[0].answer == 17 || a[1].answer == 17)
        return;
    uint64_t cost = ref_both(q->goal, a[0].cost, a[1].cost);
    if (cost >= best->cost)
        return;
    best->cost = cost;
    for (unsigned c = 0; c < 2; c++) {
        struct kippertarn_plan_record plan = { 0 };
        kippertarn_read_plan_record(&plan, a[c].plan, a[c].plan_bytes);
        best->jobs[c] = plan.jobs;
        for (unsigned i = 0; i < plan.jobs; i++)
            best->job[c][i] = share[c].number[plan.job[i] - 1];
    }
}

/* 02's split; where there is none its cost is UINT64_MAX. */
static inline struct ref_orders ref_by_shares(const struct kippertarn_queue_record *q, unsigned second_start)
{
    struct ref_share share[2] = { ref_empty_share(q, q->start), ref_empty_share(q, second_start) };
    struct ref_orders best = { .cost = UINT64_MAX };
    unsigned n[5];
    ref_try_shares(q, 0, n, share, &best);
    return best;
}

#define REF_COUNTS_MOST 371293 /* P of 60 jobs of 5 kinds, 12 of each */

/* Counts as one number, kind 1 most significant: numbers run as 02 prefers the counts of equal splits, and what is left
 * of all jobs has the number P - 1 less it. For every L from 0 to N and every number, the least cost of cutting so many
 * after L, in any order without a forbidden succession; UINT64_MAX where there is none. */
struct ref_costs {
    unsigned all[5], job[5][60]; /* K_j, and the jobs of each kind */
    size_t p, unit[5];           /* P, and what one job of each kind adds to a number */
    uint64_t (*least)[REF_COUNTS_MOST];
};

static inline unsigned ref_digit(const struct ref_costs *c, unsigned j, size_t number)
{
    return (unsigned)(number / c->unit[j]) % (c->all[j] + 1);
}

/* The least, over kinds x that may follow, of cutting x first, and the smallest x that reaches it. */
static inline uint64_t ref_cut_first(const struct kippertarn_queue_record *q, const struct ref_costs *c, unsigned last,
                                     size_t number, unsigned *first)
{
    uint64_t best = UINT64_MAX, waiting = 0, seconds;
    unsigned left[5];
    for (unsigned j = 0; j < q->kinds; j++) {
        left[j] = ref_digit(c, j, number);
        waiting += (uint64_t)left[j] * q->pupils[j];
    }
    for (unsigned x = 1; x <= q->kinds; x++)
        if (left[x - 1] > 0 && ref_gap(q, last, x, &seconds)) {
            uint64_t rest = c->least[x][number - c->unit[x - 1]];
            if (rest != UINT64_MAX && seconds * (q->goal == 1 ? 1 : waiting) + rest < best) {
                best = seconds * (q->goal == 1 ? 1 : waiting) + rest;
                *first = x;
            }
        }
    return best;
}

/* One cutter's order of so many jobs, those of kind j from the taken[j]th on. */
static inline unsigned ref_follow(const struct kippertarn_queue_record *q, const struct ref_costs *c, unsigned start,
                                  size_t number, unsigned *taken, unsigned *job)
{
    unsigned jobs = 0, last = start;
    while (number > 0) {
        ref_cut_first(q, c, last, number, &last);
        number -= c->unit[last - 1];
        job[jobs++] = c->job[last - 1][taken[last - 1]++];
    }
    return jobs;
}

static inline struct ref_orders ref_by_costs(const struct kippertarn_queue_record *q, unsigned second_start)
{
    static uint64_t least[6][REF_COUNTS_MOST];
    struct ref_costs c = { .p = 1, .least = least };
    struct ref_orders best = { .cost = UINT64_MAX };
    unsigned taken[5] = { 0 }, first;
    size_t chosen = 0;
    for (unsigned i = 1; i <= q->jobs; i++) {
        unsigned j = q->kind[i - 1];
        c.job[j - 1][c.all[j - 1]++] = i;
    }
    for (unsigned j = q->kinds; j-- > 0;) {
        c.unit[j] = c.p;
        c.p *= c.all[j] + 1;
    }
    for (size_t number = 0; number < c.p; number++)
        for (unsigned l = 0; l <= q->kinds; l++)
            least[l][number] = number == 0 ? 0 : ref_cut_first(q, &c, l, number, &first);
    for (size_t number = 0; number < c.p; number++) {
        uint64_t one = least[q->start][number], two = least[second_start][c.p - 1 - number];
        if (one != UINT64_MAX && two != UINT64_MAX && ref_both(q->goal, one, two) < best.cost) {
            best.cost = ref_both(q->goal, one, two);
            chosen = number;
        }
    }
    if (best.cost == UINT64_MAX)
        return best;
    best.jobs[0] = ref_follow(q, &c, q->start, chosen, taken, best.job[0]);
    best.jobs[1] = ref_follow(q, &c, second_start, c.p - 1 - chosen, taken, best.job[1]);
    return best;
}

static inline size_t ref_write_split(unsigned goal, const struct ref_orders *split, uint8_t *bytes, size_t room)
{
    struct kippertarn_message_place to = { bytes, room, 0 };
    kippertarn_put_number(&to, 0x51);
    kippertarn_put_number(&to, 0x32);
    kippertarn_put_number(&to, 1);
    kippertarn_put_number(&to, goal);
    kippertarn_put_number(&to, split->cost);
    for (unsigned c = 0; c < 2; c++) {
        kippertarn_put_number(&to, split->jobs[c]);
        for (unsigned i = 0; i < split->jobs[c]; i++)
            kippertarn_put_number(&to, split->job[c][i]);
    }
    return to.at;
}

#define REF_SHARES_MOST 700 /* entries of a table up to which each share is planned as a queue of its own */

/* Splits a message as 02 says; `table` as for ref_plan. A message may have a split where one cutter has no order. */
static inline struct ref_answer ref_split(const uint8_t *message, size_t length, uint32_t second_start, uint64_t *table,
                                          size_t entries, size_t plan_length)
{
    struct kippertarn_queue_record q = { 0 };
    struct ref_answer a = { .answer = (uint64_t)ref_read_queue(message, length, &q) };
    if (a.answer == 0 && ref_uncovered(&q))
        a.answer = 19;
    if (a.answer == 0 && second_start > q.kinds)
        a.answer = 20;
    if (a.answer)
        return a;
    a = ref_plan_record(&q, table, entries, plan_length);
    if (a.answer % 256 != 0 && a.answer != 17)
        return a;
    struct ref_orders best = a.filled <= REF_SHARES_MOST ? ref_by_shares(&q, second_start)
                                                         : ref_by_costs(&q, second_start);
    a.cost = best.cost;
    if (best.cost == UINT64_MAX) {
        a.answer = 17;
        a.plan_bytes = 0;
        return a;
    }
    a.plan_bytes = ref_write_split(q.goal, &best, a.plan, sizeof a.plan);
    a.answer = 256 * (uint64_t)a.plan_bytes;
    return a;
}

#endif
