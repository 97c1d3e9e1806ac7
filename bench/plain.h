/* Planning and splitting as one would write them by hand in C, with the part's table and the part's answers: to compare
 * speed with. */
#ifndef PLAIN_H
#define PLAIN_H

#include "../tests/c/reference.h"

struct plain {
    struct kippertarn_queue_record q;
    unsigned all[5];      /* K_j */
    unsigned job[5][60];  /* the jobs of each kind, by hand-in */
    unsigned low[5][61];  /* by kind and jobs left of it: the first place permitted to the job just cut */
    unsigned high[5][61]; /* and the last */
    size_t p, weight[5];  /* P, and what one job of each kind left adds to an entry's number */
    uint64_t pupils;      /* who wait for all jobs */
};

static inline void plain_prepare(struct plain *w)
{
    for (unsigned i = 0; i < w->q.jobs; i++) {
        unsigned j = w->q.kind[i] - 1;
        w->job[j][w->all[j]++] = i + 1;
        w->pupils += w->q.pupils[j];
    }
    w->p = 1;
    for (unsigned j = 0; j < w->q.kinds; j++) {
        w->weight[j] = w->p;
        w->p *= w->all[j] + 1;
        for (unsigned n = 0; n < w->all[j]; n++) {
            unsigned i = w->job[j][n], left = w->all[j] - n - 1, low = i > w->q.shift ? i - w->q.shift : 1,
                     high = i + w->q.shift;
            w->low[j][left] = low > w->q.first[j] ? low : w->q.first[j];
            w->high[j][left] = high < w->q.last[j] ? high : w->q.last[j];
        }
        w->low[j][w->all[j]] = 61; /* with all left none was cut */
    }
}

/* The least from row L over the next states' values, and the smallest kind that reaches it; kinds that may not follow L
 * are passed over. */
static inline uint64_t plain_least(const struct plain *w, unsigned l, uint64_t pupils, const uint64_t *next,
                                   unsigned *best)
{
    uint64_t least = UINT64_MAX;
    for (unsigned x = 0; x < w->q.kinds; x++)
        if (next[x] != UINT64_MAX && w->q.gap[l][x] != KIPPERTARN_NEVER) {
            uint64_t value = pupils * w->q.gap[l][x] + next[x];
            if (value < least) {
                least = value;
                *best = x + 1;
            }
        }
    return least;
}

/* The values of the states that follow k, whose part of the entry number is `at`. */
static inline void plain_next(const struct plain *w, const uint64_t *table, size_t at, const unsigned *k,
                              uint64_t *next)
{
    for (unsigned x = 0; x < w->q.kinds; x++)
        next[x] = k[x] ? table[x * w->p + at - w->weight[x]] : UINT64_MAX;
}

/* The next k in the table's order, how many are left then, and the pupils who wait for these. */
static inline void plain_step(const struct plain *w, unsigned *k, unsigned *left, uint64_t *pupils)
{
    for (unsigned j = 0; j < w->q.kinds; j++) {
        if (k[j] < w->all[j]) {
            k[j]++;
            ++*left;
            *pupils += w->q.pupils[j];
            break;
        }
        *left -= k[j];
        *pupils -= (uint64_t)k[j] * w->q.pupils[j];
        k[j] = 0;
    }
}

/* Fills the table k by k, so that next states come first; answers the kept count. */
static inline uint64_t plain_fill(const struct plain *w, uint64_t *table)
{
    unsigned k[5] = { 0 }, left = 0, best;
    uint64_t kept = 0, pupils = 0, next[5];
    for (size_t at = 0; at < w->p; at++) {
        unsigned place = w->q.jobs - left;
        plain_next(w, table, at, k, next);
        for (unsigned l = 0; l < w->q.kinds; l++) {
            uint64_t value = UINT64_MAX;
            if (w->low[l][k[l]] <= place && place <= w->high[l][k[l]])
                value = left == 0 ? 0 : plain_least(w, l + 1, w->q.goal == 1 ? 1 : pupils, next, &best);
            kept += value != UINT64_MAX;
            table[l * w->p + at] = value;
        }
        plain_step(w, k, &left, &pupils);
    }
    return kept;
}

/* Opening, edition, goal and cost of a plan or a split plan. */
static inline void plain_write_head(const struct plain *w, uint8_t opening, uint64_t cost,
                                    struct kippertarn_message_place *to)
{
    kippertarn_put_number(to, 0x51);
    kippertarn_put_number(to, opening);
    kippertarn_put_number(to, 1);
    kippertarn_put_number(to, w->q.goal);
    kippertarn_put_number(to, cost);
}

/* How many jobs a cutter has and the job at each place, from a row: of each kind the last so many up to a job. */
static inline void plain_write_jobs(const struct plain *w, const uint64_t *table, const unsigned *share,
                                    const unsigned *upto, unsigned row, struct kippertarn_message_place *to)
{
    unsigned k[5] = { 0 }, left = 0;
    uint64_t pupils = 0, next[5];
    size_t at = 0;
    for (unsigned j = 0; j < w->q.kinds; j++) {
        k[j] = share[j];
        left += k[j];
        pupils += (uint64_t)k[j] * w->q.pupils[j];
        at += k[j] * w->weight[j];
    }
    kippertarn_put_number(to, left);
    for (; left > 0; left--) {
        plain_next(w, table, at, k, next);
        plain_least(w, row, w->q.goal == 1 ? 1 : pupils, next, &row);
        kippertarn_put_number(to, w->job[row - 1][upto[row - 1] - k[row - 1]]);
        k[row - 1]--;
        pupils -= w->q.pupils[row - 1];
        at -= w->weight[row - 1];
    }
}

/* 15, 16, or 0 with all prepared. */
static inline uint64_t plain_room(struct plain *w, uint64_t entries, uint64_t plan_length)
{
    if (plan_length < 77)
        return 15;
    plain_prepare(w);
    return entries < w->q.kinds * w->p ? 16 + 256 * (uint64_t)(w->q.kinds * w->p) : 0;
}

static inline uint64_t plain_plan(const uint8_t *message, uint64_t length, uint64_t *table, uint64_t entries,
                                  uint8_t *plan, uint64_t plan_length)
{
    struct plain w = { 0 };
    struct kippertarn_message_place to = { plan, plan_length, 0 };
    unsigned best;
    uint64_t kept, cost = 0, next[5], refusal = (uint64_t)ref_read_queue(message, length, &w.q);
    if (refusal || (refusal = plain_room(&w, entries, plan_length)))
        return refusal;
    kept = plain_fill(&w, table);
    if (w.q.jobs > 0) {
        plain_next(&w, table, w.p - 1, w.all, next);
        cost = plain_least(&w, w.q.start, w.q.goal == 1 ? 1 : w.pupils, next, &best);
        if (cost == UINT64_MAX)
            return 17;
    }
    plain_write_head(&w, 0x50, cost, &to);
    kippertarn_put_number(&to, kept);
    plain_write_jobs(&w, table, w.all, w.all, w.q.start, &to);
    return 256 * (uint64_t)to.at;
}

/* What two cutters ask of a queue and of the second start: 19, 20, or 0. */
static inline uint64_t plain_bench(const struct kippertarn_queue_record *q, uint32_t second_start)
{
    if (q->shift + 1 < q->jobs)
        return 19;
    for (unsigned j = 0; j < q->kinds && q->jobs > 0; j++)
        if (q->first[j] > 1 || q->last[j] < q->jobs)
            return 19;
    return second_start > q->kinds ? 20 : 0;
}

/* Whether counts come before others: fewer of the first kind where they differ. */
static inline int plain_before(const struct plain *w, const unsigned *k, const unsigned *held)
{
    unsigned j = 0;
    while (j < w->q.kinds && k[j] == held[j])
        j++;
    return j < w->q.kinds && k[j] < held[j];
}

/* The least cost of all splits, and the first cutter's counts: one pass over all counts k, with a look from either
 * cutter's row for each. UINT64_MAX where there is no split, as where a cutter has no order of its jobs. */
static inline uint64_t plain_search(const struct plain *w, const uint64_t *table, unsigned second_start,
                                    unsigned *first)
{
    const unsigned *gap = w->q.gap[w->q.start], *second_gap = w->q.gap[second_start];
    unsigned k[5] = { 0 }, left = 0;
    uint64_t pupils = 0, least = UINT64_MAX;
    for (size_t at = 0; at < w->p; at++) {
        size_t second_at = w->p - 1 - at;
        uint64_t weight = w->q.goal == 1 ? 1 : pupils, second_weight = w->q.goal == 1 ? 1 : w->pupils - pupils,
                 one = left == 0 ? 0 : UINT64_MAX, two = left == w->q.jobs ? 0 : UINT64_MAX, cost;
        for (unsigned x = 0; x < w->q.kinds; x++) {
            if (k[x] > 0 && gap[x] != KIPPERTARN_NEVER) {
                uint64_t rest = table[x * w->p + at - w->weight[x]], value = weight * gap[x] + rest;
                one = rest != UINT64_MAX && value < one ? value : one;
            }
            if (k[x] < w->all[x] && second_gap[x] != KIPPERTARN_NEVER) {
                uint64_t rest = table[x * w->p + second_at - w->weight[x]],
                         value = second_weight * second_gap[x] + rest;
                two = rest != UINT64_MAX && value < two ? value : two;
            }
        }
        if (one == UINT64_MAX || two == UINT64_MAX)
            cost = UINT64_MAX;
        else
            cost = w->q.goal == 2 ? one + two : one > two ? one : two;
        if (cost < least || (cost == least && plain_before(w, k, first))) {
            least = cost;
            memcpy(first, k, sizeof k);
        }
        plain_step(w, k, &left, &pupils);
    }
    return least;
}

static inline uint64_t plain_split(const uint8_t *message, uint64_t length, uint32_t second_start, uint64_t *table,
                                   uint64_t entries, uint8_t *plan, uint64_t plan_length)
{
    struct plain w = { 0 };
    struct kippertarn_message_place to = { plan, plan_length, 0 };
    unsigned first[5] = { 0 }, second[5];
    uint64_t cost, refusal = (uint64_t)ref_read_queue(message, length, &w.q);
    if (refusal || (refusal = plain_bench(&w.q, second_start)) || (refusal = plain_room(&w, entries, plan_length)))
        return refusal;
    plain_fill(&w, table);
    cost = plain_search(&w, table, second_start, first);
    if (cost == UINT64_MAX)
        return 17;
    plain_write_head(&w, 0x32, cost, &to);
    for (unsigned j = 0; j < 5; j++)
        second[j] = w.all[j] - first[j];
    plain_write_jobs(&w, table, first, first, w.q.start, &to);
    plain_write_jobs(&w, table, second, w.all, second_start, &to);
    return 256 * (uint64_t)to.at;
}

#endif
