/* Readers of both messages, a planner by the plain recursion and a count of the states, written from document 01 alone,
 * and for forbidden successions from 02, to compare with. */
#ifndef REFERENCE_H
#define REFERENCE_H

#include "../../examples/messages.h"

#include <stdlib.h>
#include <string.h>

struct cursor {
    const uint8_t *bytes;
    size_t length, at;
};

/* Reads a number of at most `groups` groups: 0, 2 or 3. */
static inline int ref_number(struct cursor *c, int groups, uint64_t *value)
{
    uint64_t v = 0;
    for (int g = 0; g < groups; g++) {
        if (c->at == c->length)
            return 2;
        uint8_t b = c->bytes[c->at++];
        v |= (uint64_t)(b % 128) << (7 * g);
        if (b < 128) {
            if (b == 0 && g > 0)
                return 3;
            *value = v;
            return 0;
        }
    }
    return 3;
}

/* Reads a number of at most three groups and judges it. */
static inline int ref_field(struct cursor *c, uint64_t low, uint64_t high, int refusal, unsigned *value)
{
    uint64_t v;
    int r = ref_number(c, 3, &v);
    if (r)
        return r;
    *value = (unsigned)v;
    return v < low || v > high ? refusal : 0;
}

static inline int ref_open(struct cursor *c, uint8_t second)
{
    if (c->length < 2 || c->bytes[0] != 0x51 || c->bytes[1] != second)
        return 1;
    c->at = 2;
    return 0;
}

static inline int ref_read_queue(const uint8_t *bytes, size_t length, struct kippertarn_queue_record *q)
{
    struct cursor c = { bytes, length, 0 };
    unsigned edition;
    int r;
    if ((r = ref_open(&c, 0x53)) || (r = ref_field(&c, 1, 1, 4, &edition)) || (r = ref_field(&c, 1, 5, 5, &q->kinds))
        || (r = ref_field(&c, 1, 2, 6, &q->goal)) || (r = ref_field(&c, 0, 60, 7, &q->shift))
        || (r = ref_field(&c, 0, q->kinds, 8, &q->start)))
        return r;
    for (unsigned i = 0; i <= q->kinds; i++)
        for (unsigned j = 0; j < q->kinds; j++)
            if ((r = ref_field(&c, 0, 65536, 9, &q->gap[i][j])))
                return r;
    for (unsigned j = 0; j < q->kinds; j++)
        if ((r = ref_field(&c, 0, 1000, 10, &q->pupils[j])))
            return r;
    for (unsigned j = 0; j < q->kinds; j++) {
        uint64_t a, b;
        if ((r = ref_number(&c, 3, &a)) || (r = ref_number(&c, 3, &b)))
            return r;
        if (a == 0 || b < a || b > 60)
            return 11;
        q->first[j] = (unsigned)a;
        q->last[j] = (unsigned)b;
    }
    if ((r = ref_field(&c, 0, 60, 12, &q->jobs)))
        return r;
    for (unsigned i = 0; i < q->jobs; i++)
        if ((r = ref_field(&c, 1, q->kinds, 13, &q->kind[i])))
            return r;
    return c.at < length ? 14 : 0;
}

static inline int ref_check_plan(const uint8_t *bytes, size_t length)
{
    struct cursor c = { bytes, length, 0 };
    uint64_t number;
    unsigned v, t;
    int r, seen[61] = { 0 };
    if ((r = ref_open(&c, 0x50)) || (r = ref_field(&c, 1, 1, 4, &v)) || (r = ref_field(&c, 1, 2, 6, &v))
        || (r = ref_number(&c, 6, &number)) || (r = ref_number(&c, 6, &number)) || (r = ref_field(&c, 0, 60, 12, &t)))
        return r;
    for (unsigned i = 0; i < t; i++) {
        if ((r = ref_field(&c, 1, t, 18, &v)))
            return r;
        if (seen[v]++)
            return 18;
    }
    return c.at < length ? 14 : 0;
}

/* How much table a queue needs, and how many states its counts make. */
struct ref_sizes {
    uint64_t entries, states;
};

/* Goes through every kind L and every k with 0 <= k_j <= K_j, of which the first `free` counts are still to be chosen,
 * and counts one by one: each pair has an entry, and is a state where k_L < K_L. */
static inline void ref_count(unsigned kinds, const unsigned *all, unsigned free, unsigned *k, struct ref_sizes *sizes)
{
    if (free == 0) {
        for (unsigned l = 0; l < kinds; l++) {
            sizes->entries++;
            sizes->states += k[l] < all[l];
        }
        return;
    }
    for (k[free - 1] = 0; k[free - 1] <= all[free - 1]; k[free - 1]++)
        ref_count(kinds, all, free - 1, k, sizes);
}

static inline struct ref_sizes ref_sizes_of(const struct kippertarn_queue_record *q)
{
    struct ref_sizes sizes = { 0, 0 };
    unsigned all[5] = { 0 }, k[5] = { 0 };
    for (unsigned i = 0; i < q->jobs; i++)
        all[q->kind[i] - 1]++;
    ref_count(q->kinds, all, q->kinds, k, &sizes);
    return sizes;
}

/* 02's look-up of a gap, which gives seconds or never: whether a job of kind j may come right after one of kind i, or
 * after the cold cutter's 0, and if so the seconds. */
static inline int ref_gap(const struct kippertarn_queue_record *q, unsigned i, unsigned j, uint64_t *seconds)
{
    if (q->gap[i][j - 1] == 65536)
        return 0;
    *seconds = q->gap[i][j - 1];
    return 1;
}

/* Job i of the queue at place p: 01's "permitted". */
static inline int ref_permitted(const struct kippertarn_queue_record *q, unsigned i, unsigned p)
{
    unsigned j = q->kind[i - 1];
    unsigned moved = p > i ? p - i : i - p;
    return moved <= q->shift && q->first[j - 1] <= p && p <= q->last[j - 1];
}

/* A planner's answer: R + 256 * V, the table's first `filled` entries, and the plan's bytes. */
struct ref_answer {
    uint64_t answer;
    size_t filled, plan_bytes;
    uint8_t plan[77];
    uint64_t cost, kept;
};

#define REF_NOT_KEPT UINT64_MAX
#define REF_MOST ((size_t)1856465)

/* What is worked out of one queue. Values and ways on are worked out once each, and remembered. */
struct ref_work {
    struct kippertarn_queue_record q;
    unsigned all[5];     /* K_j */
    unsigned job[5][60]; /* the jobs of each kind, by hand-in */
    size_t p;            /* P */
    uint64_t *value;     /* the table */
    uint8_t *known;      /* which values are worked out */
    uint8_t *way_on;     /* by the entry number: 0 not known, 1 no, 2 yes */
};

static inline size_t ref_k_number(const struct ref_work *w, const unsigned *k)
{
    size_t number = 0;
    for (unsigned j = w->q.kinds; j-- > 0;)
        number = k[j] + (w->all[j] + 1) * number;
    return number;
}

static inline unsigned ref_left(const struct ref_work *w, const unsigned *k)
{
    unsigned left = 0;
    for (unsigned j = 0; j < w->q.kinds; j++)
        left += k[j];
    return left;
}

/* L's job, the (K_L - k_L)th of its kind, is permitted at place T - (k_1 + .. + k_N). */
static inline int ref_cut_permitted(const struct ref_work *w, unsigned l, const unsigned *k)
{
    return ref_permitted(&w->q, w->job[l - 1][w->all[l - 1] - k[l - 1] - 1], w->q.jobs - ref_left(w, k));
}

/* Whether the jobs left can fill the places after L's, all permitted, each kind by hand-in, no succession forbidden. */
static inline int ref_way_on(struct ref_work *w, unsigned l, unsigned *k)
{
    size_t entry = (l - 1) * w->p + ref_k_number(w, k);
    uint64_t seconds;
    if (!w->way_on[entry]) {
        int on = ref_left(w, k) == 0;
        for (unsigned x = 1; x <= w->q.kinds && !on; x++)
            if (k[x - 1] > 0 && ref_gap(&w->q, l, x, &seconds)) {
                k[x - 1]--;
                on = ref_cut_permitted(w, x, k) && ref_way_on(w, x, k);
                k[x - 1]++;
            }
        w->way_on[entry] = on ? 2 : 1;
    }
    return w->way_on[entry] == 2;
}

static inline uint64_t ref_value(struct ref_work *w, unsigned l, unsigned *k);

/* The least, over kinds x that may follow L and have a kept next state, of W * gap(L, x) + its value, and the smallest
 * x that reaches it; L may be the start. */
static inline uint64_t ref_least(struct ref_work *w, unsigned l, unsigned *k, unsigned *next)
{
    uint64_t best = REF_NOT_KEPT, weight = 0, seconds;
    *next = 0;
    for (unsigned j = 0; j < w->q.kinds; j++)
        weight += (uint64_t)k[j] * w->q.pupils[j];
    if (w->q.goal == 1)
        weight = 1;
    for (unsigned x = 1; x <= w->q.kinds; x++)
        if (k[x - 1] > 0 && ref_gap(&w->q, l, x, &seconds)) {
            k[x - 1]--;
            uint64_t rest = ref_value(w, x, k);
            k[x - 1]++;
            if (rest != REF_NOT_KEPT && weight * seconds + rest < best) {
                best = weight * seconds + rest;
                *next = x;
            }
        }
    return best;
}

/* The value of state (L; k), or REF_NOT_KEPT. */
static inline uint64_t ref_value(struct ref_work *w, unsigned l, unsigned *k)
{
    size_t entry = (l - 1) * w->p + ref_k_number(w, k);
    unsigned next;
    if (!w->known[entry]) {
        if (k[l - 1] == w->all[l - 1] || !ref_cut_permitted(w, l, k) || !ref_way_on(w, l, k))
            w->value[entry] = REF_NOT_KEPT;
        else
            w->value[entry] = ref_left(w, k) == 0 ? 0 : ref_least(w, l, k, &next);
        w->known[entry] = 1;
    }
    return w->value[entry];
}

/* Values of every state with the first `kinds` counts free; answers how many are kept. */
static inline uint64_t ref_every(struct ref_work *w, unsigned kinds, unsigned *k)
{
    uint64_t kept = 0;
    if (kinds == 0) {
        for (unsigned l = 1; l <= w->q.kinds; l++)
            kept += ref_value(w, l, k) != REF_NOT_KEPT;
        return kept;
    }
    for (k[kinds - 1] = 0; k[kinds - 1] <= w->all[kinds - 1]; k[kinds - 1]++)
        kept += ref_every(w, kinds - 1, k);
    k[kinds - 1] = 0;
    return kept;
}

/* Follows the values from the start and writes the plan. */
static inline void ref_write_plan(struct ref_work *w, struct ref_answer *a)
{
    struct kippertarn_message_place to = { a->plan, sizeof a->plan, 0 };
    unsigned k[5], last = w->q.start;
    memcpy(k, w->all, sizeof k);
    kippertarn_put_number(&to, 0x51);
    kippertarn_put_number(&to, 0x50);
    kippertarn_put_number(&to, 1);
    kippertarn_put_number(&to, w->q.goal);
    kippertarn_put_number(&to, a->cost);
    kippertarn_put_number(&to, a->kept);
    kippertarn_put_number(&to, w->q.jobs);
    for (unsigned place = 1; place <= w->q.jobs; place++) {
        ref_least(w, last, k, &last);
        kippertarn_put_number(&to, w->job[last - 1][w->all[last - 1] - k[last - 1]]);
        k[last - 1]--;
    }
    a->plan_bytes = to.at;
}

/* Plans an accepted queue as 01 and 02 say; `table` has room for REF_MOST entries whatever is lent. */
static inline struct ref_answer ref_plan_record(const struct kippertarn_queue_record *q, uint64_t *table,
                                                size_t entries, size_t plan_length)
{
    static uint8_t known[REF_MOST], way_on[REF_MOST];
    struct ref_answer a = { 0 };
    struct ref_work w = { .q = *q, .p = 1, .value = table, .known = known, .way_on = way_on };
    unsigned k[5] = { 0 }, next;
    if (plan_length < 77) {
        a.answer = 15;
        return a;
    }
    for (unsigned i = 1; i <= w.q.jobs; i++) {
        unsigned j = w.q.kind[i - 1];
        w.job[j - 1][w.all[j - 1]++] = i;
    }
    for (unsigned j = 0; j < w.q.kinds; j++)
        w.p *= w.all[j] + 1;
    if (entries < w.q.kinds * w.p) {
        a.answer = 16 + 256 * (uint64_t)(w.q.kinds * w.p);
        return a;
    }
    a.filled = w.q.kinds * w.p;
    memset(known, 0, a.filled);
    memset(way_on, 0, a.filled);
    a.kept = ref_every(&w, w.q.kinds, k);
    memcpy(k, w.all, sizeof k);
    a.cost = w.q.jobs == 0 ? 0 : ref_least(&w, w.q.start, k, &next);
    if (a.cost == REF_NOT_KEPT) {
        a.answer = 17;
        return a;
    }
    ref_write_plan(&w, &a);
    a.answer = 256 * (uint64_t)a.plan_bytes;
    return a;
}

/* Plans a message. */
static inline struct ref_answer ref_plan(const uint8_t *message, size_t length, uint64_t *table, size_t entries,
                                         size_t plan_length)
{
    struct kippertarn_queue_record q = { 0 };
    struct ref_answer a = { .answer = (uint64_t)ref_read_queue(message, length, &q) };
    return a.answer ? a : ref_plan_record(&q, table, entries, plan_length);
}

#endif
