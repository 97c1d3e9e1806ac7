/* Queues by chance: as records that are accepted, and as lists of numbers that can be damaged. */
#ifndef QUEUES_H
#define QUEUES_H

#include "lent.h"

static inline size_t entries_of(const struct kippertarn_queue_record *q)
{
    size_t k[5] = { 0 };
    for (unsigned i = 0; i < q->jobs; i++)
        k[q->kind[i] - 1]++;
    return (size_t)KIPPERTARN_ENTRIES(q->kinds, k[0], k[1], k[2], k[3], k[4]);
}

/* Entries of a table that hold a value. */
static inline unsigned long held(const uint64_t *table, size_t entries)
{
    unsigned long count = 0;
    for (size_t i = 0; i < entries; i++)
        count += table[i] != KIPPERTARN_NOT_KEPT;
    return count;
}

/* Places of an order that moves no job by more than `far`: allowed places around them leave a tight queue an order. */
static inline void place_jobs(const struct kippertarn_queue_record *q, unsigned far, unsigned *place)
{
    for (unsigned i = 0; i < q->jobs; i++)
        place[i] = i + 1;
    for (unsigned swaps = below(2 * q->jobs + 1); swaps > 0; swaps--) {
        unsigned i = below(q->jobs), j = below(q->jobs), to_i = place[j], to_j = place[i];
        unsigned i_moved = to_i > i + 1 ? to_i - i - 1 : i + 1 - to_i,
                 j_moved = to_j > j + 1 ? to_j - j - 1 : j + 1 - to_j;
        if (i_moved <= far && j_moved <= far) {
            place[i] = to_i;
            place[j] = to_j;
        }
    }
}

/* Allowed places: all, around the places of some order, or anywhere. */
static inline void choose_places(struct kippertarn_queue_record *q)
{
    unsigned place[60], how = below(6);
    place_jobs(q, q->shift, place);
    for (unsigned j = 0; j < q->kinds; j++) {
        unsigned low = 61, high = 0;
        for (unsigned i = 0; i < q->jobs; i++)
            if (q->kind[i] == j + 1) {
                low = place[i] < low ? place[i] : low;
                high = place[i] > high ? place[i] : high;
            }
        q->first[j] = 1;
        q->last[j] = 60;
        if (how >= 2 && below(3)) { /* tight, or one off */
            q->first[j] = low > 60 ? between(1, 60) : low > 1 ? low - (unsigned)(below(4) == 0) : 1;
            q->last[j] = high == 0 ? 60 : high < 60 ? high + (unsigned)(below(4) == 0) : 60;
            if (how == 5 && below(8) == 0 && q->last[j] > q->first[j])
                q->last[j]--;
            if (how == 5 && below(8) == 0 && q->first[j] < q->last[j])
                q->first[j]++;
        } else if (how == 1) {
            q->first[j] = between(1, q->jobs + 1 > 60 ? 60 : q->jobs + 1);
            q->last[j] = between(q->first[j], 60);
        }
    }
}

/* Forbids all successions but those of some order, or most of them. */
static inline void forbid_but_an_order(struct kippertarn_queue_record *q)
{
    unsigned place[60], kind[61] = { q->start }, spare = below(3);
    int used[6][5] = { { 0 } };
    place_jobs(q, q->shift, place);
    for (unsigned i = 0; i < q->jobs; i++)
        kind[place[i]] = q->kind[i];
    for (unsigned p = 1; p <= q->jobs; p++)
        used[kind[p - 1]][kind[p] - 1] = 1;
    for (unsigned i = 0; i <= q->kinds; i++)
        for (unsigned j = 0; j < q->kinds; j++)
            if (!used[i][j] && below(spare + 2) <= spare)
                q->gap[i][j] = KIPPERTARN_NEVER;
}

/* Whether a gap is forbidden: one of few or many, in a row, in row 0, in a column, or on the diagonal. */
static inline int choose_never(unsigned how, unsigned in, unsigned i, unsigned j)
{
    switch (how) {
    case 0: return below(3 * in + 3) == 0;
    case 1: return below(5) > 1;
    case 2: return i == in || (i > 0 && below(8) == 0);
    case 3: return i == 0;
    case 4: return j == in && i > 0;
    case 5: return i == j;
    default: return 0;
    }
}

/* Forbidden successions, for half the queues. Beside them a gap sometimes has the most seconds it can. */
static inline void choose_nevers(struct kippertarn_queue_record *q)
{
    unsigned how = below(14), in = between(0, q->kinds), most = below(8);
    for (unsigned i = 0; i <= q->kinds; i++)
        for (unsigned j = 1; j <= q->kinds; j++)
            if (choose_never(how, in, i, j))
                q->gap[i][j - 1] = KIPPERTARN_NEVER;
            else if (how <= 6 && most == 0)
                q->gap[i][j - 1] = KIPPERTARN_GAP_MOST;
    if (how == 6)
        forbid_but_an_order(q);
}

/* Queues by chance, by what is forbidden in them. */
enum { NO_NEVER, FEW, MANY, ROW, ROW_0, DIAGONAL, BESIDE_MOST, NEVERS };
static unsigned long met_nevers[NEVERS];

static inline void count_nevers(const struct kippertarn_queue_record *q)
{
    unsigned all = 0, most = 0, diagonal = 0, row[6] = { 0 }, rows = 0;
    for (unsigned i = 0; i <= q->kinds; i++) {
        for (unsigned j = 0; j < q->kinds; j++) {
            row[i] += q->gap[i][j] == KIPPERTARN_NEVER;
            diagonal += i == j + 1 && q->gap[i][j] == KIPPERTARN_NEVER;
            most += q->gap[i][j] == KIPPERTARN_GAP_MOST;
        }
        all += row[i];
        rows += i > 0 && row[i] == q->kinds;
    }
    met_nevers[NO_NEVER] += all == 0;
    met_nevers[FEW] += all > 0 && all * 3 <= q->kinds * (q->kinds + 1);
    met_nevers[MANY] += all * 3 > q->kinds * (q->kinds + 1);
    met_nevers[ROW] += rows > 0;
    met_nevers[ROW_0] += q->start == 0 && row[0] == q->kinds;
    met_nevers[DIAGONAL] += diagonal == q->kinds;
    met_nevers[BESIDE_MOST] += all > 0 && most > 0;
}

/* Each of these was met in five queues of a thousand at least, and no never in four hundred. */
static inline void expect_nevers(unsigned long queues)
{
    static const char *const names[NEVERS] = { "no never",        "few nevers",         "many nevers",
                                               "a row all never", "row 0 all never",    "the diagonal never",
                                               "65535 beside never" };
    for (unsigned i = 0; i < NEVERS; i++)
        if (met_nevers[i] < queues / 1000 * (i == NO_NEVER ? 400 : 5)) {
            printf("FAILED: of %lu queues %lu only had %s\n", queues, met_nevers[i], names[i]);
            failures++;
        }
}

/* An accepted queue of at most `most_jobs` jobs that needs at most `most_entries`. */
static inline void random_queue(struct kippertarn_queue_record *q, unsigned most_jobs, size_t most_entries)
{
    unsigned gaps = below(5), pupils = below(4), lean, usual;
    static const unsigned widest[5] = { 65535, 300, 3, 1, 0 }, most_pupils[4] = { 1000, 40, 2, 0 };
    memset(q, 0, sizeof *q);
    q->kinds = between(1, 5);
    q->goal = between(1, 2);
    q->start = between(0, q->kinds);
    for (unsigned i = 0; i <= q->kinds; i++)
        for (unsigned j = 0; j < q->kinds; j++)
            q->gap[i][j] = below(8) ? between(0, widest[gaps]) : 0;
    for (unsigned j = 0; j < q->kinds; j++)
        q->pupils[j] = between(0, most_pupils[pupils]);
    lean = below(3); /* most jobs of one kind, for long queues with small tables */
    usual = between(1, q->kinds);
    do {
        q->jobs = between(0, lean || most_jobs < 12 ? most_jobs : 12);
        for (unsigned i = 0; i < q->jobs; i++)
            q->kind[i] = lean && below(8 * lean) ? usual : between(1, q->kinds);
    } while (entries_of(q) > most_entries);
    switch (below(4)) {
    case 0: q->shift = 60; break;
    case 1: q->shift = between(0, 60); break;
    case 2: q->shift = between(0, q->jobs / 2); break;
    default: q->shift = between(0, 4); break;
    }
    choose_places(q);
    choose_nevers(q);
    count_nevers(q);
}

/* Lets every job of a queue stand at every place, at the least or by more. */
static inline void permit_all(struct kippertarn_queue_record *q)
{
    if (q->jobs == 0)
        return;
    q->shift = below(2) ? q->jobs - 1 : between(q->jobs - 1, 60);
    for (unsigned j = 0; j < q->kinds; j++) {
        q->first[j] = 1;
        q->last[j] = below(2) ? q->jobs : between(q->jobs, 60);
    }
}

/* Mostly one of the queue's kinds or cold; else over N, by little or by much. */
static inline uint32_t random_second_start(const struct kippertarn_queue_record *q)
{
    switch (below(20)) {
    case 0: return q->kinds + 1;
    case 1: return between(0, q->kinds) + ((uint32_t)1 << between(3, 31));
    case 2: return (uint32_t)chance();
    default: return between(0, q->kinds);
    }
}

/* A queue message as the list of its numbers, each with the range it is judged by. */
struct numbers {
    size_t count;
    uint64_t value[120];
    unsigned low[120], high[120];
};

static inline void add_number(struct numbers *n, uint64_t value, unsigned low, unsigned high)
{
    n->value[n->count] = value;
    n->low[n->count] = low;
    n->high[n->count++] = high;
}

static inline struct numbers queue_numbers(const struct kippertarn_queue_record *q)
{
    struct numbers n = { 0 };
    add_number(&n, 1, 1, 1);
    add_number(&n, q->kinds, 1, 5);
    add_number(&n, q->goal, 1, 2);
    add_number(&n, q->shift, 0, 60);
    add_number(&n, q->start, 0, q->kinds);
    for (unsigned i = 0; i <= q->kinds; i++)
        for (unsigned j = 0; j < q->kinds; j++)
            add_number(&n, q->gap[i][j], 0, KIPPERTARN_NEVER);
    for (unsigned j = 0; j < q->kinds; j++)
        add_number(&n, q->pupils[j], 0, 1000);
    for (unsigned j = 0; j < q->kinds; j++) {
        add_number(&n, q->first[j], 1, q->last[j]);
        add_number(&n, q->last[j], q->first[j], 60);
    }
    add_number(&n, q->jobs, 0, 60);
    for (unsigned i = 0; i < q->jobs; i++)
        add_number(&n, q->kind[i], 1, q->kinds);
    return n;
}

/* A plan message by chance, as the list of its numbers; the ranges of cost and kept count are six groups. */
static inline struct numbers plan_numbers(void)
{
    struct numbers n = { 0 };
    unsigned jobs = below(2) ? between(0, 5) : between(0, 60), job[60];
    uint64_t six_groups = ((uint64_t)1 << 42) - 1;
    add_number(&n, 1, 1, 1);
    add_number(&n, between(1, 2), 1, 2);
    add_number(&n, below(4) ? chance() & six_groups >> below(42) : six_groups, 0, 0);
    add_number(&n, below(4) ? chance() & six_groups >> below(42) : six_groups, 0, 0);
    add_number(&n, jobs, 0, 60);
    for (unsigned i = 0; i < jobs; i++) {
        unsigned k = below(i + 1);
        job[i] = i + 1;
        job[i] = job[k];
        job[k] = i + 1;
    }
    for (unsigned i = 0; i < jobs; i++)
        add_number(&n, job[i], 1, jobs);
    return n;
}

/* Sets one number to a bound of its range, just outside it, or anything. */
static inline void damage_number(struct numbers *n)
{
    size_t at = below((unsigned)n->count);
    switch (below(8)) {
    case 0:
    case 1: n->value[at] = (uint64_t)n->high[at] + 1; break;
    case 2: n->value[at] = n->low[at] ? n->low[at] - 1 : 0; break;
    case 3: n->value[at] = n->low[at]; break;
    case 4: n->value[at] = n->high[at]; break;
    case 5: n->value[at] = ((uint64_t)1 << (7 * between(1, 6))) - below(2); break;
    case 6: n->value[at] = n->value[below((unsigned)n->count)]; break;
    default: n->value[at] = chance() >> (below(60) + 4); break;
    }
}

/* The numbers as a message. The number at `odd`, if any, gets a group more than it needs, or bit 7 in its last one. */
static inline size_t write_numbers(const struct numbers *n, uint8_t second, size_t odd, uint8_t *message, size_t room)
{
    struct kippertarn_message_place to = { message, room, 2 };
    message[0] = 0x51;
    message[1] = second;
    for (size_t i = 0; i < n->count; i++) {
        kippertarn_put_number(&to, n->value[i]);
        if (i == odd) {
            message[to.at - 1] |= 128;
            if (below(3))
                message[to.at++] = below(3) ? 0 : 128;
        }
    }
    return to.at;
}

#endif
