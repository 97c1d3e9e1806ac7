/* Two cutters: small queues split by hand, the source's chapter 6, 02's refusals just inside and just outside their
 * bounds, random queues as the reference splits them, and small ones against all splits of their jobs. */
#include "queues.h"

#include <pthread.h>

static unsigned long splits_tried;
/* Small queues without a split, and those with one that have no order on one cutter. */
static unsigned long small_none, small_only;

/* A queue without jobs yet, all orders permitted. */
static struct kippertarn_queue_record free_queue(unsigned kinds, unsigned goal, unsigned start)
{
    struct kippertarn_queue_record q = { .kinds = kinds, .goal = goal, .shift = 60, .start = start };
    for (unsigned j = 0; j < kinds; j++) {
        q.first[j] = 1;
        q.last[j] = 60;
    }
    return q;
}

static void add_jobs(struct kippertarn_queue_record *q, unsigned kind, unsigned jobs)
{
    while (jobs-- > 0)
        q->kind[q->jobs++] = kind;
}

/* Both measures of the jobs of one cutter in their order, and their pupils; or that a succession is forbidden. */
struct measures {
    uint64_t last_finish, waiting, pupils;
    int never;
};

static struct measures measure(const struct kippertarn_queue_record *q, unsigned start, const unsigned *job,
                               unsigned jobs)
{
    struct measures m = { 0, 0, 0, 0 };
    for (unsigned i = 0; i < jobs; i++) {
        unsigned j = q->kind[job[i] - 1];
        if (q->gap[start][j - 1] > 65535) {
            m.never = 1;
            break;
        }
        m.last_finish += q->gap[start][j - 1];
        m.waiting += q->pupils[j - 1] * m.last_finish;
        m.pupils += q->pupils[j - 1];
        start = j;
    }
    return m;
}

/* 02's cost of a split, as the measures of both cutters give it. */
static uint64_t split_cost(unsigned goal, const struct measures *m)
{
    if (goal == 2)
        return m[0].waiting + m[1].waiting;
    return m[0].last_finish > m[1].last_finish ? m[0].last_finish : m[1].last_finish;
}

/* Takes apart a split plan. Answers whether it is one, with each job of the queue once. */
static int read_split(const struct kippertarn_queue_record *q, const uint8_t *bytes, uint64_t length,
                      struct ref_orders *split)
{
    uint64_t at = 2;
    int seen[61] = { 0 };
    if (length < 2 || bytes[0] != 0x51 || bytes[1] != 0x32 || kippertarn_get_number(bytes, length, &at) != 1
        || kippertarn_get_number(bytes, length, &at) != q->goal)
        return 0;
    split->cost = kippertarn_get_number(bytes, length, &at);
    for (unsigned c = 0; c < 2; c++) {
        split->jobs[c] = (unsigned)kippertarn_get_number(bytes, length, &at);
        if (split->jobs[c] > q->jobs)
            return 0;
        for (unsigned i = 0; i < split->jobs[c]; i++) {
            split->job[c][i] = (unsigned)kippertarn_get_number(bytes, length, &at);
            if (split->job[c][i] == 0 || split->job[c][i] > q->jobs || seen[split->job[c][i]]++)
                return 0;
        }
    }
    return at == length && split->jobs[0] + split->jobs[1] == q->jobs;
}

enum { SMALL = 6, RANKS = 6 + 2 * (1 + 2 * SMALL) };

/* All splits of a small queue without a forbidden succession: the least cost of any, and of those in which the first
 * cutter takes the earliest handed in the one that 02 takes. It is the least by these numbers, from the first on: its
 * cost; the count of each kind on the first cutter; and for either cutter the cost of its own order, then its kinds and
 * its jobs, place by place. */
struct all_splits {
    const struct kippertarn_queue_record *q;
    unsigned second_start;
    uint64_t least, rank[RANKS];
    struct ref_orders taken;
};

/* No job of the first cutter was handed in after one of its kind that the second has. */
static int takes_earliest(const struct kippertarn_queue_record *q, const unsigned *job, unsigned cut)
{
    for (unsigned i = 0; i < cut; i++)
        for (unsigned other = cut; other < q->jobs; other++)
            if (q->kind[job[i] - 1] == q->kind[job[other] - 1] && job[i] > job[other])
                return 0;
    return 1;
}

/* The split in which the first `cut` of these jobs go to the first cutter, the others to the second, in this order. */
static void try_split(struct all_splits *all, const unsigned *job, unsigned cut)
{
    const struct kippertarn_queue_record *q = all->q;
    const unsigned *order[2] = { job, job + cut };
    unsigned jobs[2] = { cut, q->jobs - cut }, count = 6, same = 0;
    struct measures m[2] = { measure(q, q->start, order[0], jobs[0]),
                             measure(q, all->second_start, order[1], jobs[1]) };
    uint64_t rank[RANKS] = { split_cost(q->goal, m) };
    splits_tried++;
    if (m[0].never || m[1].never)
        return;
    if (rank[0] < all->least)
        all->least = rank[0];
    if (rank[0] > all->least || !takes_earliest(q, job, cut))
        return;
    for (unsigned i = 0; i < cut; i++)
        rank[q->kind[job[i] - 1]]++;
    for (unsigned c = 0; c < 2; c++) {
        rank[count++] = q->goal == 1 ? m[c].last_finish : m[c].waiting;
        for (unsigned i = 0; i < jobs[c]; i++)
            rank[count++] = q->kind[order[c][i] - 1];
        for (unsigned i = 0; i < jobs[c]; i++)
            rank[count++] = order[c][i];
    }
    while (same < RANKS && rank[same] == all->rank[same])
        same++;
    if (same == RANKS || rank[same] > all->rank[same])
        return;
    memcpy(all->rank, rank, sizeof rank);
    all->taken.cost = rank[0];
    for (unsigned c = 0; c < 2; c++) {
        all->taken.jobs[c] = jobs[c];
        memcpy(all->taken.job[c], order[c], jobs[c] * sizeof *job);
    }
}

/* A split is a list of all jobs, cut in two somewhere: tries all that go on from `job`. */
static void try_splits(struct all_splits *all, unsigned *job, unsigned listed)
{
    unsigned jobs = all->q->jobs;
    if (listed == jobs) {
        for (unsigned cut = 0; cut <= jobs; cut++)
            try_split(all, job, cut);
        return;
    }
    for (unsigned i = 1; i <= jobs; i++) {
        int free = 1;
        for (unsigned before = 0; before < listed; before++)
            free = free && job[before] != i;
        if (free) {
            job[listed] = i;
            try_splits(all, job, listed + 1);
        }
    }
}

/* What the part answers for a queue of at most six jobs, held to all splits: 17 exactly when there is none. */
static int split_is_best(const struct kippertarn_queue_record *q, unsigned second_start, uint64_t answer,
                         const uint8_t *bytes)
{
    struct all_splits all = { .q = q, .second_start = second_start, .least = UINT64_MAX, .rank = { UINT64_MAX } };
    struct ref_orders split;
    unsigned job[SMALL];
    uint8_t wanted[KIPPERTARN_PLAN_BYTES];
    try_splits(&all, job, 0);
    if (all.least == UINT64_MAX)
        return answer == 17;
    if (answer % 256 != 0 || answer / 256 > KIPPERTARN_SPLIT_BYTES || !read_split(q, bytes, answer / 256, &split))
        return 0;
    struct measures m[2] = { measure(q, q->start, split.job[0], split.jobs[0]),
                             measure(q, second_start, split.job[1], split.jobs[1]) };
    return !m[0].never && !m[1].never && split.cost == all.least && split_cost(q->goal, m) == all.least
           && ref_write_split(q->goal, &all.taken, wanted, sizeof wanted) == answer / 256
           && memcmp(bytes, wanted, answer / 256) == 0;
}

/* Splits a small queue by the part and by trying all splits. */
static void compare_all_splits(const char *what, const struct kippertarn_queue_record *q, unsigned second_start)
{
    static uint64_t table[KIPPERTARN_ENTRIES(5, 2, 1, 1, 1, 1)]; /* the most that six jobs need */
    uint8_t message[KIPPERTARN_QUEUE_BYTES], plan[KIPPERTARN_PLAN_BYTES] = { 0 };
    size_t length = kippertarn_write_queue_record(q, message, sizeof message);
    uint64_t alone, answer;
    watch(message, length);
    alone = kippertarn_plan(message, length, table, entries_of(q), plan, sizeof plan);
    answer = kippertarn_split(message, length, second_start, table, entries_of(q), plan, sizeof plan);
    small_none += answer == 17;
    small_only += answer != 17 && alone == 17;
    compared++;
    if (!split_is_best(q, second_start, answer, plan)) {
        printf("FAILED %s: answer %llu is not 02's choice of all splits, second start %u\n", what,
               (unsigned long long)answer, second_start);
        print_bytes("queue", message, length);
        print_bytes("plan buffer", plan, sizeof plan);
        failures++;
    }
}

/* Splits a queue with a table of exactly N x P entries, and holds it to R. */
static struct ref_answer split_with(const char *what, const struct kippertarn_queue_record *q, uint32_t second_start,
                                    unsigned r)
{
    uint8_t message[KIPPERTARN_QUEUE_BYTES];
    size_t length = kippertarn_write_queue_record(q, message, sizeof message);
    struct ref_answer a = compare_split(what, message, length, second_start, entries_of(q), 77);
    expect(what, a.answer % 256, r);
    return a;
}

/* Case A of 01 freed to shift 4, but for its goal and the kinds of its jobs. */
static struct kippertarn_queue_record free_a(unsigned goal, const char *kinds)
{
    struct kippertarn_queue_record q = free_queue(2, goal, 0);
    static const unsigned rows[3][2] = { { 10, 10 }, { 20, 50 }, { 40, 30 } };
    q.shift = 4;
    q.pupils[0] = 3;
    q.pupils[1] = 1;
    for (unsigned i = 0; i < 3; i++)
        memcpy(q.gap[i], rows[i], sizeof rows[i]);
    for (; *kinds; kinds++)
        add_jobs(&q, (unsigned)(*kinds - '0'), 1);
    return q;
}

/* Holds a split to these bytes. */
static void expect_split(const char *what, struct kippertarn_queue_record q, unsigned second_start, const uint8_t *plan,
                         size_t plan_bytes)
{
    struct ref_answer a = split_with(what, &q, second_start, 0);
    expect(what, a.plan_bytes == plan_bytes && memcmp(a.plan, plan, plan_bytes) == 0, 1);
    compare_all_splits(what, &q, second_start);
}

#define BYTES(...) (const uint8_t[]){ __VA_ARGS__ }, sizeof(const uint8_t[]){ __VA_ARGS__ }
#define SPLIT(...) BYTES(0x51, 0x32, 0x01, __VA_ARGS__)

/* A and B with both cutters cold. */
static const uint8_t split_a[] = { 0x51, 0x32, 0x01, 0x01, 0x1E, 0x01, 0x02, 0x02, 0x01, 0x03 };
static const uint8_t split_b[] = { 0x51, 0x32, 0x01, 0x02, 0x78, 0x01, 0x01, 0x02, 0x03, 0x02 };

/* Worked out by hand. The first cutter's cost and the second's, for its counts of kinds 1 and 2:
 *
 *     A        0,0      0,1      1,0      1,1      2,0      2,1
 *     cold     0 70     10 30    10 50    50 10    30 10    70 0
 *     after 1  0 90     10 40    10 70    50 20    30 50    70 0
 *     after 2  0 90     10 60    10 70    50 40    30 30    70 0
 *
 *     B
 *     cold     0 200    10 120   30 90    90 30    120 10   200 0
 *     after 1  0 270    10 180   30 130   90 60    120 50   200 0
 *     after 2  0 410    10 300   30 210   90 120   120 30   200 0 */
static void small_queues(void)
{
    struct kippertarn_queue_record h = free_a(1, "21");
    memset(h.gap, 0, sizeof h.gap);
    expect_split("A, second cold", free_a(1, "121"), 0, split_a, sizeof split_a);
    expect_split("A, second after 1", free_a(1, "121"), 1, SPLIT(1, 40, 1, 2, 2, 1, 3));
    expect_split("A, second after 2", free_a(1, "121"), 2, SPLIT(1, 30, 2, 1, 3, 1, 2));
    expect_split("B, second cold", free_a(2, "121"), 0, split_b, sizeof split_b);
    expect_split("B, second after 1", free_a(2, "121"), 1, SPLIT(2, 0x96, 0x01, 2, 1, 2, 1, 3));
    expect_split("B, second after 2", free_a(2, "121"), 2, SPLIT(2, 0x96, 0x01, 2, 1, 3, 1, 2));
    expect_split("A with five jobs, second after 2", free_a(1, "12121"), 2, SPLIT(1, 60, 3, 1, 3, 5, 2, 2, 4));
    expect_split("B with five jobs, second cold", free_a(2, "12121"), 0, SPLIT(2, 0xA2, 0x02, 2, 1, 2, 3, 3, 5, 4));
    expect_split("one job", free_a(1, "2"), 0, SPLIT(1, 10, 0, 1, 1));
    expect_split("one job, the second cutter dearer", free_a(1, "2"), 1, SPLIT(1, 10, 1, 1, 0));
    expect_split("no jobs", free_a(1, ""), 0, SPLIT(1, 0, 0, 0));
    expect_split("no jobs, goal 2", free_a(2, ""), 2, SPLIT(2, 0, 0, 0));
    expect_split("H: every split costs 0", h, 0, SPLIT(1, 0, 0, 2, 2, 1));
}

/* Holds a queue to having no split. */
static void expect_none(const char *what, struct kippertarn_queue_record q, unsigned second_start)
{
    split_with(what, &q, second_start, 17);
    compare_all_splits(what, &q, second_start);
}

/* A queue without a split: 17 comes after all other refusals. */
static void none_comes_last(struct kippertarn_queue_record q)
{
    uint8_t message[KIPPERTARN_QUEUE_BYTES];
    size_t length = kippertarn_write_queue_record(&q, message, sizeof message), entries = entries_of(&q);
    expect("15 before 17", compare_split("15 before 17", message, length, 0, entries, 76).answer, 15);
    expect("16 before 17", compare_split("16 before 17", message, length, 0, entries - 1, 77).answer,
           16 + 256 * (uint64_t)entries);
    split_with("20 before 17", &q, q.kinds + 1, 20);
    q.shift = q.jobs - 2;
    split_with("19 before 17", &q, 0, 19);
}

/* A and B, but for one succession or for a whole row. */
static struct kippertarn_queue_record a_without(unsigned goal, const char *kinds, unsigned i, unsigned j)
{
    struct kippertarn_queue_record q = free_a(goal, kinds);
    q.gap[i][j - 1] = KIPPERTARN_NEVER;
    return q;
}

static struct kippertarn_queue_record a_without_row(unsigned goal, const char *kinds, unsigned i)
{
    struct kippertarn_queue_record q = a_without(goal, kinds, i, 1);
    q.gap[i][1] = KIPPERTARN_NEVER;
    return q;
}

/* Forbidden successions, worked out by hand. The costs as above, - for none:
 *
 *     A without         0,0      0,1      1,0      1,1      2,0      2,1
 *     2 on cold         0 80     - 30     10 60    60 10    30 -     80 0      both cold
 *     2 on cold         0 90     - 60     10 70    60 40    30 30    80 0      second after 2
 *     1 after 1         0 100    10 -     10 50    50 10    - 10     100 0     both cold
 *     any after 2       0 -      10 -     10 -     60 -     30 -     80 0      second after 2 */
static void forbidden(void)
{
    struct kippertarn_queue_record alone = a_without_row(1, "12", 1), none, second_only;
    expect_split("A without 2 on cold, second cold", a_without(1, "121", 0, 2), 0, SPLIT(1, 60, 1, 1, 2, 3, 2));
    expect_split("A without 2 on cold, second after 2", a_without(1, "121", 0, 2), 2, SPLIT(1, 30, 2, 1, 3, 1, 2));
    expect_split("A without 1 after 1, second cold", a_without(1, "121", 1, 1), 0, SPLIT(1, 50, 1, 1, 2, 2, 3));
    expect_split("A, second after 2, which nothing may follow", a_without_row(1, "121", 2), 2,
                 SPLIT(1, 80, 3, 1, 3, 2, 0));
    /* The second cutter can take nothing: it is left empty, which counts 0. */
    expect_split("B, second after 2, which nothing may follow", a_without_row(2, "121", 2), 2,
                 SPLIT(2, 0xC8, 0x01, 3, 1, 3, 2, 0));
    /* And so is the first; one cutter alone, which is the first, has no order. */
    second_only = a_without_row(1, "12", 2);
    second_only.start = 2;
    expect_split("the first after 2, which nothing may follow", second_only, 0, SPLIT(1, 60, 0, 2, 1, 2));
    expect("one cutter alone has no order", met_only_split, 1);
    /* Nothing follows anything: a job on each cutter, or none. */
    memcpy(alone.gap[2], alone.gap[1], sizeof alone.gap[1]);
    expect_split("one job for each cutter", alone, 0, SPLIT(1, 10, 1, 2, 1, 1));
    expect("one cutter alone has no order", met_only_split, 2);
    expect_none("one job for each cutter, the second after 1", alone, 1);
    add_jobs(&alone, 1, 1);
    expect_none("one job for each cutter, and a third job", alone, 0);
    none_comes_last(alone);
    /* Two cutters that can take nothing have no split but of no jobs. */
    none = a_without_row(2, "2", 2);
    none.start = 2;
    expect_none("one job, both after 2, which nothing may follow", none, 2);
    none.pupils[0] = none.pupils[1] = 0;
    expect_none("the same with no pupils: never times 0 is never", none, 2);
    none.jobs = 0;
    expect_split("no jobs, both after 2, which nothing may follow", none, 2, SPLIT(2, 0, 0, 0));
    /* With no pupils every split costs 0: the first by its counts has all jobs on the second cutter, with 1 after 1
     * forbidden 1 2 1 there. */
    none = a_without(2, "112", 1, 1);
    none.pupils[0] = none.pupils[1] = 0;
    expect_split("no pupils, 1 after 1 forbidden", none, 0, SPLIT(2, 0, 0, 3, 1, 3, 2));
}

/* 000, section 6.1: rows 80 120 / 80 90, of which its printed values come. */
static struct kippertarn_queue_record example_of_6_1(unsigned start, unsigned k1, unsigned k2)
{
    struct kippertarn_queue_record q = free_queue(2, 1, start);
    q.gap[1][0] = q.gap[2][0] = 80;
    q.gap[1][1] = 120;
    q.gap[2][1] = 90;
    add_jobs(&q, 1, k1);
    add_jobs(&q, 2, k2);
    return q;
}

/* A share of it planned for one cutter costs what the source prints. */
static void expect_share(unsigned start, unsigned k1, unsigned k2, uint64_t cost)
{
    struct kippertarn_queue_record q = example_of_6_1(start, k1, k2);
    uint8_t message[KIPPERTARN_QUEUE_BYTES];
    size_t length = kippertarn_write_queue_record(&q, message, sizeof message);
    expect("6.1, a share", compare_plan("6.1, a share", message, length, entries_of(&q), 77).cost, cost);
}

static void section_6_1(void)
{
    /* L, k_1, k_2 and the value. The source prints 290 for 2,1,2, which its other values do not give: the least of
     * 80 + 210 by kind 1 and 90 + 170 by kind 2 is 260. */
    static const unsigned printed[18][4] = { { 1, 0, 0, 0 },   { 2, 0, 0, 0 },   { 1, 0, 1, 120 }, { 2, 0, 1, 90 },
                                             { 1, 0, 2, 210 }, { 2, 0, 2, 180 }, { 1, 1, 0, 80 },  { 2, 1, 0, 80 },
                                             { 1, 1, 1, 200 }, { 2, 1, 1, 170 }, { 1, 1, 2, 290 }, { 2, 1, 2, 260 },
                                             { 1, 2, 0, 160 }, { 2, 2, 0, 160 }, { 1, 2, 1, 280 }, { 2, 2, 1, 250 },
                                             { 1, 2, 2, 370 }, { 2, 2, 2, 340 } };
    /* "the vectors we examine": x_1, x_2, the first runway's value and the second's */
    static const unsigned examined[6][4] = { { 0, 0, 0, 250 },  { 0, 1, 120, 160 }, { 1, 0, 80, 170 },
                                             { 1, 1, 200, 80 }, { 2, 0, 160, 90 },  { 2, 1, 280, 0 } };
    struct kippertarn_queue_record q = example_of_6_1(1, 3, 3); /* so that its table has all the printed states */
    uint64_t table[32] = { 0 };
    uint8_t message[KIPPERTARN_QUEUE_BYTES], plan[KIPPERTARN_PLAN_BYTES];
    size_t length = kippertarn_write_queue_record(&q, message, sizeof message);
    watch(message, length);
    expect("6.1", kippertarn_split(message, length, 2, table, 32, plan, sizeof plan) % 256, 0);
    for (unsigned i = 0; i < 18; i++)
        expect("6.1, a value", table[16 * (printed[i][0] - 1) + printed[i][1] + 4 * printed[i][2]], printed[i][3]);
    for (unsigned i = 0; i < 6; i++) {
        expect_share(1, examined[i][0], examined[i][1], examined[i][2]);
        expect_share(2, 2 - examined[i][0], 1 - examined[i][1], examined[i][3]);
    }
    /* "we select (0,1)": the job of kind 2 on the first, both of kind 1 on the second; 160 */
    expect_split("6.1", example_of_6_1(1, 2, 1), 2, SPLIT(1, 0xA0, 0x01, 1, 3, 2, 1, 2));
}

/* A case of 000's section 6.2 as printed. */
struct printed {
    unsigned start[2], all[3], goal, first[3];
    uint64_t last_finish[2], waiting[2], average[2], average_of_both;
    const char *kinds[2]; /* where Table E.3 has them */
};

static void expect_printed(const char *what, const struct printed *p, const struct kippertarn_queue_record *q)
{
    struct ref_answer a = split_with(what, q, p->start[1], 0);
    struct ref_orders split = { 0 };
    struct measures m[2];
    unsigned first[3] = { 0 };
    expect(what, (uint64_t)read_split(q, a.plan, a.plan_bytes, &split), 1);
    for (unsigned i = 0; i < split.jobs[0]; i++)
        first[q->kind[split.job[0][i] - 1] - 1]++;
    expect("6.2, the partition", (uint64_t)memcmp(first, p->first, sizeof first), 0);
    for (unsigned c = 0; c < 2; c++) {
        m[c] = measure(q, p->start[c], split.job[c], split.jobs[c]);
        expect("6.2, last landing time of a runway", m[c].last_finish, p->last_finish[c]);
        expect("6.2, total passenger delay of a runway", m[c].waiting, p->waiting[c]);
        expect("6.2, average of a runway, rounded down", m[c].waiting / m[c].pupils, p->average[c]);
        for (unsigned i = 0; p->kinds[c] && i < split.jobs[c]; i++)
            expect("E.3, a sequence", q->kind[split.job[c][i] - 1], (unsigned)(p->kinds[c][i] - '0'));
    }
    uint64_t pupils = m[0].pupils + m[1].pupils;
    expect("6.2, the objective", split.cost, split_cost(q->goal, m));
    expect("6.2, average of both, rounded", (m[0].waiting + m[1].waiting + pupils / 2) / pupils, p->average_of_both);
}

/* 000, section 6.2, and for cases 1 and 3 the sequences of its Table E.3. There the first stage of case 1's runway 2
 * says TO 2; its time, 96, and the FROM of the next stage are kind 1's. */
static void section_6_2(void)
{
    static const struct printed cases[6] = {
        { { 1, 1 }, { 4, 4, 4 }, 1, { 2, 2, 2 }, { 636, 636 }, { 418500, 418500 }, { 380, 380 }, 380,
          { "122331", "122331" } },
        { { 1, 1 }, { 4, 4, 4 }, 2, { 2, 2, 2 }, { 660, 660 }, { 333300, 333300 }, { 303, 303 }, 303, { NULL, NULL } },
        { { 2, 2 }, { 5, 5, 5 }, 1, { 2, 0, 5 }, { 645, 664 }, { 506700, 691200 }, { 460, 418 }, 436,
          { "3333311", "22222111" } },
        { { 2, 2 }, { 5, 5, 5 }, 2, { 0, 5, 3 }, { 697, 774 }, { 362100, 541800 }, { 344, 318 }, 329, { NULL, NULL } },
        { { 3, 3 }, { 1, 3, 5 }, 1, { 0, 0, 4 }, { 360, 402 }, { 90000, 242100 }, { 225, 284 }, 266, { NULL, NULL } },
        { { 3, 3 }, { 1, 3, 5 }, 2, { 0, 2, 3 }, { 457, 460 }, { 146100, 142550 }, { 243, 219 }, 231, { NULL, NULL } },
    };
    static const uint64_t objective[6] = { 636, 666600, 664, 903900, 402, 288650 };
    static const unsigned rows[3][3] = { { 96, 181, 228 }, { 72, 80, 117 }, { 72, 80, 90 } };
    static const unsigned pupils[3] = { 300, 150, 100 };
    for (unsigned i = 0; i < 6; i++) {
        struct kippertarn_queue_record q = free_queue(3, cases[i].goal, cases[i].start[0]), turned;
        char what[20];
        snprintf(what, sizeof what, "6.2, case %u", i + 1);
        memcpy(q.pupils, pupils, sizeof pupils);
        for (unsigned j = 0; j < 3; j++) {
            memcpy(q.gap[j + 1], rows[j], sizeof rows[j]);
            add_jobs(&q, j + 1, cases[i].all[j]);
        }
        turned = q; /* handed in the other way round */
        for (unsigned job = 0; job < q.jobs; job++)
            turned.kind[job] = q.kind[q.jobs - 1 - job];
        expect_printed(what, &cases[i], &q);
        expect_printed(what, &cases[i], &turned);
        expect(what, split_with(what, &q, cases[i].start[1], 0).cost, objective[i]);
    }
}

/* 19, by the shift and by the allowed places of any kind, with jobs or without. */
static void uncovered(void)
{
    struct kippertarn_queue_record q = free_a(1, "121"), unused = free_a(1, "111"), sixty = free_queue(1, 1, 1);
    q.shift = 2;
    split_with("shift 2 of 3 jobs", &q, 0, 0);
    q.shift = 1;
    split_with("shift 1 of 3 jobs", &q, 0, 19);
    split_with("shift 1 of 3 jobs, second start 3 of 2", &q, 3, 19);
    add_jobs(&sixty, 1, 60);
    sixty.shift = 59;
    split_with("shift 59 of 60 jobs", &sixty, 1, 0);
    sixty.shift = 58;
    split_with("shift 58 of 60 jobs", &sixty, 1, 19);
    sixty.shift = 0;
    sixty.jobs = 1;
    split_with("shift 0 of one job", &sixty, 0, 0);
    sixty.jobs = 2;
    split_with("shift 0 of two jobs", &sixty, 0, 19);
    for (unsigned j = 0; j < 2; j++) {
        struct kippertarn_queue_record late = free_a(2, "121"), early = late;
        late.first[j] = 2;
        split_with("first place 2", &late, 0, 19);
        early.last[j] = 3;
        split_with("last place 3 of 3 jobs", &early, 0, 0);
        early.last[j] = 2;
        split_with("last place 2 of 3 jobs", &early, 0, 19);
    }
    unused.last[1] = 3;
    split_with("last place 3 for a kind without jobs", &unused, 0, 0);
    unused.last[1] = 2;
    split_with("last place 2 for a kind without jobs", &unused, 0, 19);
    unused.last[1] = 60;
    unused.first[1] = 2;
    split_with("first place 2 for a kind without jobs", &unused, 0, 19);
}

/* With no jobs there is nothing to be covered. */
static void no_jobs(void)
{
    struct kippertarn_queue_record q = free_a(1, "");
    q.shift = 0;
    q.first[0] = q.last[0] = 5;
    q.first[1] = q.last[1] = 60;
    expect_split("no jobs, few places", q, 0, SPLIT(1, 0, 0, 0));
    split_with("no jobs, second start 3 of 2", &q, 3, 20);
}

/* 20, by N and by 32 bits. */
static void second_starts(void)
{
    static const uint32_t over[] = { 3, 5, 6, 255, 256, 257, 65536, 65538, 0x80000000, 0xFFFFFFFE, 0xFFFFFFFF };
    struct kippertarn_queue_record q = free_a(1, "121"), five = free_queue(5, 2, 5);
    for (uint32_t s = 0; s <= 2; s++)
        split_with("second start of 2", &q, s, 0);
    for (unsigned i = 0; i < sizeof over / sizeof *over; i++)
        split_with("second start over 2", &q, over[i], 20);
    for (unsigned j = 1; j <= 5; j++)
        add_jobs(&five, j, 1);
    split_with("second start 5 of 5", &five, 5, 0);
    split_with("second start 6 of 5", &five, 6, 20);
}

/* The refusals' order, and 15 and 16 just inside and just outside; everything else may be wrong. */
static void order_of_refusals(void)
{
    static const struct {
        const char *what;
        unsigned shift;
        uint32_t second_start;
        size_t more, entries, plan_length;
        uint64_t answer;
    } calls[] = {
        { "a byte left over, then all else", 1, 3, 1, 0, 0, 14 },
        { "19, then all else", 1, 3, 0, 0, 0, 19 },
        { "20, then a short buffer and table", 2, 3, 0, 0, 0, 20 },
        { "20, then a short buffer", 2, 3, 0, 12, 76, 20 },
        { "20, then a short table", 2, 3, 0, 11, 77, 20 },
        { "19, then a short buffer", 1, 2, 0, 12, 76, 19 },
        { "19, then a short table", 1, 2, 0, 11, 77, 19 },
        { "no buffer, no table", 2, 2, 0, 0, 0, 15 },
        { "a buffer of 76, a short table", 2, 2, 0, 11, 76, 15 },
        { "a buffer of 72, the longest split plan", 2, 2, 0, 12, 72, 15 },
        { "a buffer of 76", 2, 2, 0, 12, 76, 15 },
        { "a buffer of 77, no table", 2, 2, 0, 0, 77, 16 + 256 * 12 },
        { "a table of 11", 2, 2, 0, 11, 77, 16 + 256 * 12 },
        { "a table of 12", 2, 2, 0, 12, 77, 256 * 11 },
        { "more than enough", 60, 0, 0, 100, 4000, 256 * 10 },
    };
    for (unsigned i = 0; i < sizeof calls / sizeof *calls; i++) {
        struct kippertarn_queue_record q = free_a(calls[i].second_start == 2 ? 2 : 1, "121");
        uint8_t message[KIPPERTARN_QUEUE_BYTES] = { 0 };
        q.shift = calls[i].shift;
        size_t length = kippertarn_write_queue_record(&q, message, sizeof message) + calls[i].more;
        for (int times = 0; times < 20; times++) /* wherever they stand, whatever they hold */
            expect(calls[i].what,
                   compare_split(calls[i].what, message, length, calls[i].second_start, calls[i].entries,
                                 calls[i].plan_length)
                       .answer,
                   calls[i].answer);
    }
}

static void null_pointers(void)
{
    struct kippertarn_queue_record q = free_a(1, "121");
    uint8_t message[KIPPERTARN_QUEUE_BYTES], plan[KIPPERTARN_PLAN_BYTES];
    uint64_t table[12];
    size_t length = kippertarn_write_queue_record(&q, message, sizeof message);
    watch(message, length);
    expect("nothing at all", kippertarn_split(NULL, 0, 0, NULL, 0, NULL, 0), 1);
    expect("no message", kippertarn_split(NULL, 0, 0, table, 12, plan, sizeof plan), 1);
    expect("no plan buffer, no table, second start 3 of 2", kippertarn_split(message, length, 3, NULL, 0, NULL, 0), 20);
    expect("no plan buffer, no table", kippertarn_split(message, length, 0, NULL, 0, NULL, 0), 15);
    expect("no plan buffer", kippertarn_split(message, length, 0, table, 12, NULL, 0), 15);
    expect("no table: its size", kippertarn_split(message, length, 0, NULL, 0, plan, sizeof plan),
           KIPPERTARN_TABLE + 256 * 12);
    expect("all that is needed", kippertarn_split(message, length, 0, table, 12, plan, sizeof plan),
           KIPPERTARN_DONE + 256 * 10);
}

/* The longest split plan: thirty jobs on either cutter, a cost of six groups. */
static void longest(void)
{
    struct kippertarn_queue_record q = free_queue(1, 2, 1);
    q.gap[0][0] = q.gap[1][0] = 65535;
    q.pupils[0] = 1000;
    add_jobs(&q, 1, 60);
    struct ref_answer a = split_with("the longest split plan", &q, 0, 0);
    expect("the longest split plan", a.answer, 256 * KIPPERTARN_SPLIT_BYTES);
    expect("its cost", a.cost, (uint64_t)2 * (30 * 31 / 2) * 65535 * 1000);
    q.gap[0][0] = KIPPERTARN_NEVER; /* the second cutter is cold: all jobs go to the first */
    a = split_with("the dearest split plan", &q, 0, 0);
    expect("the dearest split plan", a.answer, 256 * KIPPERTARN_SPLIT_BYTES);
    expect("its cost", a.cost, (uint64_t)(60 * 61 / 2) * 65535 * 1000);
}

/* The largest table there is, without a never or with some. */
static void largest(unsigned goal, int nevers)
{
    struct kippertarn_queue_record q = free_queue(5, goal, 3);
    for (unsigned i = 0; i < 60; i++)
        add_jobs(&q, 1 + (i * 7 + i / 5) % 5, 1);
    for (unsigned j = 0; j < 5; j++) {
        q.pupils[j] = between(990, 1000);
        for (unsigned i = 0; i <= 5; i++)
            q.gap[i][j] = nevers && (i * 2 + j) % 5 == 0 ? KIPPERTARN_NEVER : between(65000, 65535);
    }
    expect("the largest table", entries_of(&q), KIPPERTARN_ENTRIES_MOST);
    split_with("the largest table", &q, goal == 1 ? 0 : 5, 0);
}

/* A queue split over and over beside others. */
struct splitting {
    struct kippertarn_queue_record queue;
    uint32_t second_start;
    unsigned long different;
};

static void *split_again(void *of)
{
    struct splitting *s = of;
    uint8_t message[KIPPERTARN_QUEUE_BYTES], plan[2][KIPPERTARN_PLAN_BYTES] = { { 0 } };
    uint64_t table[2][700] = { { 0 } }, first, again;
    size_t length = kippertarn_write_queue_record(&s->queue, message, sizeof message), entries = entries_of(&s->queue);
    first = kippertarn_split(message, length, s->second_start, table[0], entries, plan[0], sizeof plan[0]);
    for (int i = 0; i < 300; i++) {
        again = kippertarn_split(message, length, s->second_start, table[1], entries, plan[1], sizeof plan[1]);
        s->different += again != first || memcmp(plan[0], plan[1], sizeof plan[0])
                        || memcmp(table[0], table[1], sizeof table[0]);
    }
    s->different += first % 256 != 0 && first != 17;
    return NULL;
}

static void in_threads(void)
{
    struct splitting splittings[4];
    pthread_t threads[4];
    for (int i = 0; i < 4; i++) {
        random_queue(&splittings[i].queue, 30, 700);
        permit_all(&splittings[i].queue);
        splittings[i].second_start = between(0, splittings[i].queue.kinds);
        splittings[i].different = 0;
        if (pthread_create(&threads[i], NULL, split_again, &splittings[i])) {
            printf("FAILED: no thread\n");
            exit(1);
        }
    }
    for (int i = 0; i < 4; i++) {
        pthread_join(threads[i], NULL);
        expect("splits of one queue in threads that differ", splittings[i].different, 0);
    }
}

/* One step outside what a split needs, or as the queue was made. */
static void permit_too_few(struct kippertarn_queue_record *q)
{
    unsigned j = below(q->kinds), how = below(4);
    if (q->jobs < 2 || how == 0)
        return;
    permit_all(q);
    if (how == 1)
        q->shift = q->jobs - 2;
    else if (how == 2)
        q->first[j] = 2;
    else
        q->last[j] = q->jobs - 1;
}

/* Most tables small, some larger, a few so large that shares are no longer planned one by one. */
static size_t table_limit(unsigned long round)
{
    return round % 2000 == 0 ? 40000 : round % 100 == 0 ? 6000 : round % 20 == 0 ? REF_SHARES_MOST : 120;
}

static int same_cutter(const struct kippertarn_cutter_record *record, const struct ref_orders *split, unsigned c)
{
    return record->jobs == split->jobs[c]
           && memcmp(record->job, split->job[c], record->jobs * sizeof *record->job) == 0;
}

/* What the unproved helper takes out of the split plan is what was split; it takes nothing out of a part of it, nor out
 * of it with a byte more. */
static void compare_record(const struct ref_answer *a, const struct kippertarn_queue_record *q)
{
    struct kippertarn_split_record record = { 0 };
    struct ref_orders split = { 0 };
    size_t other = below(2) ? a->plan_bytes + 1 : below((unsigned)a->plan_bytes);
    int read = kippertarn_read_split_record(&record, a->plan, a->plan_bytes);
    int same = read_split(q, a->plan, a->plan_bytes, &split) && record.goal == q->goal && record.cost == a->cost
               && same_cutter(&record.first, &split, 0) && same_cutter(&record.second, &split, 1);
    expect("the helper's split record", (uint64_t)(read && same), 1);
    expect("the helper's split record of too few or too many bytes",
           (uint64_t)kippertarn_read_split_record(&record, a->plan, other), 0);
}

static void random_split(unsigned long round)
{
    struct kippertarn_queue_record q;
    uint8_t message[KIPPERTARN_QUEUE_BYTES];
    size_t length, needed;
    random_queue(&q, 60, table_limit(round));
    if (below(10))
        permit_all(&q);
    else
        permit_too_few(&q);
    length = kippertarn_write_queue_record(&q, message, sizeof message);
    needed = entries_of(&q);
    uint32_t second_start = random_second_start(&q);
    size_t entries = below(20) == 0 ? below((unsigned)needed) : needed + (below(4) ? 0 : below(9)),
           plan_length = below(20) == 0 ? below(77) : 77 + (below(4) ? 0 : below(99));
    struct ref_answer a = compare_split("a random queue", message, length, second_start, entries, plan_length);
    if (a.answer % 256 == 0)
        compare_record(&a, &q);
    else if (a.answer % 256 == KIPPERTARN_TABLE)
        expect("what 16 carries", a.answer, KIPPERTARN_TABLE + kippertarn_table_entries(message, length));
}

static void random_small_split(void)
{
    struct kippertarn_queue_record q;
    random_queue(&q, SMALL, SIZE_MAX);
    permit_all(&q);
    compare_all_splits("a small queue", &q, between(0, q.kinds));
}

int main(int count, char **words)
{
    struct rounds rounds = rounds_from(count, words, 30000);
    static const unsigned refusals[5] = { 15, 16, 17, 19, 20 };
    char cases[240];
    unsigned long queues = 0;
    open_rooms();
    small_queues();
    forbidden();
    section_6_1();
    section_6_2();
    uncovered();
    no_jobs();
    second_starts();
    order_of_refusals();
    null_pointers();
    longest();
    in_threads();
    if (count < 2 || count > 3) {
        largest(1, 0);
        largest(2, 0);
        largest(1, 1);
        largest(2, 1);
    }
    while (another_round(&rounds)) {
        random_split(rounds.done);
        random_small_split();
        queues++;
    }
    for (unsigned i = 0; i < 5; i++)
        if (met_split[refusals[i]] < queues / 50) {
            printf("FAILED: refusal %u was met %lu times only\n", refusals[i], met_split[refusals[i]]);
            failures++;
        }
    unsigned long least = queues / 1000 * 5;
    expect_nevers(2 * queues);
    if (met_only_split < least || small_only < least || small_none < least) {
        printf("FAILED: %lu queues and %lu small ones only have a split and no order, %lu small ones no split\n",
               met_only_split, small_only, small_none);
        failures++;
    }
    snprintf(cases, sizeof cases,
             "chapter 6, %lu random queues, %lu small ones against %lu splits, %lu and %lu without a split, "
             "%lu and %lu with one and no order on one cutter",
             queues, queues, splits_tried, met_split[17], small_none, met_only_split, small_only);
    return summary("splits", cases);
}
