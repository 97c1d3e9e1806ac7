/* Document 01's small queues A to I, byte for byte, the example files that hold them, A with forbidden successions, how
 * much table to lend, and each refusal by hand. */
#include "lent.h"

static const uint8_t queue_a[] = { 0x51, 0x53, 0x01, 0x02, 0x01, 0x01, 0x00, 0x0A, 0x0A, 0x14, 0x32, 0x28,
                                   0x1E, 0x03, 0x01, 0x01, 0x3C, 0x01, 0x3C, 0x03, 0x01, 0x02, 0x01 };
static const uint8_t plan_a[] = { 0x51, 0x50, 0x01, 0x01, 0x46, 0x07, 0x03, 0x02, 0x01, 0x03 };
static const uint8_t plan_b[] = { 0x51, 0x50, 0x01, 0x02, 0xC8, 0x01, 0x07, 0x03, 0x01, 0x03, 0x02 };
#define NONE KIPPERTARN_NOT_KEPT
static const uint64_t table_a[] = { 0, 20, NONE, 50, 70, NONE, 0, 40, 60, NONE, NONE, NONE }; /* worked out by hand */

/* A with never from kind 2 to kind 1: of its three orders 1 3 2 is left. */
static const uint8_t queue_never[] = { 0x51, 0x53, 0x01, 0x02, 0x01, 0x01, 0x00, 0x0A, 0x0A, 0x14, 0x32, 0x80, 0x80,
                                       0x04, 0x1E, 0x03, 0x01, 0x01, 0x3C, 0x01, 0x3C, 0x03, 0x01, 0x02, 0x01 };
static const uint8_t plan_never[] = { 0x51, 0x50, 0x01, 0x01, 0x50, 0x05, 0x03, 0x01, 0x03, 0x02 };
static const uint64_t table_never[] = { 0, 20, NONE, 50, 70, NONE, 0, NONE, NONE, NONE, NONE, NONE };

/* Where A's numbers stand. */
enum { KINDS = 3, GOAL, SHIFT, START, GAPS, PUPILS = 13, A_1 = 15, A_2 = 17, JOBS = 19 };

struct message {
    uint8_t bytes[64];
    size_t length;
};

static struct message queue_of_a(void)
{
    struct message m = { { 0 }, sizeof queue_a };
    memcpy(m.bytes, queue_a, sizeof queue_a);
    return m;
}

/* A with another byte at one place. */
static struct message a_with(size_t at, uint8_t byte)
{
    struct message m = queue_of_a();
    m.bytes[at] = byte;
    return m;
}

/* A with some bytes in place of one. */
static struct message a_with_bytes(size_t at, const uint8_t *bytes, size_t count)
{
    struct message m = queue_of_a();
    memcpy(m.bytes + at, bytes, count);
    memcpy(m.bytes + at + count, queue_a + at + 1, sizeof queue_a - at - 1);
    m.length += count - 1;
    return m;
}

/* The example file of a case holds its message. */
static void expect_file(const char *name, const struct message *m)
{
    uint8_t bytes[200];
    size_t length = read_example(name, bytes, sizeof bytes);
    expect(name, length == m->length && memcmp(bytes, m->bytes, length) == 0, 1);
}

/* Plans a case with a table of exactly N x P entries, and holds it to these plan bytes; none stand for 17. */
static void expect_plan(const char *name, const struct message *m, size_t entries, const uint8_t *plan,
                        size_t plan_bytes)
{
    struct ref_answer a = compare_plan(name, m->bytes, m->length, entries, 77);
    expect(name, a.answer, plan_bytes ? 256 * plan_bytes : 17);
    expect(name, a.plan_bytes == plan_bytes && (!plan || memcmp(a.plan, plan, plan_bytes) == 0), 1);
    a = compare_plan(name, m->bytes, m->length, entries - 1, 77);
    expect(name, a.answer, 16 + 256 * entries);
    expect_file(name, m);
}

static void small_queues(void)
{
    struct message a = queue_of_a(), b = a_with(GOAL, 2), c = a_with(A_2, 3), d = a_with(A_1, 2), e = a_with(A_1, 3),
                   f = a_with(SHIFT, 0), g, h;
    struct message f_none = f;
    uint64_t table[12];
    uint8_t plan[KIPPERTARN_PLAN_BYTES];
    /* 01 gives these orders and costs; the kept counts of C, D and H are counted by hand. */
    static const uint8_t plan_c[] = { 0x51, 0x50, 1, 1, 80, 5, 3, 1, 3, 2 },
                         plan_d[] = { 0x51, 0x50, 1, 1, 70, 6, 3, 2, 1, 3 },
                         plan_f[] = { 0x51, 0x50, 1, 1, 100, 3, 3, 1, 2, 3 }, plan_g[] = { 0x51, 0x50, 1, 1, 0, 0, 0 },
                         plan_h[] = { 0x51, 0x50, 1, 1, 0, 4, 2, 2, 1 };
    expect_plan("case-a", &a, 12, plan_a, sizeof plan_a);
    expect("A's table", kippertarn_plan(a.bytes, a.length, table, 12, plan, sizeof plan), 256 * sizeof plan_a);
    expect("A's table", (uint64_t)(memcmp(table, table_a, sizeof table_a) == 0), 1);
    expect_plan("case-b", &b, 12, plan_b, sizeof plan_b);
    expect_plan("case-c", &c, 12, plan_c, sizeof plan_c);
    expect_plan("case-d", &d, 12, plan_d, sizeof plan_d);
    expect_plan("case-e", &e, 12, NULL, 0);
    expect_plan("case-f", &f, 12, plan_f, sizeof plan_f);
    f_none.bytes[A_2] = 3;
    expect_plan("case-f-none", &f_none, 12, NULL, 0);
    g = a_with(JOBS, 0);
    g.length = JOBS + 1;
    expect_plan("case-g", &g, 2, plan_g, sizeof plan_g);
    h = a_with(JOBS, 2);
    memset(h.bytes + GAPS, 0, 6);
    h.bytes[JOBS + 1] = 2;
    h.bytes[JOBS + 2] = 1;
    h.length = JOBS + 3;
    expect_plan("case-h", &h, 8, plan_h, sizeof plan_h);
}

/* A with never for some of its gaps, which are numbered from gap (0, 1) on: 0 0 / 1 1 / 2 2. */
enum { COLD_1, COLD_2, FROM_1_TO_1, FROM_1_TO_2, FROM_2_TO_1, FROM_2_TO_2 };
#define NEVER(gap) (1u << (gap))

static struct message a_without(unsigned goal, unsigned start, const char *pupils, unsigned nevers)
{
    struct kippertarn_queue_record q = {
        .kinds = 2, .goal = goal, .shift = 1, .start = start, .gap = { { 10, 10 }, { 20, 50 }, { 40, 30 } },
        .pupils = { (unsigned)(pupils[0] - '0'), (unsigned)(pupils[1] - '0') }, .first = { 1, 1 }, .last = { 60, 60 },
        .jobs = 3, .kind = { 1, 2, 1 }
    };
    struct message m = { { 0 }, 0 };
    for (unsigned gap = 0; gap < 6; gap++)
        if (nevers & NEVER(gap))
            q.gap[gap / 2][gap % 2] = KIPPERTARN_NEVER;
    m.length = kippertarn_write_queue_record(&q, m.bytes, sizeof m.bytes);
    return m;
}

/* Plans it, and holds it to its table's kept entries, a bit for each, and to a cost and an order; no order is 17. */
static void expect_order(const char *what, struct message m, unsigned kept, uint64_t cost, const char *order)
{
    struct ref_answer a = compare_plan(what, m.bytes, m.length, 12, 77);
    struct kippertarn_plan_record plan = { 0 };
    uint64_t table[12], answer;
    uint8_t bytes[KIPPERTARN_PLAN_BYTES];
    unsigned bits = 0, count = 0;
    answer = kippertarn_plan(m.bytes, m.length, table, 12, bytes, sizeof bytes);
    expect(what, answer, a.answer);
    for (unsigned i = 0; i < 12; i++)
        if (table[i] != NONE) {
            bits |= 1u << i;
            count++;
        }
    expect(what, bits, kept);
    if (!order) {
        expect(what, answer, 17);
        return;
    }
    expect(what, (uint64_t)kippertarn_read_plan_record(&plan, bytes, KIPPERTARN_V(answer)), 1);
    expect(what, plan.cost, cost);
    expect(what, plan.kept, count);
    for (unsigned i = 0; i < 3; i++)
        expect(what, plan.job[i], (uint64_t)(order[i] - '0'));
}

/* Worked out by hand. A's orders 1 2 3, 2 1 3 and 1 3 2 have the kinds 1 2 1, 2 1 1 and 1 1 2; its kept entries are 0,
 * 1, 3, 4, 6, 7 and 8. A never takes away those whose states have no way on without it; what comes before a state takes
 * none away. */
static void nevers(void)
{
    enum { ALL = 0x1DB }; /* of A's entries */
    unsigned diagonal = NEVER(FROM_1_TO_1) | NEVER(FROM_2_TO_2), row_0 = NEVER(COLD_1) | NEVER(COLD_2);
    struct message m = a_without(1, 0, "31", NEVER(FROM_2_TO_1));
    uint64_t table[12];
    uint8_t plan[KIPPERTARN_PLAN_BYTES];
    expect("A without 1 after 2", m.length == sizeof queue_never && memcmp(m.bytes, queue_never, m.length) == 0, 1);
    expect("A without 1 after 2", kippertarn_plan(m.bytes, m.length, table, 12, plan, sizeof plan),
           256 * sizeof plan_never);
    expect("A without 1 after 2", memcmp(plan, plan_never, sizeof plan_never) == 0, 1);
    expect("A without 1 after 2", memcmp(table, table_never, sizeof table_never) == 0, 1);
    expect_order("A without 1 after 2", m, 0x05B, 80, "132");
    expect_order("A without a never", a_without(1, 0, "31", 0), ALL, 70, "213");
    /* the most seconds are none the less seconds: the same order, and all states kept */
    memcpy(m.bytes + GAPS + 4, (const uint8_t[]){ 0xFF, 0xFF, 0x03 }, 3);
    expect_order("A with 65535 from 2 to 1", m, ALL, 80, "132");
    /* 1 2 3 costs 100 and 1 3 2 costs 80; a state's own start is not looked at */
    expect_order("A without 2 first", a_without(1, 0, "31", NEVER(COLD_2)), ALL, 80, "132");
    expect_order("A without 1 first", a_without(1, 0, "31", NEVER(COLD_1)), ALL, 70, "213");
    /* with row 0 all never a cold cutter has no order; after 2 the costs are 130, 90 and 110, and row 0 is not read */
    expect_order("A without any first", a_without(1, 0, "31", row_0), ALL, 0, NULL);
    expect_order("A without any first, after 2", a_without(1, 2, "31", row_0), ALL, 90, "213");
    /* the start's row is looked at for the first job: after 2 without 2 again 130 and 110 are left */
    expect_order("A after 2, without 2 after 2", a_without(1, 2, "31", NEVER(FROM_2_TO_2)), ALL, 110, "132");
    /* no kind twice in a row: 1 2 3 is left, and entries 1 and 8, which need 1 after 1, are gone */
    expect_order("A without repeats", a_without(1, 0, "31", diagonal), 0x0D9, 100, "123");
    /* with no pupils every order costs 0, and a never is no less a never */
    expect_order("B without pupils", a_without(2, 0, "00", 0), ALL, 0, "132");
    expect_order("B without pupils, without repeats", a_without(2, 0, "00", diagonal), 0x0D9, 0, "123");
    expect_order("B without pupils, any first", a_without(2, 0, "00", row_0), ALL, 0, NULL);
    /* 1 and 2 never side by side: every job may stand somewhere, and no order is left. Entries 0, 1 and 6 are kept. */
    expect_order("A without changes", a_without(1, 0, "31", NEVER(FROM_1_TO_2) | NEVER(FROM_2_TO_1)), 0x043, 0, NULL);
    expect_order("A without anything", a_without(1, 1, "31", 0x3F), 0x041, 0, NULL);
    /* no jobs have the empty order, whatever is forbidden */
    m = a_without(1, 0, "31", 0x3F);
    m.bytes[m.length - 4] = 0;
    m.length -= 3;
    expect("no jobs, all never", compare_plan("no jobs, all never", m.bytes, m.length, 2, 77).answer, 256 * 7);
}

/* Both sizes of a queue, by hand. */
static void expect_sizes(const char *what, const uint8_t *message, size_t length, uint64_t entries, uint64_t states)
{
    int as_queue, as_plan;
    compare_checks(what, message, length, &as_queue, &as_plan);
    expect(what, kippertarn_table_entries(message, length), 256 * entries);
    expect(what, kippertarn_most_kept(message, length), 256 * states);
}

/* The same of a queue with so many jobs of each kind; that few orders or none are permitted does not matter. */
static void expect_counts(const char *what, unsigned kinds, const unsigned *jobs, uint64_t entries, uint64_t states)
{
    struct kippertarn_queue_record q = { .kinds = kinds, .goal = 1 };
    uint8_t message[KIPPERTARN_QUEUE_BYTES];
    for (unsigned j = 0; j < kinds; j++) {
        q.first[j] = q.last[j] = 9;
        for (unsigned i = 0; i < jobs[j]; i++)
            q.kind[q.jobs++] = j + 1;
    }
    expect_sizes(what, message, kippertarn_write_queue_record(&q, message, sizeof message), entries, states);
}

#define COUNTS(...) sizeof((const unsigned[]){ __VA_ARGS__ }) / sizeof(unsigned), (const unsigned[]){ __VA_ARGS__ }

/* 02's sum over L of K_L times all other (K_j + 1). */
static void sizes(void)
{
    struct message a = queue_of_a(), e = a_with(A_1, 3), g = a_with(JOBS, 0), never = a_without(1, 1, "31", 0x3F);
    uint8_t chapter5[KIPPERTARN_QUEUE_BYTES];
    size_t length = read_example("chapter5-goal1", chapter5, sizeof chapter5);
    expect_sizes("A: 2 x 2 + 1 x 3 states", a.bytes, a.length, 12, 7);
    expect_sizes("E, which has no order", e.bytes, e.length, 12, 7);
    expect_sizes("A with every gap never", never.bytes, never.length, 12, 7);
    expect_sizes("G", g.bytes, JOBS + 1, 2, 0);
    expect_sizes("chapter 5: 5 x 35 + 6 x 30 + 4 x 42 states", chapter5, length, 630, 523);
    expect_counts("no jobs of 5 kinds", COUNTS(0, 0, 0, 0, 0), 5, 0);
    expect_counts("a kind without jobs", COUNTS(2, 0), 6, 2);
    expect_counts("the other kind without jobs", COUNTS(0, 2), 6, 2);
    expect_counts("one job of the last of 5 kinds", COUNTS(0, 0, 0, 0, 1), 10, 1);
    expect_counts("60 jobs of one kind", COUNTS(60), 61, 60);
    expect_counts("60 jobs of one kind of 5", COUNTS(0, 0, 60, 0, 0), 305, 60);
    expect_counts("60 jobs of 5 kinds, 12 each", COUNTS(12, 12, 12, 12, 12), 1856465, 1713660);
    expect_counts("1, 2, 3, 4 and 5 jobs", COUNTS(1, 2, 3, 4, 5), 3600, 2556);
}

static void expect_refusal(const char *what, struct message m, int refusal)
{
    int as_queue, as_plan;
    compare_checks(what, m.bytes, m.length, &as_queue, &as_plan);
    expect(what, (uint64_t)as_queue, (uint64_t)refusal);
    if (refusal) {
        expect(what, kippertarn_table_entries(m.bytes, m.length), (uint64_t)refusal);
        expect(what, kippertarn_most_kept(m.bytes, m.length), (uint64_t)refusal);
    }
    compare_plan(what, m.bytes, m.length, 12, 77);
    compare_split(what, m.bytes, m.length, 0, 12, 77);
    compare_split(what, m.bytes, m.length, 3, 0, 0);
}

#define WITH(at, ...) a_with_bytes(at, (const uint8_t[]){ __VA_ARGS__ }, sizeof(const uint8_t[]){ __VA_ARGS__ })

static void refusals(void)
{
    for (size_t cut = 0; cut < sizeof queue_a; cut++) {
        struct message m = queue_of_a();
        m.length = cut;
        expect_refusal("A cut off", m, cut < 2 ? 1 : 2);
    }
    expect_refusal("I: 00 is 0", WITH(GAPS, 0x00), 0);
    expect_refusal("I: 80 00", WITH(GAPS, 0x80, 0x00), 3);
    expect_refusal("I: FF FF 03", WITH(GAPS, 0xFF, 0xFF, 0x03), 0);
    expect_refusal("I: 80 80 04 as a gap is never", WITH(GAPS, 0x80, 0x80, 0x04), 0);
    expect_refusal("81 80 04 as a gap", WITH(GAPS, 0x81, 0x80, 0x04), 9);
    expect_refusal("81 80 04 as the last gap", WITH(PUPILS - 1, 0x81, 0x80, 0x04), 9);
    expect_refusal("80 80 04 as pupils", WITH(PUPILS, 0x80, 0x80, 0x04), 10);
    expect_refusal("80 80 00", WITH(GAPS, 0x80, 0x80, 0x00), 3);
    expect_refusal("80 80 80", WITH(GAPS, 0x80, 0x80, 0x80), 3);
    expect_refusal("I: 81 at the end", (struct message){ { 0x51, 0x53, 0x81 }, 3 }, 2);
    expect_refusal("80 80 80 at the end", (struct message){ { 0x51, 0x53, 0x80, 0x80, 0x80 }, 5 }, 3);
    expect_refusal("edition 2", a_with(2, 2), 4);
    expect_refusal("edition 1 in two groups", WITH(2, 0x81, 0x00), 3);
    expect_refusal("no kinds", a_with(KINDS, 0), 5);
    expect_refusal("six kinds", a_with(KINDS, 6), 5);
    expect_refusal("goal 0", a_with(GOAL, 0), 6);
    expect_refusal("goal 3", a_with(GOAL, 3), 6);
    expect_refusal("shift 60", a_with(SHIFT, 60), 0);
    expect_refusal("shift 61", a_with(SHIFT, 61), 7);
    expect_refusal("start 2 of 2", a_with(START, 2), 0);
    expect_refusal("start 3 of 2", a_with(START, 3), 8);
    expect_refusal("1000 pupils", WITH(PUPILS, 0xE8, 0x07), 0);
    expect_refusal("1001 pupils", WITH(PUPILS, 0xE9, 0x07), 10);
    expect_refusal("first place 0", a_with(A_1, 0), 11);
    expect_refusal("first place 61", a_with(A_1, 61), 11);
    expect_refusal("last place 61", a_with(A_1 + 1, 61), 11);
    expect_refusal("first place 0, last place in two groups",
                   (struct message){ { 0x51, 0x53, 1, 1, 1, 0, 0, 0, 0, 0, 0, 0x80, 0x00 }, 13 }, 3);
    expect_refusal("first place 0 and no more", (struct message){ { 0x51, 0x53, 1, 1, 1, 0, 0, 0, 0, 0, 0 }, 11 }, 2);
    expect_refusal("61 jobs and no more", (struct message){ { 0x51, 0x53, 1, 1, 1, 0, 0, 0, 0, 0, 1, 1, 61 }, 13 }, 12);
    expect_refusal("kind 0", a_with(JOBS + 1, 0), 13);
    expect_refusal("kind 3 of 2", a_with(JOBS + 1, 3), 13);
    expect_refusal("a byte left over", WITH(JOBS + 3, 0x01, 0x01), 14);
    expect_refusal("a plan's opening", a_with(1, 0x50), 1);
    for (size_t cut = 0; cut < sizeof plan_a; cut++)
        expect("A's plan cut off", kippertarn_check_plan(plan_a, cut), cut < 2 ? 1 : 2);
    expect("A's plan", kippertarn_check_plan(plan_a, sizeof plan_a), 0);
    expect("B's plan", kippertarn_check_plan(plan_b, sizeof plan_b), 0);
    expect("a job twice", kippertarn_check_plan((const uint8_t[]){ 0x51, 0x50, 1, 1, 0, 0, 2, 1, 1 }, 9), 18);
    expect("job 0", kippertarn_check_plan((const uint8_t[]){ 0x51, 0x50, 1, 1, 0, 0, 2, 0 }, 8), 18);
    expect("job 5 of 2 and no more", kippertarn_check_plan((const uint8_t[]){ 0x51, 0x50, 1, 1, 0, 0, 2, 5 }, 8), 18);
    expect("a cost of 2^42 - 1, no jobs",
           kippertarn_check_plan((const uint8_t[]){ 0x51, 0x50, 1, 1, 255, 255, 255, 255, 255, 127, 0, 0 }, 12), 0);
    expect("a cost of seven groups",
           kippertarn_check_plan((const uint8_t[]){ 0x51, 0x50, 1, 1, 128, 128, 128, 128, 128, 128, 1, 0, 0 }, 13), 3);
}

/* Bounds of the messages' lengths that 01 states, reached. */
static void longest(void)
{
    struct kippertarn_queue_record q = { .kinds = 5, .goal = 1, .jobs = 60 };
    uint8_t message[4000] = { 0 },
            plan[KIPPERTARN_PLAN_DECIDING_BYTES] = { 0x51, 0x50, 1,   2,   255, 255, 255, 255, 255,
                                                     127,  255,  255, 255, 255, 255, 127, 60 };
    for (unsigned j = 0; j < 5; j++) {
        q.pupils[j] = 1000;
        q.first[j] = q.last[j] = 60;
        for (unsigned i = 0; i <= 5; i++)
            q.gap[i][j] = i == j ? KIPPERTARN_NEVER : KIPPERTARN_GAP_MOST;
    }
    for (unsigned i = 0; i < 60; i++) {
        q.kind[i] = 1 + i % 5;
        plan[17 + i] = (uint8_t)(i + 1);
    }
    expect("the longest queue", kippertarn_write_queue_record(&q, message, sizeof message), KIPPERTARN_QUEUE_BYTES);
    expect("the longest queue", kippertarn_check_queue(message, KIPPERTARN_QUEUE_BYTES), 0);
    expect("the longest queue in too little room",
           kippertarn_write_queue_record(&q, message, KIPPERTARN_QUEUE_BYTES - 1), 0);
    expect("and a byte", kippertarn_check_queue(message, KIPPERTARN_QUEUE_BYTES + 1), 14);
    expect("and many bytes", kippertarn_check_queue(message, sizeof message), 14);
    memcpy(message + 177, (const uint8_t[]){ 0x81, 0x80, 0x01 }, 3); /* a reader looks at 180 bytes at most */
    expect("its last kind in three bytes", kippertarn_check_queue(message, KIPPERTARN_QUEUE_DECIDING_BYTES), 13);
    expect("its last kind cut off", kippertarn_check_queue(message, KIPPERTARN_QUEUE_DECIDING_BYTES - 1), 2);
    message[179] = 0x80;
    expect("its last kind without an end", kippertarn_check_queue(message, 180), 3);
    message[179] = 0;
    expect("its last kind ended by 00", kippertarn_check_queue(message, 180), 3);
    expect("the longest plan", kippertarn_check_plan(plan, KIPPERTARN_PLAN_BYTES), 0);
    memcpy(plan + 76, (const uint8_t[]){ 0x81, 0x80, 0x01 }, 3);
    expect("its last job in three bytes", kippertarn_check_plan(plan, KIPPERTARN_PLAN_DECIDING_BYTES), 18);
    expect("its last job cut off", kippertarn_check_plan(plan, KIPPERTARN_PLAN_DECIDING_BYTES - 1), 2);
    q.jobs = 61;
    expect("61 jobs have no room in a record", kippertarn_write_queue_record(&q, message, sizeof message), 0);
}

/* A cut off behind one of its numbers: at a limit of the header the number is accepted, and 2 is due; one more is
 * refused. */
static void expect_limit(const char *what, size_t at, uint64_t most, uint64_t refusal)
{
    struct message m = queue_of_a();
    struct kippertarn_message_place to = { m.bytes, sizeof m.bytes, at };
    kippertarn_put_number(&to, most);
    expect(what, kippertarn_check_queue(m.bytes, to.at), KIPPERTARN_ENDS);
    to.at = at;
    kippertarn_put_number(&to, most + 1);
    expect(what, kippertarn_check_queue(m.bytes, to.at), refusal);
}

static void limits(void)
{
    expect_limit("kinds", KINDS, KIPPERTARN_KINDS_MOST, KIPPERTARN_KINDS);
    expect_limit("shift", SHIFT, KIPPERTARN_SHIFT_MOST, KIPPERTARN_SHIFT);
    expect_limit("gap", GAPS, KIPPERTARN_NEVER, KIPPERTARN_GAP);
    expect("never is the next to the most seconds", KIPPERTARN_NEVER, KIPPERTARN_GAP_MOST + 1);
    expect_limit("pupils", PUPILS, KIPPERTARN_PUPILS_MOST, KIPPERTARN_PUPILS);
    expect_limit("last place", A_1 + 1, KIPPERTARN_PLACE_MOST, KIPPERTARN_PLACES);
    expect_limit("jobs", JOBS, KIPPERTARN_JOBS_MOST, KIPPERTARN_JOBS);
}

/* The version is one in string, number and archive. */
static void version(void)
{
    unsigned major = 0, minor = 0, patch = 0;
    char rest;
    expect("parts of the version", (uint64_t)sscanf(KIPPERTARN_VERSION, "%u.%u.%u%c", &major, &minor, &patch, &rest),
           3);
    expect("the header's version", 1000000 * major + 1000 * minor + patch, KIPPERTARN_VERSION_NUMBER);
    expect("the archive's version", kippertarn_version(), KIPPERTARN_VERSION_NUMBER);
}

int main(void)
{
    open_rooms();
    small_queues();
    nevers();
    sizes();
    refusals();
    longest();
    limits();
    version();
    return summary("cases", "01's queues A to I, forbidden successions, sizes and the refusals by hand");
}
