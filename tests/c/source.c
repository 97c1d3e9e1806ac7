/* Costs, orders and shifts that source document 000 prints: chapter 4's cases 1 to 9 and chapter 5's cases 1 to 5. The
 * percentages beside them are not repeated here. */
#include "lent.h"

/* Section 4.3's three matrices. */
static const unsigned first_rows[3][3] = { { 70, 100, 130 }, { 70, 80, 110 }, { 70, 80, 90 } };
static const unsigned contrived_rows[3][3] = { { 300, 25, 30 }, { 18, 400, 35 }, { 25, 20, 450 } };
static const unsigned jet_rows[3][3] = { { 96, 181, 228 }, { 72, 80, 117 }, { 72, 80, 90 } };

/* A queue of three kinds without jobs yet, all places allowed; row 0 isn't read. */
static struct kippertarn_queue_record queue_of(unsigned start, unsigned goal, const unsigned rows[3][3], unsigned p1,
                                               unsigned p2, unsigned p3)
{
    struct kippertarn_queue_record q = {
        .kinds = 3, .goal = goal, .shift = 60, .start = start, .pupils = { p1, p2, p3 }
    };
    for (unsigned j = 0; j < 3; j++) {
        q.first[j] = 1;
        q.last[j] = 60;
        for (unsigned i = 0; i < 3; i++)
            q.gap[i + 1][j] = rows[i][j];
    }
    return q;
}

static void add_jobs(struct kippertarn_queue_record *q, const char *kinds)
{
    for (; *kinds; kinds++)
        q->kind[q->jobs++] = (unsigned)(*kinds - '0');
}

/* Both measures of an order, and how far it moves a job. */
struct measures {
    uint64_t last_finish, waiting;
    unsigned moved;
    char kinds[61];
};

/* Plans a queue by the part, held to the reference on the way, and measures the planned order. */
static struct measures plan(const char *what, const struct kippertarn_queue_record *q, uint64_t *kept, size_t entries)
{
    struct measures m = { 0, 0, 0, "" };
    struct kippertarn_plan_record planned = { 0 };
    uint8_t message[KIPPERTARN_QUEUE_BYTES];
    size_t length = kippertarn_write_queue_record(q, message, sizeof message);
    struct ref_answer a = compare_plan(what, message, length, entries, 77);
    unsigned before = q->start;
    expect(what, (uint64_t)(a.answer % 256 == 0 && kippertarn_read_plan_record(&planned, a.plan, a.plan_bytes)), 1);
    for (unsigned place = 1; place <= planned.jobs; place++) {
        unsigned i = planned.job[place - 1], j = q->kind[i - 1], moved = i > place ? i - place : place - i;
        m.last_finish += q->gap[before][j - 1];
        m.waiting += q->pupils[j - 1] * m.last_finish;
        m.moved = moved > m.moved ? moved : m.moved;
        m.kinds[place - 1] = (char)('0' + j);
        before = j;
    }
    expect(what, planned.cost, q->goal == 1 ? m.last_finish : m.waiting);
    *kept = planned.kept;
    return m;
}

/* A case of chapter 4, with the source's counts of each category; 0 where it prints no figure, no kinds where it
 * clusters none. */
static void unconstrained(const char *what, struct kippertarn_queue_record q, unsigned k1, unsigned k2, unsigned k3,
                          const char *kinds, uint64_t last_finish, uint64_t waiting)
{
    uint64_t kept;
    for (unsigned round = 0; round < 5; round++) /* dealt out in turn */
        for (unsigned j = 1; j <= 3; j++)
            if (round < (j == 1 ? k1 : j == 2 ? k2 : k3))
                q.kind[q.jobs++] = j;
    struct measures m = plan(what, &q, &kept, KIPPERTARN_ENTRIES(3, k1, k2, k3, 0, 0));
    if (kinds)
        expect(what, (uint64_t)(strcmp(m.kinds, kinds) == 0), 1);
    for (unsigned place = 1; !kinds && place < q.jobs; place++)
        expect(what, m.kinds[place] == m.kinds[place - 1], 0);
    if (last_finish)
        expect(what, m.last_finish, last_finish);
    if (waiting)
        expect(what, m.waiting, waiting);
    expect("every state is kept", kept,
           (uint64_t)k1 * (k2 + 1) * (k3 + 1) + (uint64_t)(k1 + 1) * k2 * (k3 + 1)
               + (uint64_t)(k1 + 1) * (k2 + 1) * k3);
}

/* 000, section 4.3. Orders are those that its text tells of each figure. */
static void chapter_4(void)
{
    /* "1,220 seconds (the minimum) while the Total Passenger Delay was 1,299,000" */
    unconstrained("case 1", queue_of(2, 1, first_rows, 150, 120, 100), 5, 5, 5, "222223333311111", 1220, 1299000);
    /* "1,053,500 passenger-seconds (the minimum) .. a longer Last Landing Time (1240 seconds)" */
    unconstrained("case 2", queue_of(2, 2, first_rows, 150, 120, 100), 5, 5, 5, "111112222233333", 1240, 1053500);
    /* "Last Landing Time is 770 seconds (the minimum) and Total Passenger Delay is 408,300 .. (also the minimum)" */
    unconstrained("case 3", queue_of(1, 1, first_rows, 150, 120, 100), 2, 4, 3, "112222333", 770, 408300);
    unconstrained("case 4", queue_of(1, 2, first_rows, 150, 120, 100), 2, 4, 3, "112222333", 770, 408300);
    /* "the optimal sequence involves no category clustering" */
    unconstrained("case 5", queue_of(2, 2, contrived_rows, 150, 120, 100), 3, 3, 3, NULL, 0, 0);
    /* "The Total Passenger Delay is 936,750" */
    unconstrained("case 6", queue_of(2, 2, jet_rows, 300, 150, 100), 2, 5, 5, "112222233333", 0, 936750);
    /* "One group of 4 planes, which leads the queue, and a single B707 which follows the B747 .. 758550" */
    unconstrained("case 7", queue_of(2, 2, jet_rows, 300, 150, 100), 1, 5, 5, "22221233333", 0, 758550);
    /* "1,087,000 and 1,121,500", orders 1-2-3 and 3-1-2 */
    unconstrained("case 8", queue_of(3, 2, first_rows, 110, 110, 120), 5, 5, 5, "111112222233333", 0, 1087000);
    unconstrained("case 9", queue_of(3, 2, first_rows, 110, 110, 130), 5, 5, 5, "333331111122222", 0, 1121500);
}

/* 000, after case 7: the B747 "at the head of the queue .. 766,350", and "between the B707's and the DC-9's ..
 * 761,600". The allowed places hold each category where the text has it. */
static void further_analysis_of_case_7(unsigned place, const char *kinds, uint64_t waiting)
{
    struct kippertarn_queue_record q = queue_of(2, 2, jet_rows, 300, 150, 100);
    uint64_t kept;
    add_jobs(&q, "12323232323");
    q.first[0] = q.last[0] = place;
    q.last[1] = 6;
    q.first[2] = 7;
    struct measures m = plan("case 7, the B747 moved", &q, &kept, KIPPERTARN_ENTRIES(3, 1, 5, 5, 0, 0));
    expect("case 7, the B747 moved", (uint64_t)(strcmp(m.kinds, kinds) == 0), 1);
    expect("case 7, the B747 moved", m.waiting, waiting);
}

/* Chapter 5's queue; section 5.4 prints fourteen landings for T = 15, and 01 gives back the lost one, kind 1 in tenth
 * place. */
static struct measures shifted(unsigned goal, unsigned shift, uint64_t *kept)
{
    struct kippertarn_queue_record q = queue_of(2, goal, jet_rows, 300, 150, 100);
    q.shift = shift;
    add_jobs(&q, "113223212133212");
    return plan("chapter 5", &q, kept, 630);
}

/* The example file is this queue at shift 14. */
static void example_file(unsigned goal)
{
    const char *name = goal == 1 ? "chapter5-goal1" : "chapter5-goal2";
    uint8_t message[200];
    size_t length = read_example(name, message, sizeof message);
    struct ref_answer a = compare_plan(name, message, length, 630, 77);
    expect(name, a.cost, goal == 1 ? 1323 : 1664900);
    expect(name, a.kept, 523);
}

/* 000, section 5.4; 01 repeats the minima. */
static void chapter_5(void)
{
    static const struct {
        unsigned goal, shift;
        uint64_t last_finish, waiting, average;
    } printed[] = {
        { 1, 0, 1729, 2383800, 851 },  { 2, 0, 1729, 2383800, 851 },  /* case 1, "independent of whether Z=1 or 2" */
        { 1, 5, 1400, 2033800, 726 },  { 2, 5, 1528, 1883250, 673 },  /* cases 2 and 3 */
        { 1, 14, 1323, 2241300, 800 }, { 2, 14, 1424, 1664900, 595 }, /* cases 4 and 5 */
    };
    uint64_t kept;
    for (size_t i = 0; i < sizeof printed / sizeof *printed; i++) {
        struct measures m = shifted(printed[i].goal, printed[i].shift, &kept);
        expect("chapter 5, last landing time", m.last_finish, printed[i].last_finish);
        expect("chapter 5, total passenger delay", m.waiting, printed[i].waiting);
        expect("chapter 5, average of 2800 passengers", (m.waiting + 1400) / 2800, printed[i].average);
        if (printed[i].shift == 14)
            expect("01: kept is 523 of 630 entries", kept, 523);
        if (printed[i].shift == 0)
            expect("kept at shift 0", kept, 15);
    }
    /* "the actual maximum shifts achieved are lower (-10 in Case 4 and 9, -9 in Case 5)" */
    expect("case 4's largest shift", shifted(1, 14, &kept).moved, 10);
    expect("case 5's largest shift", shifted(2, 14, &kept).moved, 9);
    /* "a value of MPS=10 would do for Z=1 and a value of MPS = 9 for Z=2" */
    expect("goal 1 at shift 10", shifted(1, 10, &kept).last_finish, 1323);
    expect("goal 2 at shift 9", shifted(2, 9, &kept).waiting, 1664900);
    expect("goal 1 at shift 9", shifted(1, 9, &kept).last_finish, 1400);
    example_file(1);
    example_file(2);
}

int main(void)
{
    open_rooms();
    chapter_4();
    further_analysis_of_case_7(1, "12222233333", 766350);
    further_analysis_of_case_7(6, "22222133333", 761600);
    chapter_5();
    return summary("source", "costs and orders of chapter 4's cases 1 to 9 and of chapter 5");
}
