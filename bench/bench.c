/* Time and stack of planning and splitting, beside both written by hand in C and compiled at -O3: same messages, same
 * tables, same answers. With BEFORE defined an earlier archive is measured too, its entries renamed to before_plan and
 * before_split. */
#define _DEFAULT_SOURCE /* for clock_gettime and threads with a stack of their own */

#include "kippertarn.h"
#include "plain.h"

#include <pthread.h>
#include <stdio.h>
#include <time.h>

/* The two calls of a planner. */
struct planner {
    uint64_t (*plan)(const uint8_t *, uint64_t, uint64_t *, uint64_t, uint8_t *, uint64_t);
    uint64_t (*split)(const uint8_t *, uint64_t, uint32_t, uint64_t *, uint64_t, uint8_t *, uint64_t);
};

#ifdef BEFORE
uint64_t before_plan(const uint8_t *, uint64_t, uint64_t *, uint64_t, uint8_t *, uint64_t);
uint64_t before_split(const uint8_t *, uint64_t, uint32_t, uint64_t *, uint64_t, uint8_t *, uint64_t);
#endif

/* volatile: all are called in the same way, and none is melted into a loop */
static const volatile struct planner planners[] = {
    { kippertarn_plan, kippertarn_split },
    { plain_plan, plain_split },
#ifdef BEFORE
    { before_plan, before_split },
#endif
};
enum { PART, BY_HAND, EARLIER, PLANNERS = sizeof planners / sizeof *planners };

/* A plan; a split over cutters that cut kinds 2 and 1 last; a split over two cold cutters. */
enum call { PLAN, SPLIT, COLD_SPLIT };

/* A queue to plan, or to split, and what that is done in. */
struct work {
    enum call call;
    uint32_t second_start;
    uint8_t message[KIPPERTARN_QUEUE_BYTES], plan[KIPPERTARN_PLAN_BYTES];
    size_t length, entries;
    uint64_t *table;
};

enum { PASSES = 6, ROUNDS = 6 }; /* passes over all sizes, so that a busy moment spoils no line */

/* Processor time in milliseconds, so that other work on the machine counts less. */
static double now(void)
{
    struct timespec t;
    clock_gettime(CLOCK_THREAD_CPUTIME_ID, &t);
    return (double)t.tv_sec * 1e3 + (double)t.tv_nsec / 1e6;
}

/* Plans or splits in this table and this plan buffer. */
static uint64_t answer(const volatile struct planner *by, const struct work *w, uint64_t *table, uint8_t *plan)
{
    return w->call == PLAN
               ? by->plan(w->message, w->length, table, w->entries, plan, KIPPERTARN_PLAN_BYTES)
               : by->split(w->message, w->length, w->second_start, table, w->entries, plan, KIPPERTARN_PLAN_BYTES);
}

/* Milliseconds of one call, over `times` calls. The table is as the last call left it: it is not cleared first. */
static double time_calls(const volatile struct planner *by, struct work *w, unsigned times)
{
    double start = now();
    for (unsigned i = 0; i < times; i++)
        answer(by, w, w->table, w->plan);
    return (now() - start) / times;
}

/* A size to measure: so many jobs of each kind, dealt out in turn. */
struct size {
    unsigned kinds, jobs[5];
};

/* Chapter 5's gaps and pupils, with two kinds more; with nevers, a few successions are forbidden, which leaves many
 * orders. */
static void make_queue(struct work *w, enum call call, const struct size *size, unsigned goal, unsigned shift,
                       int nevers)
{
    static const unsigned rows[6][5] = { { 105, 130, 165, 120, 95 },
                                         { 96, 181, 228, 140, 75 },
                                         { 72, 80, 117, 101, 90 },
                                         { 72, 80, 90, 133, 118 },
                                         { 84, 95, 160, 77, 121 },
                                         { 110, 70, 99, 150, 85 } };
    static const unsigned pupils[5] = { 300, 150, 100, 220, 60 };
    struct kippertarn_queue_record q = { .kinds = size->kinds, .goal = goal, .shift = shift, .start = call == COLD_SPLIT ? 0 : 2 };
    memcpy(q.gap, rows, sizeof rows);
    if (nevers)
        q.gap[3][0] = q.gap[2][2] = q.gap[4][1] = q.gap[5][3] = KIPPERTARN_NEVER;
    memcpy(q.pupils, pupils, sizeof pupils);
    for (unsigned j = 0; j < size->kinds; j++) {
        q.first[j] = 1;
        q.last[j] = 60;
    }
    for (unsigned round = 0; round < 60; round++)
        for (unsigned j = 0; j < size->kinds; j++)
            if (round < size->jobs[j])
                q.kind[q.jobs++] = j + 1;
    w->call = call;
    w->second_start = call == COLD_SPLIT ? 0 : 1;
    w->length = kippertarn_write_queue_record(&q, w->message, sizeof w->message);
    w->entries = (size_t)KIPPERTARN_V(kippertarn_table_entries(w->message, w->length));
}

/* All planners leave the same answer, plan and table. */
static int same_answers(struct work *w)
{
    uint64_t *other = malloc(w->entries * sizeof *other);
    uint8_t plan[KIPPERTARN_PLAN_BYTES];
    uint64_t got = answer(&planners[PART], w, w->table, w->plan);
    int same = other && KIPPERTARN_R(got) == KIPPERTARN_DONE;
    for (int i = 1; same && i < PLANNERS; i++)
        same = answer(&planners[i], w, other, plan) == got && memcmp(other, w->table, w->entries * sizeof *other) == 0
               && memcmp(plan, w->plan, (size_t)KIPPERTARN_V(got)) == 0;
    free(other);
    return same;
}

/* One line of the benchmark. */
struct row {
    enum call call;
    const struct size *size;
    unsigned goal, shift;
    int nevers;
    size_t entries;
    double best[PLANNERS]; /* milliseconds */
};

/* Times all in turn, each of them first as often, and keeps the best of each. */
static void measure(struct work *w, struct row *r)
{
    make_queue(w, r->call, r->size, r->goal, r->shift, r->nevers);
    if (!same_answers(w)) {
        printf("FAILED: the %s differ at %zu entries, goal %u, shift %u%s\n", r->call == PLAN ? "plans" : "splits",
               w->entries, r->goal, r->shift, r->nevers ? ", with nevers" : "");
        exit(1);
    }
    r->entries = w->entries;
    for (int round = 0; round < ROUNDS; round++) {
        unsigned times = (unsigned)(200000 / w->entries) + 1;
        for (int i = 0; i < PLANNERS; i++) {
            int which = (i + round) % PLANNERS;
            double t = time_calls(&planners[which], w, times);
            r->best[which] = r->best[which] == 0 || t < r->best[which] ? t : r->best[which];
        }
    }
}

static void print_rows(const char *what, const struct row *r, int count)
{
    printf("%s\n%9s %5s %4s %5s %11s %9s %11s %9s %7s%s\n", what, "entries", "kinds", "goal", "shift", "part ms",
           "ns/entry", "by hand ms", "ns/entry", "ratio", PLANNERS > EARLIER ? "   before   ratio" : "");
    for (; count > 0; count--, r++) {
        double per_entry = 1e6 / (double)r->entries;
        printf("%9zu %5u %4u %5u %11.4f %9.2f %11.4f %9.2f %7.2f", r->entries, r->size->kinds, r->goal, r->shift,
               r->best[PART], r->best[PART] * per_entry, r->best[BY_HAND], r->best[BY_HAND] * per_entry,
               r->best[PART] / r->best[BY_HAND]);
#ifdef BEFORE
        printf(" %8.4f %7.3f", r->best[EARLIER], r->best[PART] / r->best[EARLIER]);
#endif
        printf("\n");
    }
}

static void print_growth(const struct row *r, int count)
{
    printf("Growth under goal 2, from each size to the next:");
    for (int i = 1; i < count; i++) {
        double work = (double)(r[i].entries * r[i].size->kinds) / (double)(r[i - 1].entries * r[i - 1].size->kinds);
        printf(" entries x kinds by %.1f, time by %.1f%s", work, r[i].best[PART] / r[i - 1].best[PART],
               i + 1 < count ? ";" : "\n");
    }
}

#define STACK (1024 * 1024)
static uint8_t stack[STACK] __attribute__((aligned(4096)));

/* The entries that are called on it, in the order of the header. */
static const char *const entries[] = { "check_queue", "check_plan", "table_entries", "most_kept", "plan", "split" };
enum { ENTRIES = sizeof entries / sizeof *entries };

struct measured {
    struct work *work;
    int entry; /* which of them */
    size_t used;
};

static void call(const struct measured *m)
{
    struct work *w = m->work;
    switch (m->entry) {
    case 0: kippertarn_check_queue(w->message, w->length); break;
    case 1: kippertarn_check_plan(w->plan, sizeof w->plan); break;
    case 2: kippertarn_table_entries(w->message, w->length); break;
    case 3: kippertarn_most_kept(w->message, w->length); break;
    case 4: kippertarn_plan(w->message, w->length, w->table, w->entries, w->plan, sizeof w->plan); break;
    default:
        kippertarn_split(w->message, w->length, w->second_start, w->table, w->entries, w->plan, sizeof w->plan);
    }
}

/* Runs in a thread on the stack above: paints what lies well below this frame, calls, and looks how far down the paint
 * is gone. */
static void *on_painted_stack(void *of)
{
    struct measured *m = of;
    uint8_t here;
    size_t top = (size_t)(&here - stack), unpainted = 256, bottom = 0;
    call(m); /* once before, so that the linker's own work isn't measured */
    for (size_t i = 0; i < top - unpainted; i++)
        ((volatile uint8_t *)stack)[i] = 0xA5;
    call(m);
    while (bottom < top && stack[bottom] == 0xA5)
        bottom++;
    m->used = top - bottom;
    return NULL;
}

static size_t stack_used(struct work *w, int entry)
{
    struct measured m = { w, entry, 0 };
    pthread_attr_t attributes;
    pthread_t thread;
    if (pthread_attr_init(&attributes) || pthread_attr_setstack(&attributes, stack, STACK)
        || pthread_create(&thread, &attributes, on_painted_stack, &m) || pthread_join(thread, NULL))
        return 0;
    return m.used;
}

/* Chapter 5 of the source, about 1,000, 10,000 and 100,000 entries, and the most there are. */
static const struct size sizes[] = {
    { 3, { 5, 6, 4 } },
    { 3, { 6, 6, 6 } },
    { 4, { 6, 6, 6, 6 } },
    { 5, { 7, 6, 6, 6, 6 } },
    { 5, { 12, 12, 12, 12, 12 } },
};
enum { SIZES = sizeof sizes / sizeof *sizes, GROUP = 2 * SIZES };

/* Groups of lines, each over all sizes and both goals. A small shift leaves few orders, and a split with one is 19. */
static const struct group {
    const char *what;
    enum call call;
    unsigned shift;
    int nevers;
} groups[] = {
    { "Planning", PLAN, 60, 0 },
    { "Planning, shift 6", PLAN, 6, 0 },
    { "Planning, shift 3", PLAN, 3, 0 },
    { "Splitting over two cutters", SPLIT, 60, 0 },
    { "Splitting over two cold cutters", COLD_SPLIT, 60, 0 },
    { "Planning with forbidden successions", PLAN, 60, 1 },
    { "Planning with forbidden successions, shift 6", PLAN, 6, 1 },
    { "Planning with forbidden successions, shift 3", PLAN, 3, 1 },
    { "Splitting with forbidden successions", SPLIT, 60, 1 },
    { "Splitting over two cold cutters with forbidden successions", COLD_SPLIT, 60, 1 },
};
enum { GROUPS = sizeof groups / sizeof *groups };

int main(void)
{
    static struct work w;
    static struct row rows[GROUPS][GROUP];
    for (int g = 0; g < GROUPS; g++)
        for (int i = 0; i < GROUP; i++)
            rows[g][i] = (struct row){ .call = groups[g].call,
                                       .size = &sizes[i % SIZES],
                                       .goal = i < SIZES ? 1 : 2,
                                       .shift = groups[g].shift,
                                       .nevers = groups[g].nevers };
    w.table = malloc(KIPPERTARN_ENTRIES_MOST * sizeof *w.table);
    if (!w.table)
        return 1;
    for (int pass = 0; pass < PASSES; pass++)
        for (int i = 0; i < GROUPS * GROUP; i++)
            measure(&w, &rows[i / GROUP][i % GROUP]);
    printf("Processor time, best of %d in turn; the table is not cleared between calls.\n", PASSES * ROUNDS);
    for (int g = 0; g < GROUPS; g++) {
        print_rows(groups[g].what, rows[g], GROUP);
        if (groups[g].shift == 60 && !groups[g].nevers && groups[g].call != COLD_SPLIT)
            print_growth(rows[g] + SIZES, SIZES);
    }
    make_queue(&w, COLD_SPLIT, &sizes[SIZES - 1], 2, 60, 0);
    printf("Bytes of stack:");
    for (int i = 0; i < ENTRIES; i++)
        printf(" %s %zu%s", entries[i], stack_used(&w, i), i + 1 < ENTRIES ? "," : "\n");
    free(w.table);
    return 0;
}
