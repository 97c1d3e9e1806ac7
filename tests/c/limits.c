/* Lent lengths from 0 up around each limit, null pointers, tables as long as the part asks and one entry shorter, and
 * calls in several threads at once. What may not be written is watched in every call (lent.h). */
#include "queues.h"

#include <pthread.h>

static unsigned long tables_asked;

/* One message with every pair of lengths around the limits. */
static void around_limits(const char *what, const uint8_t *message, size_t length)
{
    static const size_t buffers[] = { 0, 1, 10, 75, 76, 77, 78, 79, 178, 4000 };
    struct ref_answer asked = ref_plan(message, length, wanted_table, 0, 77);
    size_t needed = asked.answer % 256 == 16 ? (size_t)(asked.answer / 256) : 12;
    size_t tables[] = { 0, 1, needed / 2, needed - 1, needed, needed + 1, needed + 7, 2 * needed + 100 };
    for (size_t b = 0; b < sizeof buffers / sizeof *buffers; b++)
        for (size_t t = 0; t < sizeof tables / sizeof *tables; t++) {
            compare_plan(what, message, length, tables[t], buffers[b]);
            compare_split(what, message, length, below(8) ? 0 : below(8), tables[t], buffers[b]);
        }
}

/* A table of as many entries as the part asks for is not refused with 16, and one entry fewer always is; the same for
 * two cutters, where nothing else is refused first. */
static void lend_as_asked(const char *what, const uint8_t *message, size_t length)
{
    int as_queue, as_plan;
    compare_checks(what, message, length, &as_queue, &as_plan);
    uint64_t asked = kippertarn_table_entries(message, length);
    size_t entries = (size_t)KIPPERTARN_V(asked);
    if (KIPPERTARN_R(asked) != KIPPERTARN_DONE || entries == 0 || entries > REF_MOST)
        return; /* as a reader refuses it, or wrong: compared above */
    tables_asked++;
    expect(what, compare_plan(what, message, length, entries, 77).answer % 256 == KIPPERTARN_TABLE, 0);
    expect(what, compare_plan(what, message, length, entries - 1, 77).answer, KIPPERTARN_TABLE + asked);
    uint64_t split = compare_split(what, message, length, 0, entries, 77).answer;
    expect(what, split % 256 == KIPPERTARN_TABLE, 0);
    if (split != KIPPERTARN_UNCOVERED)
        expect(what, compare_split(what, message, length, 0, entries - 1, 77).answer, KIPPERTARN_TABLE + asked);
}

/* 01's cases and chapter 5, whole, cut off and with a byte more, and random queues. */
static void messages_around_limits(unsigned long random_queues)
{
    static const char *const names[] = { "case-a",      "case-b", "case-c", "case-d",         "case-e",        "case-f",
                                         "case-f-none", "case-g", "case-h", "chapter5-goal1", "chapter5-goal2" };
    uint8_t message[256];
    for (size_t i = 0; i < sizeof names / sizeof *names; i++) {
        size_t length = read_example(names[i], message, sizeof message - 1);
        around_limits(names[i], message, length);
        lend_as_asked(names[i], message, length);
        for (size_t cut = 0; cut < length; cut++) {
            compare_plan("an example cut off", message, cut, below(13), 76 + below(3));
            lend_as_asked("an example cut off", message, cut);
        }
        message[length] = 1;
        around_limits("an example with a byte more", message, length + 1);
        lend_as_asked("an example with a byte more", message, length + 1);
    }
    for (unsigned long i = 0; i < random_queues && failures < 5; i++) {
        struct kippertarn_queue_record q;
        random_queue(&q, 60, i % 20 ? 300 : 5000);
        if (i % 20 == 10)
            permit_all(&q);
        size_t length = kippertarn_write_queue_record(&q, message, sizeof message);
        around_limits("a random queue", message, length);
        lend_as_asked("a random queue", message, length);
    }
    expect("tables lent as asked", tables_asked, sizeof names / sizeof *names + random_queues);
    expect_nevers(random_queues);
}

static void null_pointers(void)
{
    uint8_t message[64], plan[KIPPERTARN_PLAN_BYTES];
    uint64_t table[12];
    size_t length = read_example("case-a", message, sizeof message);
    expect("no queue", kippertarn_check_queue(NULL, 0), 1);
    expect("no plan", kippertarn_check_plan(NULL, 0), 1);
    expect("no queue: its table", kippertarn_table_entries(NULL, 0), 1);
    expect("no queue: its states", kippertarn_most_kept(NULL, 0), 1);
    expect("nothing at all", kippertarn_plan(NULL, 0, NULL, 0, NULL, 0), 1);
    expect("no message", kippertarn_plan(NULL, 0, table, 12, plan, sizeof plan), 1);
    expect("no plan buffer, no table", kippertarn_plan(message, length, NULL, 0, NULL, 0), 15);
    expect("no plan buffer", kippertarn_plan(message, length, table, 12, NULL, 0), 15);
    expect("no table: its size", kippertarn_plan(message, length, NULL, 0, plan, sizeof plan),
           KIPPERTARN_TABLE + 256 * 12);
    expect("all that is needed", kippertarn_plan(message, length, table, 12, plan, sizeof plan),
           KIPPERTARN_DONE + 256 * 10);
}

/* Lengths of more than 32 bits, where the system has so much address space to give. Only the first bytes of it may be
 * touched, and no call needs more. */
static int huge_lengths(void)
{
    static const size_t huge = (size_t)1 << 32;
    uint8_t message[64], plan[KIPPERTARN_PLAN_BYTES];
    uint64_t table[12];
    size_t length = read_example("case-a", message, sizeof message);
    uint8_t *space = mmap(NULL, 8 * huge, PROT_NONE, MAP_PRIVATE | MAP_ANONYMOUS | MAP_NORESERVE, -1, 0);
    if (space == MAP_FAILED || mprotect(space, 4096, PROT_READ | PROT_WRITE))
        return 0;
    watch(message, length);
    expect("a table of 2^32 entries",
           kippertarn_plan(message, length, (uint64_t *)(void *)space, huge, plan, sizeof plan), 256 * 10);
    expect("a plan buffer of 2^32 bytes", kippertarn_plan(message, length, table, 12, space, huge), 256 * 10);
    expect("a plan of 2^32 bytes and 10", kippertarn_check_plan(space, huge + 10), 14);
    message[5] = 2; /* A's shift: so that it may be split */
    expect("a table of 2^32 entries for two cutters",
           kippertarn_split(message, length, 0, (uint64_t *)(void *)space, huge, plan, sizeof plan), 256 * 10);
    expect("a plan buffer of 2^32 bytes for two cutters",
           kippertarn_split(message, length, 0, table, 12, space, huge), 256 * 10);
    memcpy(space, message, length);
    expect("a queue of 2^32 bytes and 23", kippertarn_check_queue(space, huge + length), 14);
    expect("a queue of 2^32 bytes and 23, its table", kippertarn_table_entries(space, huge + length), 14);
    expect("a queue of 2^32 bytes and 23, its states", kippertarn_most_kept(space, huge + length), 14);
    expect("a queue of 2^32 bytes and 23, planned", kippertarn_plan(space, huge + length, table, 12, plan, sizeof plan),
           14);
    expect("a queue of 2^32 bytes and 23, split",
           kippertarn_split(space, huge + length, 0, table, 12, plan, sizeof plan), 14);
    munmap(space, 8 * huge);
    return 1;
}

/* A queue planned, and asked for its sizes, over and over beside others. */
struct planning {
    struct kippertarn_queue_record queue;
    unsigned long asked; /* how often for its sizes: so short a call must be made often for two to meet */
    unsigned long different;
};

static void *plan_again(void *of)
{
    struct planning *p = of;
    uint8_t message[KIPPERTARN_QUEUE_BYTES], plan[2][KIPPERTARN_PLAN_BYTES] = { { 0 } };
    uint64_t table[2][700] = { { 0 } }, first, again;
    struct ref_sizes sizes = ref_sizes_of(&p->queue);
    size_t length = kippertarn_write_queue_record(&p->queue, message, sizeof message), entries = entries_of(&p->queue);
    first = kippertarn_plan(message, length, table[0], entries, plan[0], sizeof plan[0]);
    for (int i = 0; i < 500; i++) {
        again = kippertarn_plan(message, length, table[1], entries, plan[1], sizeof plan[1]);
        p->different += again != first || memcmp(plan[0], plan[1], sizeof plan[0])
                        || memcmp(table[0], table[1], sizeof table[0]);
    }
    for (unsigned long i = 0; i < p->asked; i++)
        p->different += kippertarn_table_entries(message, length) != 256 * sizes.entries
                        || kippertarn_most_kept(message, length) != 256 * sizes.states;
    return NULL;
}

static void in_threads(unsigned long asked)
{
    struct planning plannings[4];
    pthread_t threads[4];
    for (int i = 0; i < 4; i++) {
        random_queue(&plannings[i].queue, 30, 700);
        plannings[i].asked = asked;
        plannings[i].different = 0;
        if (pthread_create(&threads[i], NULL, plan_again, &plannings[i])) {
            printf("FAILED: no thread\n");
            exit(1);
        }
    }
    for (int i = 0; i < 4; i++) {
        pthread_join(threads[i], NULL);
        expect("plans and sizes of one queue in threads that differ", plannings[i].different, 0);
    }
}

int main(int count, char **words)
{
    struct rounds rounds = rounds_from(count, words, 1000);
    open_rooms();
    messages_around_limits(rounds.wanted);
    null_pointers();
    in_threads(200 * rounds.wanted);
    if (huge_lengths())
        return summary("limits",
                       "lengths around every limit and over 32 bits, tables as asked, null pointers, threads");
    return summary("limits", "lengths around every limit, tables as asked, null pointers, threads "
                             "(no address space for lengths over 32 bits)");
}
